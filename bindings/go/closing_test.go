//go:build cgo

package cqlp

import (
	"bytes"
	"io"
	"os"
	"runtime"
	"sync"
	"testing"
	"testing/iotest"
	"time"
)

// numbersPage is a page of one column of bigints, from 0 on, whose arrays are too large to stay with the allocator once they are freed.
func numbersPage(t testing.TB, rows int) []byte {
	t.Helper()
	page := &Rows{Metadata: Metadata{Columns: []Column{{"k", "t", "n", Type{Kind: KindBigint}}, {"k", "t", "s", Type{Kind: KindVarchar}}}}}
	for i := 0; i < rows; i++ {
		page.Rows = append(page.Rows, []any{i, "text of a row"})
	}
	b, err := AppendMessage(nil, 1, page)
	if err != nil {
		t.Fatal(err)
	}
	return b
}

// TestColumnsOutliveTheirReader reads arrays after their reader was collected, and after it was closed.
func TestColumnsOutliveTheirReader(t *testing.T) {
	const rows = 100000
	page := numbersPage(t, rows)
	for _, closes := range []bool{false, true} {
		first := func() *ColumnArray {
			r, err := NewColumnReader(bytes.NewReader(page), DefaultLimits(), BatchLimits{rows, 1 << 30})
			if err != nil || !r.Next() || r.Rows() != rows {
				t.Fatal(err, r.Rows(), "rows")
			}
			if closes {
				r.Close()
			}
			return &r.Columns()[0]
		}()
		ints, valid := first.Int64s(), first.Valid
		for i := 0; i < 4; i++ {
			runtime.GC()
			time.Sleep(time.Millisecond) // for the goroutine of finalizers
		}
		sum := int64(0)
		for i, n := range ints {
			if bitOf(valid, i) {
				sum += n
			}
		}
		if sum != rows*(rows-1)/2 {
			t.Error("the sum is", sum)
		}
	}
}

// closers are what reads from an io.Reader: each reads all of it, and answers the last error.
var closers = map[string]func(io.Reader) (io.Closer, func() error, error){
	"Reader": func(source io.Reader) (io.Closer, func() error, error) {
		r, err := NewReader(source, DefaultLimits())
		return r, func() error {
			for {
				if _, err := r.Next(); err != nil {
					return err
				}
			}
		}, err
	},
	"Frames": func(source io.Reader) (io.Closer, func() error, error) {
		r, err := NewFrames(source, DefaultLimits())
		return r, func() error {
			for {
				if _, err := r.Next(); err != nil {
					return err
				}
			}
		}, err
	},
	"RowReader": func(source io.Reader) (io.Closer, func() error, error) {
		r, err := NewRowReader(source, DefaultLimits())
		return r, func() error {
			for r.Next() {
				_ = r.Values()
			}
			return r.Err()
		}, err
	},
	"ColumnReader": func(source io.Reader) (io.Closer, func() error, error) {
		r, err := NewColumnReader(source, DefaultLimits(), BatchLimits{16, 1 << 20})
		return r, func() error {
			for r.Next() {
				_ = r.Columns()[0].Int64s()
			}
			return r.Err()
		}, err
	},
	"Decoder": func(source io.Reader) (io.Closer, func() error, error) {
		d, err := NewDecoder(DefaultLimits())
		return d, func() error {
			rest, err := io.ReadAll(source)
			for err == nil {
				var n int
				_, n, err = d.Next(rest)
				rest = rest[n:]
			}
			if err == ErrMore {
				return nil
			}
			return err
		}, err
	},
}

// TestCloseByAnother closes each reader at some moment of its reading, from another goroutine: it reads on to the end, or is closed.
func TestCloseByAnother(t *testing.T) {
	page := numbersPage(t, 500)
	for name, open := range closers {
		for round := 0; round < 300; round++ {
			closer, read, err := open(bytes.NewReader(page))
			if err != nil {
				t.Fatal(err)
			}
			var closing sync.WaitGroup
			closing.Add(1)
			go func() {
				defer closing.Done()
				time.Sleep(time.Duration(round) * time.Microsecond)
				if closer.Close() != nil || closer.Close() != nil {
					t.Error(name, "is not closed")
				}
			}()
			if err := read(); err != nil && err != ErrClosed && err != io.EOF {
				t.Fatal(name, err)
			}
			closing.Wait()
			if err := read(); err != ErrClosed && err != io.EOF && err != nil {
				t.Fatal(name, "after Close", err)
			}
		}
	}
}

// TestCloseWhileItWaits closes each reader while it waits for its io.Reader.
func TestCloseWhileItWaits(t *testing.T) {
	page := numbersPage(t, 500)
	for name, open := range closers {
		if name == "Decoder" {
			continue // it waits for nothing
		}
		source, target := io.Pipe()
		closer, read, err := open(source)
		if err != nil {
			t.Fatal(err)
		}
		answer := make(chan error)
		go func() { answer <- read() }()
		target.Write(page[:len(page)/2]) // it has been read, so more is waited for
		closer.Close()
		target.Close()
		if err := <-answer; err != ErrClosed {
			t.Error(name, err)
		}
	}
}

// TestHeaderOfAnotherVersion has the header that is refused, also where its bytes come one by one, and what answers it.
func TestHeaderOfAnotherVersion(t *testing.T) {
	before, err := os.ReadFile("../pages.bin")
	if err != nil {
		t.Fatal(err)
	}
	other := []byte{5, 0, 0x12, 0x34, 5, 0, 0, 0, 0}
	stream := append(before, other...)
	for _, source := range []io.Reader{bytes.NewReader(stream), iotest.OneByteReader(bytes.NewReader(stream)), iotest.HalfReader(bytes.NewReader(stream))} {
		f, err := NewFrames(source, DefaultLimits())
		for err == nil {
			_, err = f.Next()
		}
		refusal, ok := err.(*Refusal)
		if !ok || refusal.Reason != ReasonBadVersion || !bytes.Equal(f.Header(), other) {
			t.Fatalf("%v, and the header is % x", err, f.Header())
		}
		f.Close()
	}
	answer := VersionError(other)
	f, err := NewFrames(bytes.NewReader(answer), DefaultLimits())
	if err != nil {
		t.Fatal(err)
	}
	defer f.Close()
	frame, err := f.Next()
	if err != nil || frame.Stream != 0x1234 || frame.Message.(*ServerError).Code != ErrorProtocolError {
		t.Error(err, frame)
	}
}
