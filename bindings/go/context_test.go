//go:build cgo

package cqlp

import (
	"bytes"
	"context"
	"errors"
	"io"
	"net"
	"os"
	"runtime"
	"testing"
	"time"
)

// waiters are what reads from a connection: each reads up to an error, with a context.
var waiters = map[string]func(io.Reader) (io.Closer, func(context.Context) error, error){
	"Reader": func(source io.Reader) (io.Closer, func(context.Context) error, error) {
		r, err := NewReader(source, DefaultLimits())
		return r, func(ctx context.Context) (err error) {
			for err == nil {
				_, err = r.NextContext(ctx)
			}
			return err
		}, err
	},
	"Frames": func(source io.Reader) (io.Closer, func(context.Context) error, error) {
		f, err := NewFrames(source, DefaultLimits())
		return f, func(ctx context.Context) (err error) {
			for err == nil {
				_, err = f.NextContext(ctx)
			}
			return err
		}, err
	},
	"RowReader": func(source io.Reader) (io.Closer, func(context.Context) error, error) {
		r, err := NewRowReader(source, DefaultLimits())
		return r, func(ctx context.Context) error {
			for r.NextContext(ctx) {
			}
			return r.Err()
		}, err
	},
	"RowReader, pages": func(source io.Reader) (io.Closer, func(context.Context) error, error) {
		r, err := NewRowReader(source, DefaultLimits())
		return r, func(ctx context.Context) error {
			for r.NextPageContext(ctx) {
			}
			return r.Err()
		}, err
	},
	"ColumnReader": func(source io.Reader) (io.Closer, func(context.Context) error, error) {
		r, err := NewColumnReader(source, DefaultLimits(), DefaultBatchLimits())
		return r, func(ctx context.Context) error {
			for r.NextContext(ctx) {
			}
			return r.Err()
		}, err
	},
}

// connected are the two ends of a connection over the loopback, or of a pipe in memory where there is none.
func connected(t *testing.T) (here, there net.Conn) {
	t.Helper()
	listener, err := net.Listen("tcp", "127.0.0.1:0")
	if err != nil {
		here, there = net.Pipe()
	} else {
		defer listener.Close()
		if here, err = net.Dial("tcp", listener.Addr().String()); err != nil {
			t.Fatal(err)
		}
		if there, err = listener.Accept(); err != nil {
			t.Fatal(err)
		}
	}
	t.Cleanup(func() { here.Close(); there.Close() })
	return here, there
}

// within fails the test if a call takes longer than ten seconds.
func within(t *testing.T, what string, call func() error) error {
	t.Helper()
	answer := make(chan error, 1)
	go func() { answer <- call() }()
	select {
	case err := <-answer:
		return err
	case <-time.After(10 * time.Second):
		t.Fatal(what, "waits on")
		return nil
	}
}

// leaves fails the test if there are more goroutines than before it for long.
func leaves(t *testing.T, before int) {
	t.Helper()
	for i := 0; runtime.NumGoroutine() > before; i++ {
		if i == 100 {
			t.Fatal(runtime.NumGoroutine(), "goroutines, and before", before)
		}
		time.Sleep(10 * time.Millisecond)
	}
}

// TestContextEndsACallThatWaits has a context end a call between two pages; the next call reads on. Then one ends a call within a page.
func TestContextEndsACallThatWaits(t *testing.T) {
	page := numbersPage(t, 20)
	for name, open := range waiters {
		here, there := connected(t)
		closer, read, err := open(here)
		if err != nil {
			t.Fatal(err)
		}
		before := runtime.NumGoroutine()
		sent := append(page[:len(page):len(page)], page[:4]...) // a frame, and some of the next header
		for round := 0; round < 3; round++ {
			if _, err := there.Write(sent); err != nil {
				t.Fatal(err)
			}
			ctx, cancel := context.WithTimeout(context.Background(), 20*time.Millisecond)
			if err := within(t, name, func() error { return read(ctx) }); !errors.Is(err, context.DeadlineExceeded) {
				t.Error(name, round, err)
			}
			cancel()
			sent = append(page[4:len(page):len(page)], page[:4]...)
		}
		there.Write(page[4 : len(page)-1])
		ctx, cancel := context.WithCancel(context.Background())
		time.AfterFunc(20*time.Millisecond, cancel)
		if err := within(t, name, func() error { return read(ctx) }); err != context.Canceled {
			t.Error(name, err)
		}
		there.Write(page[len(page)-1:])
		there.Close()
		wanted := context.Canceled
		if name == "Reader" {
			wanted = io.EOF // it has no frame to lose
		}
		if err := within(t, name, func() error { return read(context.Background()) }); err != wanted {
			t.Error(name, "after a frame that was given up:", err)
		}
		closer.Close()
		leaves(t, before)
	}
}

// TestContextThatIsDoneBefore reads nothing of the connection, and leaves it without a deadline.
func TestContextThatIsDoneBefore(t *testing.T) {
	here, there := connected(t)
	f, err := NewFrames(here, DefaultLimits())
	if err != nil {
		t.Fatal(err)
	}
	defer f.Close()
	ctx, cancel := context.WithCancel(context.Background())
	cancel()
	if _, err := f.NextContext(ctx); err != context.Canceled {
		t.Error(err)
	}
	ctx, cancel = context.WithTimeout(context.Background(), time.Millisecond)
	defer cancel()
	if err := within(t, "Frames", func() error { _, err := f.NextContext(ctx); return err }); err != context.DeadlineExceeded {
		t.Error(err)
	}
	time.AfterFunc(20*time.Millisecond, func() { there.Write([]byte("\x04\x00\x00\x01\x05\x00\x00\x00\x00")) })
	if frame, err := f.Next(); err != nil || frame.Stream != 1 {
		t.Error(err)
	}
}

// TestContextOfASourceWithoutDeadlines looks at the context before each Read.
func TestContextOfASourceWithoutDeadlines(t *testing.T) {
	ctx, cancel := context.WithCancel(context.Background())
	reads := 0
	r := rowReader(t, readerFunc(func(p []byte) (int, error) {
		if reads++; reads == 2 {
			cancel()
		}
		return copy(p, numbersPage(t, 1)), nil
	}))
	for r.NextContext(ctx) {
	}
	if r.Err() != context.Canceled || reads != 2 {
		t.Error(r.Err(), reads)
	}
}

// TestDeadlineOfTheCaller is an error of the connection, as it is without a context.
func TestDeadlineOfTheCaller(t *testing.T) {
	here, _ := connected(t)
	f, err := NewFrames(here, DefaultLimits())
	if err != nil {
		t.Fatal(err)
	}
	defer f.Close()
	here.SetReadDeadline(time.Now().Add(10 * time.Millisecond))
	if err := within(t, "Frames", func() error { _, err := f.NextContext(context.Background()); return err }); !errors.Is(err, os.ErrDeadlineExceeded) {
		t.Error(err)
	}
}

// TestCloseEndsACallThatWaits closes a reader that waits for a connection, which stays open and without a deadline.
func TestCloseEndsACallThatWaits(t *testing.T) {
	page := numbersPage(t, 20)
	for name, open := range waiters {
		for _, ctx := range []context.Context{context.Background(), contextOfATest(t)} {
			here, there := connected(t)
			closer, read, err := open(here)
			if err != nil {
				t.Fatal(err)
			}
			before := runtime.NumGoroutine()
			there.Write(page[:len(page)-1])
			time.AfterFunc(20*time.Millisecond, func() { closer.Close() })
			if err := within(t, name, func() error { return read(ctx) }); err != ErrClosed || !errors.Is(err, net.ErrClosed) || errors.Is(err, io.EOF) {
				t.Error(name, err)
			}
			if err := read(ctx); err != ErrClosed {
				t.Error(name, "after Close", err)
			}
			leaves(t, before)
			time.AfterFunc(20*time.Millisecond, func() { there.Write([]byte("x")) })
			if b := make([]byte, 1); within(t, "the connection", func() error { _, err := here.Read(b); return err }) != nil || !bytes.Equal(b, []byte("x")) {
				t.Error(name, "has closed the connection, or left a deadline")
			}
		}
	}
}

// TestCloseBeforeARead closes a source after a call found it open, and before its Read.
func TestCloseBeforeARead(t *testing.T) {
	here, _ := connected(t)
	s := newSource(here)
	s.close()
	if err := within(t, "the source", func() error { _, err := s.read(context.Background(), make([]byte, 1)); return err }); err != (interrupted{ErrClosed}) {
		t.Error(err)
	}
}

func contextOfATest(t *testing.T) context.Context {
	ctx, cancel := context.WithCancel(context.Background())
	t.Cleanup(cancel)
	return ctx
}

// TestCloseAndContextAtAnyMoment closes a reader, or ends its context, around the moment at which bytes come.
func TestCloseAndContextAtAnyMoment(t *testing.T) {
	page := numbersPage(t, 2)
	for round := 0; round < 200; round++ {
		for name, open := range waiters {
			here, there := net.Pipe()
			closer, read, err := open(here)
			if err != nil {
				t.Fatal(err)
			}
			ctx, cancel := context.WithCancel(context.Background())
			go func() {
				for i := 0; i < 3; i++ {
					there.Write(page)
				}
			}()
			time.AfterFunc(time.Duration(round)*time.Microsecond, cancel)
			err = within(t, name, func() error { return read(ctx) })
			if err != context.Canceled {
				t.Error(name, err)
			}
			time.AfterFunc(time.Duration(round)*time.Microsecond, func() { closer.Close() })
			if err = within(t, name, func() error { return read(context.Background()) }); err != ErrClosed && err != context.Canceled {
				t.Error(name, err)
			}
			here.Close()
			there.Close()
		}
	}
}
