//go:build cgo

package cqlp

import (
	"bytes"
	"context"
	"errors"
	"fmt"
	"io"
	"net"
	"strings"
	"testing"
	"time"
)

// rowsUpTo reads rows into variables up to an error.
func rowsUpTo(data []byte, limits Limits, to ...any) error {
	r, err := NewRowReader(bytes.NewReader(data), limits)
	if err != nil {
		return err
	}
	defer r.Close()
	for r.Next() {
		if err := r.Scan(to...); len(to) > 0 && err != nil {
			return err
		}
	}
	return r.Err()
}

func batchesUpTo(data []byte, limits BatchLimits) error {
	r, err := NewColumnReader(bytes.NewReader(data), DefaultLimits(), limits)
	if err != nil {
		return err
	}
	defer r.Close()
	for r.Next() {
	}
	return r.Err()
}

func framesUpTo(data []byte, longest uint32) error {
	f, err := NewFrames(bytes.NewReader(data), DefaultLimits())
	if err != nil {
		return err
	}
	defer f.Close()
	f.Longest = longest
	for {
		frame, err := f.Next()
		if err != nil {
			return err
		}
		if failed, is := frame.Message.(error); is {
			return failed
		}
	}
}

func written(t *testing.T, message Message) []byte {
	t.Helper()
	b, err := AppendMessage(nil, 1, message)
	if err != nil {
		t.Fatal(err)
	}
	return b
}

// found is what errors.As finds of one type in an error that was wrapped.
func found[E error](err error) bool {
	var as E
	return errors.As(err, &as) && as.Error() != ""
}

// TestEachFaultIsAndAs makes each fault, wraps it, and finds it again.
func TestEachFaultIsAndAs(t *testing.T) {
	page := numbersPage(t, 3)
	nulls := written(t, &Rows{Metadata: Metadata{Columns: []Column{{"k", "t", "n", Type{Kind: KindInt}}}}, Rows: [][]any{{nil}}})
	big := written(t, &Rows{Metadata: Metadata{Columns: []Column{{"k", "t", "n", Type{Kind: KindBigint}}}}, Rows: [][]any{{1 << 40}}})
	empty := append(nulls[:len(nulls)-4:len(nulls)-4], 0, 0, 0, 0)
	listOfInts := Type{Kind: KindList, Inner: []Type{{Kind: KindInt}}}
	lists := written(t, &Rows{Metadata: Metadata{Columns: []Column{{"k", "t", "l", listOfInts}}}, Rows: [][]any{{[]int{1}}}})
	long := written(t, &Rows{Metadata: Metadata{Columns: []Column{{"k", "t", "s", Type{Kind: KindVarchar}}}}, Rows: [][]any{{strings.Repeat("x", 500)}}})
	var number int32
	var text string
	var missing struct {
		N string `cqlp:"nothing"`
	}
	narrow := DefaultLimits()
	narrow.Text = 1
	for _, each := range []struct {
		name string
		err  error
		is   error
		as   func(error) bool
	}{
		{"a refused stream", rowsUpTo([]byte{5, 0, 0, 0, 5, 0, 0, 0, 0}, DefaultLimits()), ReasonBadVersion, found[*Refusal]},
		{"a refused text", framesUpTo([]byte("\x04\x00\x00\x02\x07\x00\x00\x00\x0a\x00\x00\x00\x03b\xc3d\x00\x01\x00"), 99), ReasonBadUTF8, found[*Refusal]},
		{"a stream that is cut", rowsUpTo(page[:len(page)-1], DefaultLimits()), io.ErrUnexpectedEOF, found[*Cut]},
		{"a limit", rowsUpTo(page, narrow), nil, found[*LimitError]},
		{"null in a number", rowsUpTo(nulls, DefaultLimits(), &number), ErrNull, found[*ScanError]},
		{"a value of no bytes in a number", rowsUpTo(empty, DefaultLimits(), &number), ErrEmpty, found[*ScanError]},
		{"a number that is too large", rowsUpTo(big, DefaultLimits(), &number), ErrRange, found[*ScanError]},
		{"a text for a number", rowsUpTo(big, DefaultLimits(), &text), nil, found[*ScanError]},
		{"a tag without a column", rowsUpTo(big, DefaultLimits(), &missing), ErrNoColumn, found[*ScanError]},
		{"no row", func() error { return rowReader(t, strings.NewReader("")).Scan(&number) }(), ErrNoRow, found[*ScanError]},
		{"a long frame", framesUpTo(page, 10), nil, found[*FrameTooLong]},
		{"a long value", batchesUpTo(long, BatchLimits{1, 1000}), nil, found[*CellTooLong]},
		{"values with items as columns", batchesUpTo(lists, DefaultBatchLimits()), CodeUnsupported, found[Code]},
		{"an ERROR", framesUpTo(written(t, &ServerError{Code: ErrorInvalid, Message: "bad"}), 99), ErrorInvalid, found[*ServerError]},
		{"an ERROR with fields", framesUpTo(written(t, &Unavailable{ServerError: ServerError{Code: ErrorUnavailable}}), 99), ErrorUnavailable, found[*Unavailable]},
		{"the same", framesUpTo(written(t, &Unavailable{ServerError: ServerError{Code: ErrorUnavailable}}), 99), ErrorUnavailable, found[*ServerError]},
		{"an event that cannot be", func() error { _, err := EncodeEvents([]Event{{Tag: TagEnd}}); return err }(), nil, found[*EventError]},
		{"an event out of place", func() error { _, err := EncodeEvents([]Event{{Tag: 200}}); return err }(), CodeNoEvent, found[Code]},
		{"a reply to nothing", func() error {
			c, _ := NewClient(4)
			defer c.Close()
			_, err := c.Begin(OpcodeQuery, 0)
			return err
		}(), CodeBadPhase, found[Code]},
		{"a call after Close", func() error {
			r, _ := NewReader(bytes.NewReader(page), DefaultLimits())
			r.Close()
			_, err := r.Next()
			return err
		}(), net.ErrClosed, nil},
		{"the same, by its own name", func() error { c, _ := NewClient(4); c.Close(); _, err := c.Begin(OpcodeOptions, 0); return err }(), ErrClosed, nil},
		{"a text that is no UTF-8", func() error { _, err := AppendMessage(nil, 0, &Query{Query: "\xff"}); return err }(), ErrNotText, nil},
		{"the error of an io.Reader", rowsUpToReader(errReader{io.ErrClosedPipe}), io.ErrClosedPipe, nil},
		{"a context that is done", func() error {
			ctx, cancel := context.WithDeadline(context.Background(), time.Unix(1, 0))
			defer cancel()
			r := rowReader(t, bytes.NewReader(page))
			r.NextPageContext(ctx)
			return r.Err()
		}(), context.DeadlineExceeded, nil},
	} {
		err := fmt.Errorf("of a caller: %w", each.err)
		if each.err == nil || each.is != nil && !errors.Is(err, each.is) || each.as != nil && !each.as(err) {
			t.Errorf("%s: %v", each.name, err)
		}
		if errors.Is(err, io.EOF) {
			t.Errorf("%s is an end", each.name)
		}
	}
}

type errReader struct{ error }

func (r errReader) Read([]byte) (int, error) { return 0, r.error }

func rowsUpToReader(source io.Reader) error {
	r, err := NewRowReader(source, DefaultLimits())
	if err != nil {
		return err
	}
	defer r.Close()
	r.Next()
	return r.Err()
}

// TestPagesOfAQuery reads pages by their paging states, each with a context, and passes over the rows of every other.
func TestPagesOfAQuery(t *testing.T) {
	var stream []byte
	for i := 0; i < 6; i++ {
		page := &Rows{Metadata: Metadata{Columns: []Column{{"k", "t", "n", Type{Kind: KindInt}}}}, Rows: [][]any{{i}, {i + 10}}}
		if i < 5 {
			page.Metadata.PagingState = []byte{byte(i + 1)}
		}
		stream = append(stream, written(t, page)...)
	}
	r, sum, pages := rowReader(t, bytes.NewReader(stream)), 0, 0
	for ; r.NextPageContext(context.Background()); pages++ {
		if state := r.Page().Metadata.PagingState; (pages < 5) != (len(state) == 1) || pages < 5 && int(state[0]) != pages+1 {
			t.Error(pages, state)
		}
		for row := 0; row < r.Page().Number%2*2 && r.NextContext(context.Background()); row++ {
			var n int
			if err := r.Scan(&n); err != nil {
				t.Fatal(err)
			}
			sum += n
		}
	}
	if err := r.Err(); err != nil || pages != 6 || sum != 0+10+2+12+4+14 {
		t.Error(err, pages, sum)
	}
}
