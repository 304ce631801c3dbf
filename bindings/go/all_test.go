//go:build cgo

package cqlp

import (
	"bytes"
	"errors"
	"fmt"
	"io"
	"os"
	"reflect"
	"testing"
)

func pagesOfFile(t *testing.T) []byte {
	t.Helper()
	pages, err := os.ReadFile("../pages.bin")
	if err != nil {
		t.Fatal(err)
	}
	return pages
}

// steps are those of an iterator, at most this many, and the error of the last one.
func steps[T any](all func(yield func(T, error) bool), most int) (found []T, failed error) {
	all(func(one T, err error) bool {
		if failed = err; err == nil {
			found = append(found, one)
		}
		return len(found) < most
	})
	return found, failed
}

func TestAllOfEachReader(t *testing.T) {
	pages := pagesOfFile(t)
	events, err := NewReader(bytes.NewReader(pages), DefaultLimits())
	if err != nil {
		t.Fatal(err)
	}
	defer events.Close()
	if found, err := steps(events.All(), 1000); err != nil || len(found) < 60 || found[len(found)-1].Tag != TagEnd {
		t.Fatal(len(found), err)
	}
	frames, err := NewFrames(bytes.NewReader(pages), DefaultLimits())
	if err != nil {
		t.Fatal(err)
	}
	defer frames.Close()
	if found, err := steps(frames.All(), 9); err != nil || len(found) != 2 || len(found[1].Message.(*Rows).Rows) != 2 {
		t.Fatal(len(found), err)
	}
	wanted := rowsOf(t, rowReader(t, bytes.NewReader(pages)))
	rows := rowReader(t, bytes.NewReader(pages))
	for most := 1; most < 6; most++ { // it goes on where it was left
		if found, err := steps(rows.All(), 1); err != nil || !reflect.DeepEqual(found, wanted[most-1:most]) {
			t.Fatal(found, err)
		}
	}
	if found, err := steps(rows.All(), 9); err != nil || len(found) != 0 {
		t.Fatal(found, err)
	}
	columns, err := NewColumnReader(bytes.NewReader(pages[:218]), DefaultLimits(), BatchLimits{Rows: 2, Memory: 1 << 20})
	if err != nil {
		t.Fatal(err)
	}
	defer columns.Close()
	var numbers []int64
	columns.All()(func(batch []ColumnArray, err error) bool {
		numbers = append(numbers, batch[1].Int64s()...)
		return err == nil
	})
	if !reflect.DeepEqual(numbers, []int64{0, 1000003, 2000006}) {
		t.Fatal(numbers)
	}
}

func TestRowsOf(t *testing.T) {
	type order struct {
		ID     int32 `cqlp:"column0"`
		Amount int64 `cqlp:"column1"`
	}
	pages := pagesOfFile(t)
	found, err := steps(RowsOf[order](rowReader(t, bytes.NewReader(pages[:218]))), 9)
	if err != nil || !reflect.DeepEqual(found, []order{{0, 0}, {1, 1000003}, {2, 2000006}}) {
		t.Fatal(found, err)
	}
	if found, err = steps(RowsOf[order](rowReader(t, bytes.NewReader(pages[:218]))), 1); err != nil || len(found) != 1 {
		t.Fatal(found, err)
	}
	var wrong []string
	RowsOf[order](rowReader(t, bytes.NewReader(pages)))(func(_ order, err error) bool {
		var failed *ScanError
		wrong = append(wrong, fmt.Sprint(errors.As(err, &failed)))
		return true
	})
	if fmt.Sprint(wrong) != "[false false false true true]" {
		t.Fatal(wrong)
	}
}

func TestAllEndsWithTheError(t *testing.T) {
	pages := pagesOfFile(t)
	rows, err := steps(rowReader(t, bytes.NewReader(pages[:300])).All(), 9)
	if len(rows) != 3 || !errors.Is(err, io.ErrUnexpectedEOF) {
		t.Fatal(rows, err)
	}
	closed := rowReader(t, bytes.NewReader(pages))
	closed.Close()
	if rows, err = steps(closed.All(), 9); len(rows) != 0 || !errors.Is(err, ErrClosed) {
		t.Fatal(rows, err)
	}
	type none struct{}
	if found, err := steps(RowsOf[none](rowReader(t, bytes.NewReader(pages[:100]))), 9); !errors.Is(err, io.ErrUnexpectedEOF) {
		t.Fatal(found, err)
	}
}
