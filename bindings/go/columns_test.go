//go:build cgo

package cqlp

import (
	"bytes"
	"encoding/binary"
	"errors"
	"fmt"
	"io"
	"math/big"
	"net"
	"os/exec"
	"reflect"
	"testing"
	"testing/iotest"
	"time"
)

// aPage is a page with columns of these types, each the id of an option, and with these cells.
func aPage(options []uint16, count int, cells ...[]byte) []byte {
	word := func(s string) []byte { return append([]byte{0, byte(len(s))}, s...) }
	body := []byte{0, 0, 0, 2, 0, 0, 0, 1, 0, 0, 0, byte(len(options))}
	body = append(append(body, word("k")...), word("t")...)
	for i, option := range options {
		body = append(body, word(fmt.Sprint("c", i))...)
		body = append(body, byte(option>>8), byte(option))
		if option == 0x20 {
			body = append(body, 0, 9)
		}
	}
	body = append(body, 0, 0, 0, byte(count))
	for _, cell := range cells {
		body = append(body, cell...)
	}
	head := []byte{0x84, 0, 0, 0, 8, 0, 0, 0, 0}
	binary.BigEndian.PutUint32(head[5:], uint32(len(body)))
	return append(head, body...)
}

func aCell(content string) []byte {
	return append([]byte{0, 0, 0, byte(len(content))}, content...)
}

var (
	aNull = []byte{0xff, 0xff, 0xff, 0xff}
	// 1, "abc", true; null, empty, empty; empty, null, false
	smallPage = aPage([]uint16{9, 13, 4}, 3, aCell("\x00\x00\x00\x01"), aCell("abc"), aCell("\x01"), aNull, aCell(""), aCell(""), aCell(""), aNull, aCell("\x00"))
)

// valueOf is what RowReader.Values has of a cell.
func valueOf(a *ColumnArray, i int) any {
	switch {
	case a.IsEmpty(i):
		switch a.Kind {
		case KindASCII, KindVarchar:
			return ""
		case KindBlob, KindCustom, KindRaw:
			return []byte{}
		}
		return Empty{}
	case !a.IsValid(i):
		return nil
	}
	e := Event{Tag: TagLeaf, Kind: a.Kind}
	switch a.Kind {
	case KindBoolean:
		return a.Bool(i)
	case KindTinyint:
		e.Number = int64(a.Int8s()[i])
	case KindSmallint:
		e.Number = int64(a.Int16s()[i])
	case KindInt:
		e.Number = int64(a.Int32s()[i])
	case KindBigint, KindCounter, KindTimestamp, KindTime:
		e.Number = a.Int64s()[i]
	case KindDate:
		e.Number = int64(a.Uint32s()[i])
	case KindFloat:
		return a.Float32s()[i]
	case KindDouble:
		return a.Float64s()[i]
	case KindUUID, KindTimeUUID:
		e.Octets = uint8(copy(e.Bytes[:], a.Bytes(i)))
	case KindInet:
		e.Octets = uint8(copy(e.Bytes[:], a.Bytes(i)))
	case KindDecimal:
		e.Extra, e.Content = int32(binary.BigEndian.Uint32(a.Bytes(i))), a.Bytes(i)[4:]
	default:
		e.Content = clone(a.Bytes(i))
	}
	return e.Value()
}

// readColumns gives the rows of the batches of a stream, how many they were, and how it ended.
func readColumns(t *testing.T, source io.Reader, limits Limits, batch BatchLimits, set func(*ColumnReader)) (rows [][]any, batches int, end error) {
	t.Helper()
	r, err := NewColumnReader(source, limits, batch)
	if err != nil {
		t.Fatal(err)
	}
	defer r.Close()
	if set != nil {
		set(r)
	}
	page, next := 0, 0
	for r.Next() {
		if page != r.Page().Number {
			page, next = r.Page().Number, 0
		}
		if r.First() != next || r.Rows() > batch.Rows {
			t.Fatal("rows", r.First(), r.Rows(), "and not from", next)
		}
		next += r.Rows()
		for i := 0; i < r.Rows(); i++ {
			row := []any{}
			for k := range r.Columns() {
				row = append(row, valueOf(&r.Columns()[k], i))
			}
			rows = append(rows, row)
		}
		batches++
	}
	return rows, batches, r.Err()
}

func readRows(t *testing.T, source io.Reader, limits Limits, set func(*RowReader)) (rows [][]any, end error) {
	t.Helper()
	r, err := NewRowReader(source, limits)
	if err != nil {
		t.Fatal(err)
	}
	defer r.Close()
	if set != nil {
		set(r)
	}
	for r.Next() {
		rows = append(rows, r.Values())
	}
	return rows, r.Err()
}

// sameRows says whether rows are as what ends them.
func sameRows(t *testing.T, what string, stream []byte, limits Limits, batch BatchLimits) {
	t.Helper()
	wanted, end := readRows(t, bytes.NewReader(stream), limits, nil)
	for _, source := range []io.Reader{bytes.NewReader(stream), iotest.OneByteReader(bytes.NewReader(stream))} {
		found, _, err := readColumns(t, source, limits, batch, nil)
		if !reflect.DeepEqual(err, end) {
			t.Fatalf("%s: %v, and not %v", what, err, end)
		}
		if fmt.Sprintf("%#v", wordsOf(found)) != fmt.Sprintf("%#v", wordsOf(wanted)) {
			t.Fatalf("%s: %v, and not %v", what, found, wanted)
		}
	}
}

// wordsOf has words for what lies behind pointers.
func wordsOf(rows [][]any) (found []string) {
	for _, row := range rows {
		for _, value := range row {
			switch v := value.(type) {
			case *big.Int:
				value = v.String()
			case Decimal:
				value = fmt.Sprint(v.Unscaled, v.Scale)
			case time.Time:
				value = v.String()
			case net.IP:
				value = v.String()
			case fmt.Stringer:
				value = v.String()
			}
			found = append(found, fmt.Sprintf("%T %v", value, value))
		}
	}
	return found
}

func madePage(t *testing.T, words ...string) []byte {
	t.Helper()
	page, err := exec.Command("python3", append([]string{"../../bench/pages.py"}, words...)...).Output()
	if err != nil {
		t.Skip("python3 is not there: ", err)
	}
	return page
}

func TestColumnsOfEachCut(t *testing.T) {
	stream := append(append([]byte{}, smallPage...), smallPage...)
	for rows := 1; rows <= 4; rows++ {
		for cut := range stream {
			sameRows(t, fmt.Sprint(rows, " rows, ", cut, " bytes"), stream[:cut], DefaultLimits(), BatchLimits{rows, 1 << 20})
		}
		sameRows(t, "whole", stream, DefaultLimits(), BatchLimits{rows, 1 << 20})
	}
	_, batches, _ := readColumns(t, bytes.NewReader(stream), DefaultLimits(), BatchLimits{2, 1 << 20}, nil)
	if batches != 4 {
		t.Error(batches, "batches")
	}
}

func TestColumnsOfAPage(t *testing.T) {
	r, err := NewColumnReader(bytes.NewReader(smallPage), DefaultLimits(), DefaultBatchLimits())
	if err != nil {
		t.Fatal(err)
	}
	defer r.Close()
	if !r.Next() || r.Rows() != 3 || r.Page().Count != 3 {
		t.Fatal(r.Err())
	}
	a, b, c := r.Columns()[0], r.Columns()[1], r.Columns()[2]
	printed := fmt.Sprint(a.Int32s(), a.Offsets, a.Valid, a.Empty, string(b.Values), b.Offsets, b.Valid, b.Empty, c.Values, c.Valid, c.Empty, b.Int32s(), c.Column.Name)
	if wanted := "[1 0 0] [] [1] [4]abc[0 3 3 3] [3] [2] [1] [5] [2] []c2"; printed != wanted {
		t.Error(printed)
	}
	if r.Next() || r.Err() != nil || r.Rows() != 0 {
		t.Error("there is more")
	}
	if r.Close() != nil || r.Next() || r.Close() != nil {
		t.Error("it was closed")
	}
}

func TestColumnsOfPagesOfTheBenchmarks(t *testing.T) {
	for _, words := range [][]string{{"rows", "300"}, {"rows", "bare", "300"}, {"columns", "5"}, {"kinds", "200"}} {
		page := madePage(t, words...)
		limits := DefaultLimits()
		for _, rows := range []int{7, 300, 8192} {
			sameRows(t, fmt.Sprint(words), page, limits, BatchLimits{rows, 1 << 26})
			sameRows(t, fmt.Sprint(words, " cut"), page[:len(page)-1], limits, BatchLimits{rows, 1 << 26})
		}
		limits.Types = false
		sameRows(t, fmt.Sprint(words, " raw"), append(page, page...), limits, DefaultBatchLimits())
	}
}

func TestColumnsOfStreams(t *testing.T) {
	for _, s := range streams(t) {
		if s.limits.Parts {
			continue
		}
		for at := 0; at <= len(s.bytes); at += 1 + len(s.bytes)/8 {
			stream := append([]byte{}, s.bytes...)
			if at > 0 && at < len(stream) {
				stream[at] ^= 1 << (at % 8)
			}
			_, _, ended := readColumns(t, bytes.NewReader(stream), s.limits, DefaultBatchLimits(), nil)
			if ended != CodeUnsupported && ended != CodeTooManyColumns {
				sameRows(t, s.name, stream, s.limits, DefaultBatchLimits())
			}
		}
	}
}

func TestColumnsThatSkip(t *testing.T) {
	bad := madePage(t, "rows", "50")
	bad[len(bad)-21] = 0xff // the last letter of a text
	stream := append(append(append([]byte{}, smallPage...), bad...), smallPage...)
	var wanted, passed []Skipped
	rows, err := readRows(t, bytes.NewReader(stream), DefaultLimits(), func(r *RowReader) {
		r.Skip = func(s Skipped) { wanted = append(wanted, s) }
	})
	if err != nil || len(rows) != 55 || len(wanted) != 1 {
		t.Fatal(err, len(rows), wanted)
	}
	for _, most := range []int{1, 7, 8192} {
		passed = nil
		found, _, err := readColumns(t, bytes.NewReader(stream), DefaultLimits(), BatchLimits{most, 1 << 20}, func(r *ColumnReader) {
			r.Skip = func(s Skipped) { passed = append(passed, s) }
		})
		if err != nil || !reflect.DeepEqual(wordsOf(found), wordsOf(rows)) || !reflect.DeepEqual(passed, wanted) {
			t.Error(most, err, len(found), passed)
		}
	}
	sameRows(t, "refused", stream, DefaultLimits(), BatchLimits{7, 1 << 20})
}

func TestColumnsThatAreNotDescribed(t *testing.T) {
	whole := madePage(t, "rows", "20")
	body := append([]byte{0, 0, 0, 2, 0, 0, 0, 4, 0, 0, 0, 4}, whole[len(whole)-20*45-4:]...)
	bare := []byte{0x84, 0, 0, 0, 8, 0, 0, 0, 0}
	binary.BigEndian.PutUint32(bare[5:], uint32(len(body)))
	bare = append(bare, body...)
	sameRows(t, "raw", bare, DefaultLimits(), DefaultBatchLimits())

	first, err := NewRowReader(bytes.NewReader(whole), DefaultLimits())
	if err != nil {
		t.Fatal(err)
	}
	defer first.Close()
	for first.Next() {
	}
	typesOf := func() *Types {
		types, err := first.TypesOf()
		if err != nil {
			t.Fatal(err)
		}
		return types
	}
	types := typesOf()
	stream := append(append(append([]byte{}, bare...), bare...), smallPage...)
	give := func(Event) *Types { return types }
	if _, _, err := readColumns(t, bytes.NewReader(stream), DefaultLimits(), DefaultBatchLimits(), func(r *ColumnReader) { r.Types = give }); err != ErrUntold {
		t.Error(err)
	}
	types = typesOf() // the other one was lost within the page
	defer types.Close()
	types.Columns = first.Page().Metadata.Columns
	wanted, _ := readRows(t, bytes.NewReader(stream), DefaultLimits(), func(r *RowReader) { r.Types = give })
	found, _, err := readColumns(t, bytes.NewReader(stream), DefaultLimits(), BatchLimits{6, 1 << 20}, func(r *ColumnReader) { r.Types = give })
	if err != nil || len(found) != 43 || !reflect.DeepEqual(wordsOf(found), wordsOf(wanted)) {
		t.Error(err, len(found))
	}
}

func TestWhatColumnsDoNotHave(t *testing.T) {
	list := aPage([]uint16{0x20}, 1, aCell("\x00\x00\x00\x00"))
	rows, _, err := readColumns(t, bytes.NewReader(append(append([]byte{}, smallPage...), list...)), DefaultLimits(), DefaultBatchLimits(), nil)
	if err != CodeUnsupported || len(rows) != 3 {
		t.Error(err, len(rows))
	}
	long := aPage([]uint16{9, 13}, 2, aNull, aCell("abc"), aNull, aCell(string(make([]byte, 126))))
	rows, _, err = readColumns(t, bytes.NewReader(long), DefaultLimits(), BatchLimits{8, 1000}, nil)
	var tooLong *CellTooLong
	if !errors.As(err, &tooLong) || *tooLong != (CellTooLong{1, 1}) || len(rows) != 1 {
		t.Error(err, len(rows))
	}
	if _, _, err = readColumns(t, bytes.NewReader(long), DefaultLimits(), BatchLimits{8, 1008}, nil); err != nil {
		t.Error(err)
	}
	if _, err := NewColumnReader(nil, DefaultLimits(), BatchLimits{}); err == nil {
		t.Error("there are no limits")
	}
	if _, err := NewColumnReader(nil, Limits{}, DefaultBatchLimits()); err == nil {
		t.Error("there are no limits")
	}
	none := aPage([]uint16{9, 13}, 0)
	_, batches, err := readColumns(t, bytes.NewReader(append(append([]byte{}, none...), none...)), DefaultLimits(), DefaultBatchLimits(), nil)
	if batches != 2 || err != nil {
		t.Error(batches, err)
	}
	bare := []byte{0x84, 0, 0, 0, 8, 0, 0, 0, 16, 0, 0, 0, 2, 0, 0, 0, 4, 0, 0, 0, 0, 0, 0, 0, 9}
	_, batches, err = readColumns(t, bytes.NewReader(append(bare, smallPage...)), DefaultLimits(), DefaultBatchLimits(), nil)
	if batches != 2 || err != nil {
		t.Error(batches, err)
	}
	lies := []byte{0x84, 0, 0, 0, 8, 0x10, 0, 0, 0, 0, 0, 0, 2, 0, 0, 0, 4, 0x7f, 0xff, 0xff, 0xff, 0, 0, 0, 1}
	if _, _, err = readColumns(t, bytes.NewReader(lies), DefaultLimits(), DefaultBatchLimits(), nil); err != CodeTooManyColumns {
		t.Error(err)
	}
}
