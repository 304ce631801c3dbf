//go:build cgo

package cqlp

import (
	"bytes"
	"errors"
	"io"
	"math/rand"
	"os"
	"strings"
	"testing"
)

// countOfRows is where the count of the rows is, or -1 if this is no page.
func countOfRows(events []Event) int {
	for i := range events {
		if events[i].Tag == TagCount && events[i].Field == FieldRows {
			return i
		}
	}
	return -1
}

// allPages are the pages that can be written, of the streams and of pages.bin.
func allPages(t *testing.T) (pages []wholeFrame) {
	t.Helper()
	data, err := os.ReadFile("../pages.bin")
	if err != nil {
		t.Fatal(err)
	}
	frames := append(allWholeFrames(t), wholeFrames(t, stream{name: "pages.bin", limits: DefaultLimits(), bytes: data})...)
	for _, frame := range frames {
		if countOfRows(frame.events) >= 0 && refusal(frame) == 0 {
			pages = append(pages, frame)
		}
	}
	if len(pages) < 21 {
		t.Fatal(len(pages))
	}
	return pages
}

func mustEncode(t *testing.T, events []Event) []byte {
	t.Helper()
	data, err := EncodeEvents(events)
	if err != nil {
		t.Fatal(err)
	}
	return data
}

func mustMeasure(t *testing.T, events ...Event) uint64 {
	t.Helper()
	size, err := CellsSize(events...)
	if err != nil {
		t.Fatal(err)
	}
	return size
}

// inBatches writes a page with a Flush after each batch of this many events.
func inBatches(t *testing.T, events []Event, batch int) []byte {
	t.Helper()
	var target bytes.Buffer
	p := NewPageWriter(&target)
	for i, event := range events {
		if event.Field == FieldRows {
			p.Size = mustMeasure(t, events...)
		}
		if err := p.Encode(event); err != nil {
			t.Fatal(i, event, err)
		}
		if i%batch == 0 && event.Tag != TagEnd {
			if err := p.Flush(); err != nil {
				t.Fatal(i, err)
			}
		}
	}
	if err := p.Close(); err != nil {
		t.Fatal(err)
	}
	return target.Bytes()
}

func TestPagesInBatches(t *testing.T) {
	for _, page := range allPages(t) {
		wanted := mustEncode(t, page.events)
		for _, batch := range []int{1, 3, 64, 1 << 30} {
			for _, events := range [][]Event{page.events, page.events[:len(page.events)-1]} {
				if got := inBatches(t, events, batch); !bytes.Equal(got, wanted) {
					t.Fatalf("%s %d: % x\nand not\n% x", page.name, batch, got, wanted)
				}
			}
		}
	}
}

// The events of a page that is read go on one by one, and its size is what its body has after the head.
func TestAPagePasses(t *testing.T) {
	for _, page := range allPages(t) {
		var target bytes.Buffer
		r, err := NewReader(bytes.NewReader(page.bytes), page.limits)
		if err != nil {
			t.Fatal(err)
		}
		p, end := NewPageWriter(&target), page.events[len(page.events)-1]
		for {
			event, err := r.Next()
			if err == io.EOF {
				break
			}
			if event.Field == FieldRows {
				p.Size = uint64(len(page.bytes)) - event.At - 4 - uint64(end.Number)
				if measured := mustMeasure(t, page.events...); measured != p.Size {
					t.Fatal(page.name, measured, p.Size)
				}
			}
			if err != nil || p.Encode(event) != nil {
				t.Fatal(page.name, event, err)
			}
		}
		if err := p.Close(); err != nil || !bytes.Equal(target.Bytes(), spelled(page)) {
			t.Fatal(page.name, err)
		}
		r.Close()
	}
}

func TestCellsAreMeasured(t *testing.T) {
	events := make([]Event, 200)
	for i := range events {
		events[i].Tag = TagNull
	}
	if size := mustMeasure(t, events...); size != 800 || mustMeasure(t) != 0 {
		t.Fatal(size)
	}
	events[130] = Event{Tag: TagPart, Number: 1}
	var bad *EventError
	if size, err := CellsSize(events...); size != 0 || !errors.As(err, &bad) || *bad != (EventError{130, TagPart, 0, CodeUnbuilt}) {
		t.Fatal(size, err)
	}
}

// twoRows is a page of two rows, a text and a list of two ints in each, one of them null.
func twoRows() []Event {
	page := []Event{
		{Tag: TagFrame, Opcode: OpcodeResult, Extra: 7, Mark: MarkResponse},
		{Tag: TagInt, Field: FieldResultKind, Number: 2},
		{Tag: TagInt, Field: FieldMetaFlags, Number: 1},
		{Tag: TagCount, Field: FieldColumns, Number: 2},
		{Tag: TagText, Field: FieldKeyspace, Content: []byte("k")},
		{Tag: TagText, Field: FieldTable, Content: []byte("t")},
		{Tag: TagText, Field: FieldColumnName, Content: []byte("a")},
		{Tag: TagTypeNode, Kind: KindVarchar},
		{Tag: TagText, Field: FieldColumnName, Content: []byte("b")},
		{Tag: TagTypeNode, Kind: KindList},
		{Tag: TagTypeNode, Kind: KindInt},
		{Tag: TagCount, Field: FieldRows, Number: 2},
		{Tag: TagLeaf, Kind: KindVarchar, Content: []byte("x")},
		{Tag: TagEnter, Column: 1, Kind: KindList, Number: 2},
		{Tag: TagLeaf, Column: 1, Level: 1, Kind: KindInt, Number: 7},
		{Tag: TagNull, Column: 1, Level: 1},
		{Tag: TagLeave, Number: 2},
		{Tag: TagNull, Row: 1},
	}
	list := append([]Event(nil), page[13:17]...)
	for i := range list {
		list[i].Row = 1
	}
	return append(append(page, list...), Event{Tag: TagEnd})
}

// twoRowsSize is how many bytes its cells have.
const twoRowsSize = 5 + 20 + 4 + 20

// refusedPage is the error of a page, after which nothing more is written, and how many bytes were.
func refusedPage(t *testing.T, events []Event, size uint64) (int, error) {
	t.Helper()
	var target bytes.Buffer
	p := NewPageWriter(&target)
	p.Size = size
	for _, event := range events {
		if err := p.Encode(event); err != nil {
			written := target.Len()
			if p.Encode(events[0]) != ErrClosed || p.Flush() != ErrClosed || p.Close() != ErrClosed || target.Len() != written {
				t.Fatal("it goes on after", err)
			}
			return written, err
		}
	}
	err := p.Close()
	return target.Len(), err
}

func TestPagesThatAreRefused(t *testing.T) {
	head := len(mustEncode(t, twoRows())) - twoRowsSize
	rows := func(count int64) Event { return Event{Tag: TagCount, Field: FieldRows, Number: count} }
	const size = twoRowsSize
	for _, refused := range []struct {
		which   int
		with    Event
		size    uint64
		written int
		code    Code
		words   string
	}{
		{1, Event{Tag: TagInt, Field: FieldResultKind, Number: 1}, size, 0, CodeNoSuchFrame, "the events together: NoSuchFrame"},
		{0, Event{Tag: TagInt, Field: FieldResultKind, Number: 2}, size, 0, CodeMisplaced, "event 0, Int ResultKind: Misplaced"},
		{11, rows(1 << 31), size, 0, CodeTooManyRows, "the events together: TooManyRows"},
		{11, rows(13), size, head + 49, CodeCellsMissing, "the events together: CellsMissing"},
		{11, rows(2), 15, head + 5, CodePastSize, "event 16, Leave: PastSize"},
		{11, rows(2), 1 << 40, 0, CodeBadLength, "the events together: BadLength"},
		{11, Event{Tag: TagEnd}, size, 0, CodeNoRows, "event 11, End: NoRows"},
		{11, rows(-1), size, 0, CodeNoEvent, "event 11, Count Rows: NoEvent"},
		{11, rows(2), size + 1, head + 49, CodeBytesMissing, "the events together: BytesMissing"},
		{11, rows(2), size - 1, head + 29, CodePastSize, "event 21, Leave: PastSize"},
		{11, rows(3), size, head + 49, CodeCellsMissing, "the events together: CellsMissing"},
		{11, rows(1), size, head + 25, CodeMisplaced, "event 17, Null: Misplaced"},
		{17, Event{Tag: TagNull}, size, head + 25, CodeMisplaced, "event 17, Null: Misplaced"},
		{17, rows(2), size, head + 25, CodeMisplaced, "event 17, Count Rows: Misplaced"},
		{17, Event{Tag: TagPart, Row: 1}, size, head + 25, CodeUnbuilt, "event 17, Part: Unbuilt"},
		{17, Event{Tag: TagLeaf, Row: 1, Kind: 99}, size, head + 25, CodeNoEvent, "event 17, Leaf: NoEvent"},
		{12, Event{Tag: TagLeaf, Kind: KindInt}, size, head, CodeNoValue, "event 12, Leaf: NoValue"},
		{21, Event{Tag: TagLeave, Number: 3}, size, head + 29, CodeNoValue, "event 21, Leave: NoValue"},
		{21, Event{Tag: TagEnd}, size, head + 29, CodeNotEnded, "the events together: NotEnded"},
		{18, Event{Tag: TagEnd}, size, head + 29, CodeCellsMissing, "the events together: CellsMissing"},
	} {
		events := twoRows()
		events[refused.which] = refused.with
		written, err := refusedPage(t, events, refused.size)
		if written != refused.written || !errors.Is(err, refused.code) || err.Error() != "cqlp: "+refused.words {
			t.Fatal(refused.which, refused.with, written, err)
		}
	}
	for count, code := range map[int]Code{0: CodeMisplaced, 5: CodeNoRows, 12: CodeCellsMissing, 15: CodeNotEnded, 17: CodeCellsMissing} {
		if _, err := refusedPage(t, twoRows()[:count], size); !errors.Is(err, code) {
			t.Fatal(count, err)
		}
	}
}

func TestAPageThatWasClosed(t *testing.T) {
	for count := range []int{0, 1} {
		var target bytes.Buffer
		p := NewPageWriter(&target)
		p.Size = twoRowsSize
		for _, event := range twoRows()[:len(twoRows())-count] {
			if err := p.Encode(event); err != nil {
				t.Fatal(err)
			}
		}
		if err := p.Close(); err != nil || p.Close() != nil || p.Flush() != ErrClosed || p.Encode(twoRows()[0]) != ErrClosed {
			t.Fatal(err)
		}
		if !bytes.Equal(target.Bytes(), mustEncode(t, twoRows())) {
			t.Fatal(target.Bytes())
		}
	}
}

// Cells and a head that are longer than the room.
func TestLongCells(t *testing.T) {
	events := twoRows()
	events[17] = Event{Tag: TagLeaf, Row: 1, Kind: KindVarchar, Content: bytes.Repeat([]byte("x"), 100_000)}
	events[6].Content = bytes.Repeat([]byte("n"), 65_535)
	for _, batch := range []int{1, 5, 64} {
		if got := inBatches(t, events, batch); !bytes.Equal(got, mustEncode(t, events)) {
			t.Fatal(len(got))
		}
	}
}

// A narrow io.Writer takes this many bytes.
type narrow int

func (n *narrow) Write(p []byte) (int, error) {
	if *n -= narrow(len(p)); *n < 0 {
		return 0, io.ErrShortWrite
	}
	return len(p), nil
}

func TestAWriterThatFails(t *testing.T) {
	for room := range mustEncode(t, twoRows()) {
		target := narrow(room)
		p := NewPageWriter(&target)
		p.Size = twoRowsSize
		var failed error
		for _, event := range twoRows() {
			if failed = p.Encode(event); failed != nil {
				break
			}
		}
		if failed != io.ErrShortWrite || p.Close() != ErrClosed {
			t.Fatal(room, failed)
		}
	}
}

// What is held of a long page of short cells stays as it is.
func TestWhatAPageWriterHolds(t *testing.T) {
	const rows = 10_000
	head := twoRows()[:12]
	head[11].Number = rows
	p := NewPageWriter(io.Discard)
	p.Size = rows * (4 + 10 + 4)
	for _, event := range head {
		if err := p.Encode(event); err != nil {
			t.Fatal(err)
		}
	}
	text := []byte(strings.Repeat("x", 10))
	for row := uint32(0); row < rows; row++ {
		for _, event := range []Event{{Tag: TagLeaf, Row: row, Kind: KindVarchar, Content: text}, {Tag: TagNull, Row: row, Column: 1}} {
			if err := p.Encode(event); err != nil {
				t.Fatal(row, err)
			}
		}
		if cap(p.held.native) > 2*heldEvents || cap(p.held.contents) > 2*heldContents || cap(p.held.frame) > pageRoom {
			t.Fatal(row, cap(p.held.native), cap(p.held.contents), cap(p.held.frame))
		}
	}
	if err := p.Close(); err != nil {
		t.Fatal(err)
	}
}

// Each page whose events were changed is refused, or is what EncodeEvents writes of these.
func TestPagesChangedAtRandom(t *testing.T) {
	times, pages, whole := 20_000, allPages(t), 0
	if testing.Short() {
		times = 1_000
	}
	r := rand.New(rand.NewSource(6))
	for i := 0; i < times; i++ {
		page := pages[r.Intn(len(pages))]
		events := append([]Event(nil), page.events...)
		for n := r.Intn(3); n > 0; n-- {
			events = changed(r, events)
		}
		var target bytes.Buffer
		size, _ := CellsSize(events...)
		if failed := writePage(&target, events, size, 1+r.Intn(9)); failed != nil {
			continue
		}
		if wanted := mustEncode(t, events); !bytes.Equal(target.Bytes(), wanted) {
			t.Fatalf("% x\nand not\n% x", target.Bytes(), wanted)
		}
		whole++
	}
	if whole < times/4 {
		t.Fatal(whole)
	}
}

// writePage writes a page with a Flush after each batch of this many events, up to the first error.
func writePage(w io.Writer, events []Event, size uint64, batch int) error {
	p := NewPageWriter(w)
	p.Size = size
	for i, event := range events {
		if err := p.Encode(event); err != nil {
			return err
		}
		if i%batch == 0 && i < len(events)-1 {
			if err := p.Flush(); err != nil {
				return err
			}
		}
	}
	return p.Close()
}
