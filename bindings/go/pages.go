package cqlp

// #include "box.h"
import "C"

import (
	"errors"
	"io"
	"runtime"
)

// How many events a PageWriter holds before it writes their cells, how many bytes of contents, and how many bytes one call of the library puts,
// where no cell wants more.
const (
	heldEvents   = 64
	heldContents = 1 << 14
	pageRoom     = 1 << 14
)

// CellsSize is how many bytes of a page's cells these events take up. The sum over all events of its cells is the Size of a PageWriter; an event of
// no cell takes up none. The error is an *EventError with CodeNoEvent, or CodeUnbuilt of a part of a scalar.
func CellsSize(events ...Event) (uint64, error) {
	var given Encoder
	var measured C.cqlp_measured
	for before := 0; before < len(events); before += heldEvents {
		some := events[before:]
		if len(some) > heldEvents {
			some = some[:heldEvents]
		}
		given.letGo(len(given.native), len(given.contents))
		for i := range some {
			given.add(&some[i])
		}
		err := done(C.cqlp_page_measure(given.events(), C.size_t(len(some)), firstOf(given.contents), C.size_t(len(given.contents)), &measured))
		if err != nil {
			return 0, given.failed(err, int(measured.event), before)
		}
	}
	return uint64(measured.size), nil
}

// A PageWriter writes a page of any size of its events, those that a decoder gives of it, in their order: what EncodeEvents would write of all of
// them. It is not to be used by several goroutines at a time.
//
// The head, all before the first cell, is written once the count of the rows comes, and cells once there are 64 events, or contents of 16 KiB, and
// the last cell has ended. So no more of a page is held than its head, and some cells: the events that are not written, with copies of their
// contents, and the bytes of the cells that one call of the library puts, 16 KiB, or as many as one cell has where it has more. A cell is held
// whole.
//
// After an error the page is given up: what was written of it stays, nothing more is, and each further call answers ErrClosed.
type PageWriter struct {
	// Size is how many bytes the cells have: the header counts the body, and it is written before them. It is looked at when the count of the rows
	// comes. Where the cells keep their lengths it is what is left of the body of the page that is read; else go over the events of the cells twice,
	// and let CellsSize add them up.
	Size uint64

	target io.Writer
	page   C.cqlp_page
	put    C.cqlp_put
	// the events that are not written, and the bytes that the library puts
	held Encoder
	// how many of them are those of whole cells, and how many events were written
	whole, written int
	stage          stage
}

// A stage is how far a page has come.
type stage int

const (
	inHead stage = iota
	inCells
	ended
	givenUp
)

// NewPageWriter makes one that writes to w. What it holds in C is given back by Close, and after an error. Close does not close the io.Writer.
func NewPageWriter(w io.Writer) *PageWriter {
	p := &PageWriter{target: w}
	runtime.SetFinalizer(p, (*PageWriter).free)
	return p
}

// Encode takes the next event, and copies its content, which may be one that is lent. That of the page's end, TagEnd, may come, and then nothing may; it
// may also be left out. The error is that of the io.Writer, ErrNoMemory, or an *EventError: with what include/cqlp.h says of cqlp_page_begin at
// the count of the rows, of cqlp_page_put where cells are written, and of cqlp_page_end at the page's end. It may be of an event that came before;
// its Index counts all events of the page, the header's being 0.
func (p *PageWriter) Encode(event Event) error {
	switch {
	case p.stage >= ended:
		return ErrClosed
	case p.stage == inCells && event.Tag == TagEnd:
		return p.kept(p.finish())
	}
	p.held.add(&event)
	switch {
	case p.stage == inHead:
		if event.Tag == TagEnd || event.Tag == TagCount && event.Field == FieldRows {
			return p.kept(p.begin())
		}
		return nil
	case goesOn(&event):
		return nil
	}
	if p.whole = len(p.held.native); p.whole < heldEvents && len(p.held.contents) < heldContents {
		return nil
	}
	return p.kept(p.putCells(p.whole))
}

// Flush writes the cells that are whole.
func (p *PageWriter) Flush() error {
	if p.stage >= ended {
		return ErrClosed
	}
	return p.kept(p.putCells(p.whole))
}

// Close writes what is held, and says whether all cells and all bytes of the page have come. After the event of the page's end, and a second time, it
// does nothing. The error is as that of Encode.
func (p *PageWriter) Close() error {
	switch p.stage {
	case ended:
		return nil
	case givenUp:
		return ErrClosed
	case inHead:
		if err := p.kept(p.begin()); err != nil {
			return err
		}
	}
	return p.kept(p.finish())
}

// goesOn says whether a cell goes on after this event.
func goesOn(event *Event) bool {
	switch event.Tag {
	case TagEnter:
		return true
	case TagLeaf, TagNull, TagEmpty, TagPart, TagLeave:
		return event.Level > 0
	}
	return false
}

// kept gives the page up after an error.
func (p *PageWriter) kept(err error) error {
	if err != nil {
		p.free()
		p.stage = givenUp
	}
	return err
}

func (p *PageWriter) free() {
	C.cqlp_page_free(&p.page)
	runtime.SetFinalizer(p, nil)
}

// begin writes the head.
func (p *PageWriter) begin() error {
	defer runtime.KeepAlive(p)
	h := &p.held
	for room := pageRoom; ; room = int(h.encoded.length) {
		h.makeRoom(room)
		err := done(C.cqlp_page_begin(h.events(), C.size_t(len(h.native)), firstOf(h.contents), C.size_t(len(h.contents)), C.uint64_t(p.Size),
			firstOf(h.frame), C.size_t(len(h.frame)), &p.page, &h.encoded))
		if err == nil {
			p.stage = inCells
			return p.wrote(int(h.encoded.length), len(h.native), len(h.contents))
		}
		if !errors.Is(err, CodeNoRoom) {
			return h.failed(err, int(h.encoded.event), 0)
		}
	}
}

// wrote writes what was put, and lets go of the events and the contents that it has.
func (p *PageWriter) wrote(put, events, contents int) error {
	p.held.letGo(events, contents)
	p.written += events
	if put == 0 {
		return nil
	}
	_, err := p.target.Write(p.held.frame[:put])
	return err
}

// putCells writes the cells of this many events.
func (p *PageWriter) putCells(events int) error {
	defer runtime.KeepAlive(p)
	h := &p.held
	for p.whole = 0; events > 0; events -= int(p.put.events) {
		err := done(C.cqlp_page_put(&p.page, h.events(), C.size_t(events), firstOf(h.contents), C.size_t(len(h.contents)), firstOf(h.frame),
			C.size_t(len(h.frame)), &p.put))
		switch at := int(p.put.event); {
		case errors.Is(err, CodeNoRoom):
			err = nil
		case err != nil && at == events:
			err = h.failed(err, len(h.native), 0)
		case err != nil:
			err = h.failed(err, at, p.written)
		}
		if failed := p.wrote(int(p.put.length), int(p.put.events), int(p.put.used)); failed != nil {
			return failed
		}
		if err != nil {
			return err
		}
		h.makeRoom(int(p.put.wanted))
	}
	return nil
}

// finish writes all that is held, and says whether the page is whole.
func (p *PageWriter) finish() error {
	defer runtime.KeepAlive(p)
	if err := p.putCells(len(p.held.native)); err != nil {
		return err
	}
	if err := done(C.cqlp_page_end(&p.page)); err != nil {
		return p.held.failed(err, len(p.held.native), 0)
	}
	p.free()
	p.stage = ended
	return nil
}
