package cqlp

import "unsafe"

// A placed is an Event as the library gives it, without pointers, so the garbage collector passes over it: of its content it has the
// place in the bytes of which the batch, or the row, was made. Its members lie as those of cqlp_placed in box.h.
type placed struct {
	at                 uint64
	place, length      uintptr
	number             int64
	row, column, level uint32
	extra              int32
	bytes              [16]byte
	tag                Tag
	field              Field
	kind               Kind
	opcode             Opcode
	flags              uint8
	mark               Mark
	octets             uint8
	_                  uint8
}

// content is the content that lies in these bytes.
func (e *placed) content(from []byte) []byte {
	end := e.place + e.length
	return from[e.place:end:end]
}

// fill makes an Event of it, with this content.
func (e *placed) fill(event *Event, content []byte) {
	event.At = e.at
	// in as few moves as there can be: what follows one another in the one does so in the other
	*(*[7]byte)(unsafe.Pointer(&event.Tag)) = *(*[7]byte)(unsafe.Pointer(&e.tag))
	event.Bytes = e.bytes
	event.Number = e.number
	*(*[4]uint32)(unsafe.Pointer(&event.Row)) = *(*[4]uint32)(unsafe.Pointer(&e.row))
	event.Content = content
}

// The members that fill moves together lie in the same order in both structs, else these arrays do not compile.
var (
	anEvent Event
	aPlaced placed
	_       = [1]int{unsafe.Offsetof(anEvent.Field) + unsafe.Offsetof(aPlaced.tag) - (unsafe.Offsetof(anEvent.Tag) + unsafe.Offsetof(aPlaced.field)): 0}
	_       = [1]int{unsafe.Offsetof(anEvent.Kind) + unsafe.Offsetof(aPlaced.tag) - (unsafe.Offsetof(anEvent.Tag) + unsafe.Offsetof(aPlaced.kind)): 0}
	_       = [1]int{unsafe.Offsetof(anEvent.Opcode) + unsafe.Offsetof(aPlaced.tag) - (unsafe.Offsetof(anEvent.Tag) + unsafe.Offsetof(aPlaced.opcode)): 0}
	_       = [1]int{unsafe.Offsetof(anEvent.Flags) + unsafe.Offsetof(aPlaced.tag) - (unsafe.Offsetof(anEvent.Tag) + unsafe.Offsetof(aPlaced.flags)): 0}
	_       = [1]int{unsafe.Offsetof(anEvent.Mark) + unsafe.Offsetof(aPlaced.tag) - (unsafe.Offsetof(anEvent.Tag) + unsafe.Offsetof(aPlaced.mark)): 0}
	_       = [1]int{unsafe.Offsetof(anEvent.Octets) + unsafe.Offsetof(aPlaced.tag) - (unsafe.Offsetof(anEvent.Tag) + unsafe.Offsetof(aPlaced.octets)): 0}
	_       = [1]int{unsafe.Offsetof(anEvent.Column) + unsafe.Offsetof(aPlaced.row) - (unsafe.Offsetof(anEvent.Row) + unsafe.Offsetof(aPlaced.column)): 0}
	_       = [1]int{unsafe.Offsetof(anEvent.Level) + unsafe.Offsetof(aPlaced.row) - (unsafe.Offsetof(anEvent.Row) + unsafe.Offsetof(aPlaced.level)): 0}
	_       = [1]int{unsafe.Offsetof(anEvent.Extra) + unsafe.Offsetof(aPlaced.row) - (unsafe.Offsetof(anEvent.Row) + unsafe.Offsetof(aPlaced.extra)): 0}
)

// value is that of a scalar, as Event.Value gives it.
func (e *placed) value(from []byte) any {
	var event Event
	e.fill(&event, e.content(from))
	return event.Value()
}

// isScalar says whether it is a cell, or an item, of its own.
func (e *placed) isScalar() bool { return TagLeaf <= e.tag && e.tag <= TagEmpty }

// isOfCell says whether it is one of a cell.
func (e *placed) isOfCell() bool { return TagLeaf <= e.tag && e.tag <= TagPart }

// goesOn says whether its cell goes on after it.
func (e *placed) goesOn() bool {
	return e.level > 0 || e.tag == TagEnter || e.tag == TagPart && e.mark != MarkLast
}
