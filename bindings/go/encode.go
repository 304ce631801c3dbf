package cqlp

// #include "box.h"
import "C"

import (
	"errors"
	"io"
	"unsafe"
)

// EncodeEvents is the bytes of the frame that has these events, those that a decoder gives of it, in their order: that of its header, then its
// fields, and that of its end, which may be left out. Fields of an Event that its tag has no use for are not looked at, nor are offsets, the
// length of the body, which is counted, and the number of the end. The error is an *EventError, or ErrNoMemory.
func EncodeEvents(events []Event) ([]byte, error) {
	var e Encoder
	e.native = make([]C.cqlp_event, 0, len(events))
	for i := range events {
		e.add(&events[i])
	}
	if err := e.encode(); err != nil {
		return nil, err
	}
	return e.frame, nil
}

// An Encoder writes the frames of a stream of events, as those of a Reader or a Decoder. It is not to be used by several goroutines at a time.
type Encoder struct {
	target io.Writer
	// the events of the frame under way, and their contents one after the other
	native   []C.cqlp_event
	contents []byte
	// the bytes of the last frame
	frame   []byte
	encoded C.cqlp_encoded
}

// NewEncoder makes one that writes each frame by one call of w.Write.
func NewEncoder(w io.Writer) *Encoder { return &Encoder{target: w} }

// Encode takes the next event. After that of a frame's end, TagEnd, the frame is written; nothing of it was before. The content is copied, so it
// may be one that is lent. The error is that of the io.Writer, or one of EncodeEvents, which leaves the frame out: the next event is the first
// of another one.
func (e *Encoder) Encode(event Event) error {
	e.add(&event)
	if event.Tag != TagEnd {
		return nil
	}
	err := e.encode()
	e.native, e.contents = e.native[:0], e.contents[:0]
	if err == nil {
		_, err = e.target.Write(e.frame)
	}
	return err
}

func (e *Encoder) add(event *Event) {
	native := C.cqlp_event{
		number: C.int64_t(event.Number),
		row:    C.uint32_t(event.Row),
		column: C.uint32_t(event.Column),
		level:  C.uint32_t(event.Level),
		extra:  C.int32_t(event.Extra),
		bytes:  *(*[16]C.uint8_t)(unsafe.Pointer(&event.Bytes)),
		tag:    C.uint8_t(event.Tag),
		field:  C.uint8_t(event.Field),
		kind:   C.uint8_t(event.Kind),
		opcode: C.uint8_t(event.Opcode),
		flags:  C.uint8_t(event.Flags),
		mark:   C.uint8_t(event.Mark),
		octets: C.uint8_t(event.Octets),
	}
	if event.hasContent() {
		native.length = C.size_t(len(event.Content))
		e.contents = append(e.contents, event.Content...)
	}
	e.native = append(e.native, native)
}

// most is how many bytes an event has in its frame beside its content, at most.
const most = 24

// encode makes the frame of the events that came.
func (e *Encoder) encode() error { return e.encodeIn(len(e.contents) + most*len(e.native)) }

// encodeIn does so in this much room, or in as much as is wanted where that is more.
func (e *Encoder) encodeIn(room int) error {
	for ; ; room = int(e.encoded.length) {
		e.makeRoom(room)
		err := done(C.cqlp_encode(e.events(), C.size_t(len(e.native)), firstOf(e.contents), C.size_t(len(e.contents)), firstOf(e.frame),
			C.size_t(len(e.frame)), &e.encoded))
		if !errors.Is(err, CodeNoRoom) {
			e.frame = e.frame[:e.encoded.length]
			return e.failed(err, int(e.encoded.event), 0)
		}
	}
}

// makeRoom makes the frame as long as this, or longer.
func (e *Encoder) makeRoom(room int) {
	if cap(e.frame) < room {
		e.frame = make([]byte, room)
	}
	e.frame = e.frame[:cap(e.frame)]
}

// events is where the events lie, if there are any.
func (e *Encoder) events() *C.cqlp_event {
	if len(e.native) == 0 {
		return nil
	}
	return &e.native[0]
}

// letGo lets go of this many events, the first ones, and of this many bytes, which their contents have.
func (e *Encoder) letGo(events, contents int) {
	e.native = e.native[:copy(e.native, e.native[events:])]
	e.contents = e.contents[:copy(e.contents, e.contents[contents:])]
}

// firstOf is where bytes lie, if there are any.
func firstOf(b []byte) *C.uint8_t {
	if len(b) == 0 {
		return nil
	}
	return first(b)
}

// failed says which event it was, and counts it from as many as came before.
func (e *Encoder) failed(err error, at, before int) error {
	var code Code
	if !errors.As(err, &code) {
		return err
	}
	if at < len(e.native) {
		return &EventError{before + at, Tag(e.native[at].tag), Field(e.native[at].field), code}
	}
	return &EventError{Index: -1, Code: code}
}
