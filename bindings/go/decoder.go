package cqlp

// #include "box.h"
import "C"

import (
	"runtime"
	"sync/atomic"
	"unsafe"
)

func (l Limits) native() C.cqlp_limits {
	native := C.cqlp_limits{
		text:    C.uint32_t(l.Text),
		cell:    C.uint32_t(l.Cell),
		entries: C.uint32_t(l.Entries),
		depth:   C.uint32_t(l.Depth),
	}
	if l.Types {
		native.types = 1
	}
	if l.Parts {
		native.parts = 1
	}
	return native
}

// done is what a code says, as an error.
func done(code C.uint32_t) error {
	switch code {
	case C.CQLP_DONE:
		return nil
	case C.CQLP_BAD_TEXT, C.CQLP_BAD_CELL, C.CQLP_BAD_ENTRIES, C.CQLP_BAD_DEPTH:
		limit, _ := Name(GroupLimit, int64(code))
		return &LimitError{limit}
	case C.CQLP_NO_MEMORY:
		return ErrNoMemory
	case C.CQLP_NO_DECODER, C.CQLP_NO_CLIENT, C.CQLP_NO_SERVER, C.CQLP_NO_PAGE:
		return ErrClosed
	}
	return Code(code)
}

func verdictOf(end *C.cqlp_end) Verdict {
	return Verdict{End(end.verdict), uint64(end.at), uint64(end.bytes), Reason(end.reason)}
}

// room is how many events one call of the library puts, and space how many bytes Next gives it.
const (
	room  = C.CQLP_ROOM
	space = 1 << 16
)

// inDecoder is the place of a content that lies in the decoder.
const inDecoder = C.CQLP_IN_DECODER

// A Decoder reads the frames of one stream. It is not to be used by several goroutines at a time, but for Close, which any may call. A
// goroutine may move from one thread to another between two calls, and the library's handle with it: that is proved.
type Decoder struct {
	box *C.cqlp_box
	// twice how many calls are under way, and one more once it is closed
	calls atomic.Int64
	// the events of the last batch, and those that were not given out: from next to count. They lie in the box, so they are read between enter and
	// leave alone, but where rows are lent: then they lie in memory of Go
	events      *[room]placed
	next, count int
	// what the contents of the last batch are lent of, but for one that lies in the decoder, which is copied
	piece, copied []byte
	// the memory of Next for the bytes that it used
	owned []byte
	// how many columns there are, where columns are filled
	width int
}

// NewDecoder makes a decoder at the start of a stream. All of its memory in C is asked for here, and given back by Close.
func NewDecoder(limits Limits) (*Decoder, error) { return newDecoder(limits, 0) }

// NewLenientDecoder makes one for a lenient reading, which goes on at three things that are refused else: a content that its type does not have,
// by its length or by its bytes, is a TagLeaf of the kind KindRaw with all its bytes; bytes after the last field of a tuple or a UDT are TagParts;
// a type of an id that no kind has is a TagTypeNode of the kind KindRaw.
func NewLenientDecoder(limits Limits) (*Decoder, error) { return newDecoder(limits, 1) }

func newDecoder(limits Limits, lenient C.int) (*Decoder, error) {
	native, code := limits.native(), C.uint32_t(0)
	box := C.cqlp_box_new(&native, lenient, &code)
	if err := done(code); err != nil {
		return nil, err
	}
	d := &Decoder{box: box, events: (*[room]placed)(unsafe.Pointer(&box.events))}
	runtime.SetFinalizer(d, (*Decoder).Close)
	return d, nil
}

// enter begins a call, and says whether it may go on: it may not once the decoder is closed. Until its leave the memory of C stays.
func (d *Decoder) enter() bool {
	for {
		calls := d.calls.Load()
		if calls&1 != 0 {
			return false
		}
		if d.calls.CompareAndSwap(calls, calls+2) {
			return true
		}
	}
}

// leave ends a call. The last one of a decoder that is closed frees it.
func (d *Decoder) leave() {
	if d.calls.Add(-2) == 1 {
		d.free()
	}
}

// closed says whether it was closed, as it may be during a call.
func (d *Decoder) closed() bool { return d.calls.Load()&1 != 0 }

func (d *Decoder) free() {
	C.cqlp_box_free(d.box)
	d.box = nil
	runtime.SetFinalizer(d, nil)
}

// Decode puts the events of the next bytes of the stream into events, no more than there is room for, and says how many, and how many
// bytes of p were used: the next call takes those after them, p[n:], also where none are left, up to the one that answers ErrMore. It may leave
// room. The error is as that of Next, and none beside an event. Room for 256 events costs the least.
//
// Contents are lent of p, so they live as long as p is left as it is, but for that of the last event, which lives until the next call.
func (d *Decoder) Decode(events []Event, p []byte) (count, n int, err error) {
	if !d.enter() {
		return 0, 0, ErrClosed
	}
	defer d.leave()
	if len(events) == 0 {
		return 0, 0, nil
	}
	if d.next == d.count {
		if n, err = d.fill(events, p); err != nil {
			return 0, n, err
		}
	}
	for ; count < len(events) && d.next < d.count; count++ {
		d.put(&events[count])
	}
	return count, n, nil
}

// fill makes calls of the library until there are events. It makes no more of them than fit.
func (d *Decoder) fill(events []Event, p []byte) (n int, err error) {
	for {
		n += d.take(p[n:], len(events))
		if d.count > 0 {
			return n, nil
		}
		if err := d.ended(len(p) - n); err != nil {
			return n, err
		}
	}
}

// ended is what the last call says where it put no event and this many bytes are left.
func (d *Decoder) ended(left int) error {
	switch batch := &d.box.batch; {
	case batch.stop == C.CQLP_STOP_REFUSED:
		return &Refusal{uint64(batch.at), Reason(batch.reason)}
	case batch.stop == C.CQLP_STOP_MORE && left == 0:
		return ErrMore
	}
	return nil
}

// full says whether the columns are to be taken: since no further row begins, or before a refusal is reported.
func (d *Decoder) full() bool {
	switch d.box.batch.stop {
	case C.CQLP_STOP_FULL:
		return true
	case C.CQLP_STOP_REFUSED:
		return C.cqlp_box_rows(d.box, C.size_t(d.width)) > 0
	}
	return false
}

// Next gives the next event of the stream, of which p has the bytes after those used so far, and says how many bytes of p were used:
// the next call takes those after them, p[n:], also where none are left: a loop that ends once all bytes are used misses the end of a frame.
// The error is ErrMore where all of p was used and no event is due, a *Refusal after the
// last event of a stream that is refused, at every call before a Skip, and ErrClosed after Close.
//
// The content of the event lives until the next call.
func (d *Decoder) Next(p []byte) (event Event, n int, err error) {
	if !d.enter() {
		return Event{}, 0, ErrClosed
	}
	defer d.leave()
	for d.next == d.count {
		piece := p[n:]
		if len(piece) > space {
			piece = piece[:space]
		}
		used := d.take(piece, room)
		if d.count > 0 {
			d.owned = append(d.owned[:0], piece[:used]...)
			d.piece = d.owned
		}
		n += used
		if err := d.ended(len(p) - n); d.count == 0 && err != nil {
			return Event{}, n, err
		}
	}
	d.put(&event)
	return event, n, nil
}

// take is one call of the library: how many bytes were used. It puts this many events at most; with 0 the call fills the columns, and
// puts the event that they do not take.
func (d *Decoder) take(p []byte, most int) int {
	var first *C.uint8_t
	if len(p) > 0 {
		first = (*C.uint8_t)(unsafe.Pointer(&p[0]))
	}
	if most > room {
		most = room
	}
	// memory without pointers, which C writes during the call alone
	events := (*C.cqlp_placed)(unsafe.Pointer(d.events))
	if most == 0 {
		C.cqlp_box_fill(d.box, first, C.size_t(len(p)), events)
	} else {
		C.cqlp_box_next(d.box, first, C.size_t(len(p)), C.size_t(most), events)
	}
	d.next, d.count = 0, int(d.box.batch.events)
	d.piece = p
	return int(d.box.batch.used)
}

// put gives out the next event of the last batch.
func (d *Decoder) put(event *Event) {
	e := &d.events[d.next]
	if e.place == inDecoder {
		d.copied = d.appendContent(d.copied[:0], d.next)
		e.fill(event, d.copied)
	} else {
		e.fill(event, e.content(d.piece))
	}
	d.next++
}

// appendContent appends the content of an event of the last batch.
func (d *Decoder) appendContent(to []byte, at int) []byte {
	e := &d.events[at]
	if e.place == inDecoder {
		return append(to, unsafe.Slice((*byte)(unsafe.Pointer(d.box.content)), int(e.length))...)
	}
	return append(to, e.content(d.piece)...)
}

// Skip passes over the rest of the frame within which the stream is refused, and says which it was, and why. The decoder goes on with the
// rest of the input, of which it uses the bytes that the frame still has unread. A table that was given is freed: take it back before. The
// error is CodeNotRefused, also while events before the refusal were not given out, CodeInHeader where what is refused is a header, so
// that nobody knows where its frame ends, or CodeTooFar.
func (d *Decoder) Skip() (Skipped, error) {
	if !d.enter() {
		return Skipped{}, ErrClosed
	}
	defer d.leave()
	if d.next < d.count {
		return Skipped{}, CodeNotRefused
	}
	if err := done(C.cqlp_skip(&d.box.decoder, &d.box.skipped)); err != nil {
		return Skipped{}, err
	}
	native := &d.box.skipped
	skipped := Skipped{At: uint64(native.at), Reason: Reason(native.reason), Rest: uint64(native.rest)}
	(*placed)(unsafe.Pointer(&native.frame)).fill(&skipped.Frame, nil)
	return skipped, nil
}

// Finish says how the stream ends, if it ends after the bytes that were used. It changes nothing.
func (d *Decoder) Finish() (Verdict, error) {
	if !d.enter() {
		return Verdict{}, ErrClosed
	}
	defer d.leave()
	C.cqlp_finish(&d.box.decoder, &d.box.end)
	return verdictOf(&d.box.end), nil
}

// Held says how much is held of the stream. It changes nothing.
func (d *Decoder) Held() (Held, error) {
	if !d.enter() {
		return Held{}, ErrClosed
	}
	defer d.leave()
	C.cqlp_held(&d.box.decoder, &d.box.holding)
	h := d.box.holding
	return Held{uint32(h.bytes), uint32(h.entries), uint32(h.levels)}, nil
}

// Close frees the decoder, at the end of the call that is under way, if one is; a second time does nothing. Each other call answers
// ErrClosed from then on. Any goroutine may call it at any time.
func (d *Decoder) Close() error {
	for {
		calls := d.calls.Load()
		if calls&1 != 0 {
			return nil
		}
		if d.calls.CompareAndSwap(calls, calls|1) {
			if calls == 0 {
				d.free()
			}
			return nil
		}
	}
}

// Check says how a stream ends that is there whole: what a decoder with these limits says of it.
func Check(limits Limits, stream []byte) (Verdict, error) {
	native, end := limits.native(), C.cqlp_end{}
	var first *C.uint8_t
	if len(stream) > 0 {
		first = (*C.uint8_t)(unsafe.Pointer(&stream[0]))
	}
	if err := done(C.cqlp_check(&native, first, C.size_t(len(stream)), &end)); err != nil {
		return Verdict{}, err
	}
	return verdictOf(&end), nil
}

// What C writes as a cqlp_placed is read as a placed: their members lie alike, else these arrays do not compile.
var (
	ofGo placed
	ofC  C.cqlp_placed
	_    = [1]int{unsafe.Sizeof(ofGo) - unsafe.Sizeof(ofC): 0}
	_    = [1]int{unsafe.Offsetof(ofGo.at) - unsafe.Offsetof(ofC.at): 0}
	_    = [1]int{unsafe.Offsetof(ofGo.place) - unsafe.Offsetof(ofC.place): 0}
	_    = [1]int{unsafe.Offsetof(ofGo.length) - unsafe.Offsetof(ofC.length): 0}
	_    = [1]int{unsafe.Offsetof(ofGo.number) - unsafe.Offsetof(ofC.number): 0}
	_    = [1]int{unsafe.Offsetof(ofGo.row) - unsafe.Offsetof(ofC.row): 0}
	_    = [1]int{unsafe.Offsetof(ofGo.column) - unsafe.Offsetof(ofC.column): 0}
	_    = [1]int{unsafe.Offsetof(ofGo.level) - unsafe.Offsetof(ofC.level): 0}
	_    = [1]int{unsafe.Offsetof(ofGo.extra) - unsafe.Offsetof(ofC.extra): 0}
	_    = [1]int{unsafe.Offsetof(ofGo.bytes) - unsafe.Offsetof(ofC.bytes): 0}
	_    = [1]int{unsafe.Offsetof(ofGo.tag) - unsafe.Offsetof(ofC.tag): 0}
	_    = [1]int{unsafe.Offsetof(ofGo.field) - unsafe.Offsetof(ofC.field): 0}
	_    = [1]int{unsafe.Offsetof(ofGo.kind) - unsafe.Offsetof(ofC.kind): 0}
	_    = [1]int{unsafe.Offsetof(ofGo.opcode) - unsafe.Offsetof(ofC.opcode): 0}
	_    = [1]int{unsafe.Offsetof(ofGo.flags) - unsafe.Offsetof(ofC.flags): 0}
	_    = [1]int{unsafe.Offsetof(ofGo.mark) - unsafe.Offsetof(ofC.mark): 0}
	_    = [1]int{unsafe.Offsetof(ofGo.octets) - unsafe.Offsetof(ofC.octets): 0}
)
