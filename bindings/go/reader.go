package cqlp

import (
	"context"
	"errors"
	"io"
)

// headerLength is how many bytes a header has.
const headerLength = 9

// A Reader gives the events of what an io.Reader reads. It is not to be used by several goroutines at a time, but for Close.
type Reader struct {
	// Skip is called with each frame that is refused within its body, and the events go on with the next frame; where it is nil the Reader ends
	// there. Of such a frame there is no End.
	Skip func(Skipped)
	// Types says by which types a page without metadata is read, of the event of its header, as of its stream id. It is called for each RESULT,
	// and may answer nil. The table is given for this frame and taken back at its end, also where it is refused, but lost where the Reader is
	// closed within it.
	Types func(frame Event) *Types

	decoder *Decoder
	source  *source
	// the context of the call that is under way
	ctx    context.Context
	buffer []byte
	// the bytes of the buffer that were read and not used
	rest []byte
	// how many bytes are still to come of the header or the body under way: none after them is given to the decoder before its event came
	due int64
	// whether a header is under way, and as much as came of it, or of the one before the body under way
	inHeader bool
	header   []byte
	// whether the body under way is passed over
	passing bool
	given   *Types
	// the table that types the frame whose event came last, if one does
	typing *Types
	// what the source answered last
	err error
	// how many events a call puts, and whether it fills the columns instead
	room    int
	filling bool
}

// errFull says that the columns have rows that are to be taken before anything else.
var errFull = errors.New("cqlp: the columns are full")

// NewReader makes a decoder for what is read. Close frees it, and does not close the io.Reader.
func NewReader(source io.Reader, limits Limits) (*Reader, error) {
	return newReader(source, limits, NewDecoder)
}

// NewLenientReader makes one for a lenient reading, as NewLenientDecoder.
func NewLenientReader(source io.Reader, limits Limits) (*Reader, error) {
	return newReader(source, limits, NewLenientDecoder)
}

func newReader(source io.Reader, limits Limits, newDecoder func(Limits) (*Decoder, error)) (*Reader, error) {
	decoder, err := newDecoder(limits)
	if err != nil {
		return nil, err
	}
	r := &Reader{decoder: decoder, source: newSource(source), ctx: context.Background(), buffer: make([]byte, space), room: room}
	r.beginHeader()
	return r, nil
}

// Next gives the next event. After the last one the error is io.EOF where the stream is whole, a *Cut where it is cut, and a *Refusal
// where it is refused; another error is the io.Reader's, after all events of what it had read.
//
// The content of the event lives until the next call.
func (r *Reader) Next() (event Event, err error) {
	if !r.decoder.enter() {
		return Event{}, ErrClosed
	}
	defer r.decoder.leave()
	err = r.next(&event)
	return event, err
}

// NextContext is Next, but where it has to read it ends with the error of ctx once ctx is done; the next call reads on. A Read that waits is ended
// by the read deadline of the io.Reader, as a net.Conn has one, and the reader removes that deadline. An io.Reader without read deadlines is not
// interrupted: ctx is looked at before each Read. No goroutine is left.
func (r *Reader) NextContext(ctx context.Context) (event Event, err error) {
	defer r.during(ctx)()
	return r.Next()
}

// during sets the context of a call, up to the function that it returns.
func (r *Reader) during(ctx context.Context) (leave func()) {
	r.ctx = ctx
	return func() { r.ctx = context.Background() }
}

func (r *Reader) next(event *Event) error {
	d := r.decoder
	if d.next == d.count {
		if err := r.fill(); err != nil {
			return err
		}
	}
	d.put(event)
	return nil
}

// fill makes a batch with an event at least. Contents of the last batch live no longer.
func (r *Reader) fill() error {
	d := r.decoder
	for {
		if d.closed() {
			return ErrClosed
		}
		r.advance()
		if d.count > 0 {
			return r.began()
		}
		switch err := d.ended(len(r.rest)); {
		case r.filling && d.full():
			return errFull
		case err == nil:
		case !errors.Is(err, ErrMore):
			if err := r.pass(err); err != nil {
				return err
			}
		case r.err != nil:
			return r.ending()
		default:
			if err := r.read(); err != nil {
				return err
			}
		}
	}
}

// advance gives bytes to the decoder, of one header or one body.
func (r *Reader) advance() {
	piece := r.rest
	if int64(len(piece)) > r.due {
		piece = piece[:r.due]
	}
	most := r.room
	if r.filling {
		most = 0
	}
	n := r.decoder.take(piece, most)
	if r.inHeader {
		r.header = append(r.header, piece[:n]...)
	}
	r.rest = r.rest[n:]
	r.due -= int64(n)
	r.endPassing()
}

func (r *Reader) beginHeader() { r.due, r.inHeader, r.header = headerLength, true, r.header[:0] }

// Header is as much as came of the header of the frame under way, which is the one that is refused, where one is: VersionError answers it. It
// lives until the next call.
func (r *Reader) Header() []byte {
	if !r.inHeader {
		return r.header
	}
	missing := r.rest
	if left := headerLength - len(r.header); len(missing) > left {
		missing = missing[:left]
	}
	return append(r.header, missing...)
}

func (r *Reader) endPassing() {
	if r.passing && r.due == 0 {
		r.passing = false
		r.beginHeader()
	}
}

// began looks at what the batch begins or ends: the event of a frame comes first in it, and its End last.
func (r *Reader) began() (err error) {
	d := r.decoder
	if first := &d.events[0]; first.tag == TagFrame {
		r.due, r.inHeader, r.typing = int64(first.number), false, nil
		err = r.give()
	}
	if d.events[d.count-1].tag == TagEnd {
		r.beginHeader()
		r.takeBack()
	}
	return err
}

// give gives the table for the frame whose event is the first of the batch.
func (r *Reader) give() error {
	var frame Event
	r.decoder.events[0].fill(&frame, nil)
	if r.Types == nil || frame.Opcode != OpcodeResult {
		return nil
	}
	types := r.Types(frame)
	if types == nil {
		return nil
	}
	err := r.decoder.Give(types)
	if err == nil {
		r.given, r.typing = types, types
	}
	return err
}

// takeBack has the table in the hands of the caller again, at the end of a frame and after a refusal; within a page that it types it stays.
func (r *Reader) takeBack() {
	if r.given != nil {
		_ = r.decoder.TakeGiven(r.given)
		r.given = nil
	}
}

// pass goes on after a refusal, where that is asked for and can be done; else it is the error.
func (r *Reader) pass(refusal error) error {
	r.takeBack()
	if r.Skip == nil {
		return refusal
	}
	skipped, err := r.decoder.Skip()
	if err != nil {
		return refusal
	}
	r.passing, r.due = true, int64(skipped.Rest)
	r.endPassing()
	r.Skip(skipped)
	return nil
}

// read reads bytes into the buffer. The error says why that was ended; other errors are for after the bytes.
func (r *Reader) read() error {
	n := 0
	for empty := 0; n == 0 && r.err == nil; empty++ {
		if empty == 100 {
			r.err = io.ErrNoProgress
			break
		}
		n, r.err = r.source.read(r.ctx, r.buffer)
	}
	r.rest = r.buffer[:n]
	if by, is := r.err.(interrupted); is {
		r.err = nil
		return by.error
	}
	return nil
}

// ending is the error after the last event.
func (r *Reader) ending() error {
	if r.err != io.EOF {
		return r.err
	}
	verdict, err := r.decoder.Finish()
	if err != nil {
		return err
	}
	if verdict.End == EndCut {
		return &Cut{verdict.At, verdict.Bytes}
	}
	return io.EOF
}

// TypesOf copies the types of the metadata that was read last, as Decoder.TypesOf.
func (r *Reader) TypesOf() (*Types, error) { return r.decoder.TypesOf() }

// Held says how much is held of the stream.
func (r *Reader) Held() (Held, error) { return r.decoder.Held() }

// Close frees the decoder; a second time does nothing. Any goroutine may call it at any time: a call that is under way answers ErrClosed. If that
// call waits for the io.Reader, which Close does not close, it answers at once where that has read deadlines, as a net.Conn has, and else once a
// Read has returned.
func (r *Reader) Close() error {
	err := r.decoder.Close()
	r.source.close()
	return err
}
