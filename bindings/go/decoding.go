// Package cqlp reads the CQL binary protocol, version 4 (native_protocol_v4.spec of Apache Cassandra), as events.
//
// A Decoder takes the bytes of a connection, or of a file of frames, in pieces of any size, and gives their events; a Reader does so for an
// io.Reader. Both hold no more than their Limits say, whatever lengths and counts a peer sends. A RowReader gives the rows of pages, and
// Frames the frames, each message as a struct of its own. A Client pairs replies with requests, a Server knows which requests it has not
// answered, AppendHeader writes headers, EncodeEvents and an Encoder write frames of their events, and a PageWriter a page of any size. All of
// these use libcqlp, which is written in Rattle and proved: the events are those that the bytes used say, in order, and what is written is
// read as the events given. Not proved is this package. What writes bodies and values, AppendMessage, AppendFrame and Bind, is plain Go, and
// uses nothing of the library.
//
// No pointer to Go's memory stays with C after a call.
package cqlp

import (
	"errors"
	"fmt"
	"io"
	"net"
)

// ErrMore says that all bytes were used, and that the ones that come after them are wanted.
var ErrMore = errors.New("cqlp: more bytes are wanted")

// ErrNoLibrary is what each call of the library answers in a program that was built without cgo, which alone links libcqlp.
var ErrNoLibrary = errors.New("cqlp: this program was built without libcqlp: build it with CGO_ENABLED=1 and a C compiler in PATH")

// ErrClosed says that the decoder, the core, the table or the page was closed. It is a net.ErrClosed.
var ErrClosed error = closedError{}

type closedError struct{}

func (closedError) Error() string { return "cqlp: it was closed" }

// Is makes it a net.ErrClosed.
func (closedError) Is(target error) bool { return target == net.ErrClosed }

// ErrNoMemory says that there is not as much memory as the limits allow to be held.
var ErrNoMemory = errors.New("cqlp: there is not enough memory")

// A LimitError says that a limit is out of its range.
type LimitError struct {
	// Limit is its name: text, cell, entries or depth.
	Limit string
}

func (e *LimitError) Error() string { return "cqlp: the limit " + e.Limit + " is out of its range" }

// A Refusal says that a stream is refused: from its offset At on it is no frame of the protocol, or past a limit.
type Refusal struct {
	// At is the offset of the first byte of the field that could not be made.
	At     uint64
	Reason Reason
}

func (e *Refusal) Error() string { return fmt.Sprintf("cqlp: refused %d %v", e.At, e.Reason) }

// Unwrap makes it the Reason, for errors.Is.
func (e *Refusal) Unwrap() error { return e.Reason }

// A Cut says that a stream ended within a frame. It wraps io.ErrUnexpectedEOF.
type Cut struct {
	// At is the offset of the frame.
	At uint64
	// Bytes is how many bytes the stream had.
	Bytes uint64
}

func (e *Cut) Error() string { return fmt.Sprintf("cqlp: cut %d %d", e.At, e.Bytes) }

// Unwrap makes it an io.ErrUnexpectedEOF.
func (e *Cut) Unwrap() error { return io.ErrUnexpectedEOF }

// Limits say what a decoder holds at most, and what it reads.
type Limits struct {
	// Text bounds the bytes of one [string] or [long string]: 32 to 16777216.
	Text uint32
	// Cell bounds the bytes of one [bytes], [short bytes], [value] or scalar cell: 32 to 16777216.
	Cell uint32
	// Entries bounds the type options of one metadata, nested ones counted: 1 to 65536.
	Entries uint32
	// Depth bounds the nesting of one type, a column's own option having depth 1: 1 to 64.
	Depth uint32
	// Types says whether cells are read by the types of their columns; else each is a raw scalar.
	Types bool
	// Parts says whether a blob, custom or raw scalar longer than Cell comes in parts of that size; else it is refused.
	Parts bool
}

// DefaultLimits are 1 MiB of a text and of a cell, 4096 type options and 16 levels; with types, without parts.
func DefaultLimits() Limits {
	return Limits{Text: 1 << 20, Cell: 1 << 20, Entries: 4096, Depth: 16, Types: true}
}

// A Verdict says how a stream ends.
type Verdict struct {
	End End
	// At is the offset of the frame where the stream is cut, and that of the field where it is refused.
	At uint64
	// Bytes is how many bytes were used; 0 where the stream is refused.
	Bytes uint64
	// Reason says why it is refused.
	Reason Reason
}

// String is the verdict line of cqlp check.
func (v Verdict) String() string {
	switch v.End {
	case EndWhole:
		return fmt.Sprintf("whole %d", v.Bytes)
	case EndCut:
		return fmt.Sprintf("cut %d %d", v.At, v.Bytes)
	}
	return fmt.Sprintf("refused %d %v", v.At, v.Reason)
}

// Held says what a decoder holds of the stream.
type Held struct {
	// Bytes are of a content that came in pieces: no more than the greater of Text and Cell.
	Bytes uint32
	// Entries are the type options of the metadata begun last.
	Entries uint32
	// Levels are the types or values around the one that is read: no more than Depth.
	Levels uint32
}

// A Skipped is a frame that was passed over, since something in its body is refused.
type Skipped struct {
	// Frame is the event of its header: its offset, its stream id, its opcode and the bytes of its body.
	Frame Event
	// At is the offset of the field that could not be made.
	At     uint64
	Reason Reason
	// Rest is how many of its bytes are still to come: they are used unread.
	Rest uint64
}

// String says which frame it was, and why.
func (s Skipped) String() string {
	return fmt.Sprintf("the frame at %d is passed over: refused at %d: %v", s.Frame.At, s.At, s.Reason)
}
