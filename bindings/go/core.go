package cqlp

// #include "box.h"
import "C"

import (
	"runtime"
	"sync"
	"unsafe"
)

// AppendHeader appends the nine bytes of a header. The error is the first of CodeCompressed, CodeBadOpcode, CodeBadDirection and
// CodeBadLength that is so, and b is then as it was.
func AppendHeader(b []byte, h Header) ([]byte, error) {
	fields := C.cqlp_header{
		length: C.uint32_t(h.Length),
		stream: C.int16_t(h.Stream),
		opcode: C.uint8_t(h.Opcode),
		flags:  C.uint8_t(h.Flags),
	}
	if h.Response {
		fields.response = 1
	}
	var octets [headerLength]byte
	if err := done(C.cqlp_write_header(&fields, first(octets[:]))); err != nil {
		return b, err
	}
	return append(b, octets[:]...), nil
}

// AppendEventHeader appends the nine bytes of the header of an EVENT, which a server sends unasked, before a body of this length: its
// stream id is -1. The error is CodeCompressed or CodeBadLength, and b is then as it was.
func AppendEventHeader(b []byte, length uint32, flags uint8) ([]byte, error) {
	var octets [headerLength]byte
	if err := done(C.cqlp_server_event(C.uint32_t(length), C.uint8_t(flags), first(octets[:]))); err != nil {
		return b, err
	}
	return append(b, octets[:]...), nil
}

// VersionError is what a server answers to a request of another version, before it closes: an ERROR of version 4, by which drivers try
// another one. header is what came of the request's frame; its first nine bytes count, and zeros where they did not come.
func VersionError(header []byte) []byte {
	var octets [headerLength]byte
	copy(octets[:], header)
	answer, length := make([]byte, 128), C.size_t(0)
	C.cqlp_version_error(first(octets[:]), first(answer), C.size_t(len(answer)), &length)
	return answer[:length]
}

func first(b []byte) *C.uint8_t { return (*C.uint8_t)(unsafe.Pointer(&b[0])) }

// as much of an event of a frame as a core looks at.
func nativeFrame(frame Event) C.cqlp_event {
	return C.cqlp_event{
		extra:  C.int32_t(frame.Extra),
		tag:    C.uint8_t(frame.Tag),
		opcode: C.uint8_t(frame.Opcode),
		mark:   C.uint8_t(frame.Mark),
	}
}

// A Client knows which requests are open on a connection, seen from its client: it gives each a stream id, and says which of them a response
// answers. It sends and receives nothing. Several goroutines may use it.
type Client struct {
	mu     sync.Mutex
	native C.cqlp_client
	ticket C.cqlp_ticket
	reply  C.cqlp_reply
}

// NewClient makes the core of a connection on which nothing was sent yet. slots is how many requests may be open at a time, 1 to 32768, or
// the error is CodeBadSlots; their stream ids are those below it. All of its memory is asked for here, and given back by Close.
func NewClient(slots int) (*Client, error) {
	c := new(Client)
	if err := done(C.cqlp_client_new(slotsOf(slots), &c.native)); err != nil {
		return nil, err
	}
	runtime.SetFinalizer(c, (*Client).Close)
	return c, nil
}

// slotsOf has what is out of its range refused as 0 is.
func slotsOf(slots int) C.uint32_t {
	if slots < 0 || slots > 1<<15 {
		return 0
	}
	return C.uint32_t(slots)
}

// Begin begins a request: its ticket has the least stream id that is free, and the next number. Send its message in the order in which
// requests begin. Its reply has the carried number again. The error is CodeNoRequest, CodeBadPhase, CodeSpent, CodeFull or ErrClosed.
func (c *Client) Begin(opcode Opcode, carried uint64) (Ticket, error) {
	c.mu.Lock()
	defer c.mu.Unlock()
	if err := done(C.cqlp_client_begin(&c.native, C.uint8_t(opcode), C.uint64_t(carried), &c.ticket)); err != nil {
		return Ticket{}, err
	}
	return Ticket{uint64(c.ticket.number), int16(c.ticket.id)}, nil
}

// Reply takes the event of a frame that came, one with TagFrame, and says which request it answers. Its stream id is free again from then
// on. The error is CodeNoFrame, CodeNotResponse, CodeNoSuchStream, CodeWrongOpcode or ErrClosed, and nothing changes.
func (c *Client) Reply(frame Event) (Reply, error) {
	c.mu.Lock()
	defer c.mu.Unlock()
	native := nativeFrame(frame)
	if err := done(C.cqlp_client_reply(&c.native, &native, &c.reply)); err != nil {
		return Reply{}, err
	}
	r := &c.reply
	ticket := Ticket{uint64(r.number), int16(r.id)}
	return Reply{ReplyKind(r.what), ticket, Opcode(r.request), uint64(r.carried)}, nil
}

// Cancel gives up a request that waits for its reply. Its stream id stays taken until the reply comes, which is then ReplyDropped. The error
// is CodeNotCancelled or ErrClosed.
func (c *Client) Cancel(ticket Ticket) error {
	c.mu.Lock()
	defer c.mu.Unlock()
	c.ticket.number, c.ticket.id = C.uint64_t(ticket.Number), C.int16_t(ticket.ID)
	return done(C.cqlp_client_cancel(&c.native, &c.ticket))
}

// Phase is how far the setting up of the connection has come.
func (c *Client) Phase() (Phase, error) {
	c.mu.Lock()
	defer c.mu.Unlock()
	phase := C.uint8_t(0)
	err := done(C.cqlp_client_phase(&c.native, &phase))
	return Phase(phase), err
}

// Close frees the core; a second time does nothing. Each other call answers ErrClosed from then on.
func (c *Client) Close() error {
	c.mu.Lock()
	defer c.mu.Unlock()
	C.cqlp_client_free(&c.native)
	runtime.SetFinalizer(c, nil)
	return nil
}

// A Server knows which requests of a connection it has not answered: it refuses one whose stream id is taken or that may not come yet, and an
// answer to nothing, or of another kind. It sends and receives nothing. Several goroutines may use it.
type Server struct {
	mu       sync.Mutex
	native   C.cqlp_server
	answered C.cqlp_answered
}

// NewServer makes the core of a connection on which nothing came yet. slots is how many requests may be open at a time, 1 to 32768, or
// the error is CodeBadSlots; their stream ids are those below it. All of its memory is asked for here, and given back by Close.
func NewServer(slots int) (*Server, error) {
	s := new(Server)
	if err := done(C.cqlp_server_new(slotsOf(slots), &s.native)); err != nil {
		return nil, err
	}
	runtime.SetFinalizer(s, (*Server).Close)
	return s, nil
}

// Accept takes the event of a frame that came, one with TagFrame, as a request. Its stream id is taken until it is answered, and its answer
// has the carried number again. The error is CodeNoFrame, CodeNotRequest, CodeBadID, CodeIDTaken, CodeBadPhase or ErrClosed, and nothing
// changes.
func (s *Server) Accept(frame Event, carried uint64) error {
	s.mu.Lock()
	defer s.mu.Unlock()
	native := nativeFrame(frame)
	return done(C.cqlp_server_accept(&s.native, &native, C.uint64_t(carried)))
}

// Answer answers the request that is open under this stream id by a response with this opcode. Send the response in the order in which
// requests are answered. The error is CodeBadOpcode, CodeNoSuchStream, CodeWrongOpcode or ErrClosed, and nothing changes.
func (s *Server) Answer(stream int16, opcode Opcode) (Answered, error) {
	s.mu.Lock()
	defer s.mu.Unlock()
	if err := done(C.cqlp_server_answer(&s.native, C.int16_t(stream), C.uint8_t(opcode), &s.answered)); err != nil {
		return Answered{}, err
	}
	return Answered{Opcode(s.answered.request), uint64(s.answered.carried)}, nil
}

// Phase is how far the setting up of the connection has come.
func (s *Server) Phase() (Phase, error) {
	s.mu.Lock()
	defer s.mu.Unlock()
	phase := C.uint8_t(0)
	err := done(C.cqlp_server_phase(&s.native, &phase))
	return Phase(phase), err
}

// Close frees the core; a second time does nothing. Each other call answers ErrClosed from then on.
func (s *Server) Close() error {
	s.mu.Lock()
	defer s.mu.Unlock()
	C.cqlp_server_free(&s.native)
	runtime.SetFinalizer(s, nil)
	return nil
}
