package cqlp

// A Header has the fields of a header, section 2. The version is 4.
type Header struct {
	Opcode Opcode
	// Stream is the stream id: a request's is its ticket's.
	Stream int16
	// Length is how many bytes the body has: 0 to 268435456.
	Length uint32
	// Flags are 02 tracing, 04 custom payload, 08 warnings: section 2.2.
	Flags    uint8
	Response bool
}

// A Ticket is a request that has begun.
type Ticket struct {
	// Number is its place among all requests that the core began, from 1 on: no two have the same.
	Number uint64
	// ID is the stream id, which its header has and its reply's will have.
	ID int16
}

// A Reply is what a response says to a client.
type Reply struct {
	What ReplyKind
	// Ticket is that of the request; of an event it is zero.
	Ticket Ticket
	// Request is what was asked for, of an answer.
	Request Opcode
	// Carried is the number that the request began with.
	Carried uint64
}

// Answered is a request that a server has answered.
type Answered struct {
	// Request is what was asked for.
	Request Opcode
	// Carried is the number that the request was accepted with.
	Carried uint64
}
