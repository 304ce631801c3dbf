package cqlp

import (
	"fmt"
	"net"
	"strings"
)

// A Message is what a frame has in its body: a pointer to one of the structs below. Section 4 of native_protocol_v4.spec.
type Message interface {
	// Opcode is that of its frame.
	Opcode() Opcode
}

// A Value is a value that is bound: its bytes, or none where it is null, or Unset.
type Value struct {
	// Bytes are nil where the value is null or not set.
	Bytes []byte
	// Unset says that the value is not set, so that the column stays as it is.
	Unset bool
}

// ---- requests

// Parameters are the parameters of a query. Section 4.1.4. A part that is not there is nil.
type Parameters struct {
	Consistency Consistency
	// SkipMetadata asks for pages without metadata.
	SkipMetadata bool
	Values       []Value
	// Names are those of the values, where they are bound by names.
	Names             []string
	PageSize          *int32
	PagingState       []byte
	SerialConsistency *Consistency
	// Timestamp is in microseconds from 1970.
	Timestamp *int64
}

// An Option of Startup is a key with its value.
type Option struct{ Key, Value string }

// Startup has the options of a connection. Section 4.1.1.
type Startup struct{ Options []Option }

// Options asks for the options that are supported. Section 4.1.3.
type Options struct{}

// Query is a query by its text. Section 4.1.4.
type Query struct {
	Query      string
	Parameters Parameters
}

// Prepare is a query to be prepared. Section 4.1.5.
type Prepare struct{ Query string }

// Execute is a query by the id of its prepared statement. Section 4.1.6.
type Execute struct {
	ID         []byte
	Parameters Parameters
}

// A Statement of a batch is its text, or the id of a prepared one.
type Statement struct {
	Query string
	// ID is nil where the statement comes as a text.
	ID     []byte
	Values []Value
}

// Batch has statements that are done together. Section 4.1.7.
type Batch struct {
	Type              BatchType
	Statements        []Statement
	Consistency       Consistency
	SerialConsistency *Consistency
	Timestamp         *int64
}

// Register has the types of the events that are asked for. Section 4.1.8.
type Register struct{ EventTypes []string }

// AuthResponse is an answer to a challenge, nil where it is null. Section 4.1.2.
type AuthResponse struct{ Token []byte }

// ---- responses

// ServerError is an ERROR. Section 9. One with a code after whose message more fields come is of a struct of its own, below, which wraps a
// *ServerError; all are errors.
type ServerError struct {
	Code    ErrorCode
	Message string
}

// Error is the code's name, and the message.
func (e *ServerError) Error() string { return fmt.Sprintf("cqlp: %v: %s", e.Code, e.Message) }

// Unwrap makes it the ErrorCode, for errors.Is.
func (e *ServerError) Unwrap() error { return e.Code }

// Unavailable is 1000: too few replicas are alive.
type Unavailable struct {
	ServerError
	Consistency     Consistency
	Required, Alive int32
}

// WriteTimeout is 1100: too few replicas took a write in time.
type WriteTimeout struct {
	ServerError
	Consistency        Consistency
	Received, BlockFor int32
	WriteType          string
}

// ReadTimeout is 1200: too few replicas answered a read in time.
type ReadTimeout struct {
	ServerError
	Consistency        Consistency
	Received, BlockFor int32
	DataPresent        bool
}

// ReadFailure is 1300: a read failed on some replicas.
type ReadFailure struct {
	ServerError
	Consistency                  Consistency
	Received, BlockFor, Failures int32
	DataPresent                  bool
}

// FunctionFailure is 1400: a function failed.
type FunctionFailure struct {
	ServerError
	Keyspace, Name string
	// Arguments are the types of its arguments.
	Arguments []string
}

// WriteFailure is 1500: a write failed on some replicas.
type WriteFailure struct {
	ServerError
	Consistency                  Consistency
	Received, BlockFor, Failures int32
	WriteType                    string
}

// AlreadyExists is 2400: the keyspace or the table exists; Table is empty where it is the keyspace.
type AlreadyExists struct {
	ServerError
	Keyspace, Table string
}

// Unprepared is 2500: no statement with this id is prepared.
type Unprepared struct {
	ServerError
	ID []byte
}

// Unwrap makes it a *ServerError.
func (e *Unavailable) Unwrap() error { return &e.ServerError }

// Unwrap makes it a *ServerError.
func (e *WriteTimeout) Unwrap() error { return &e.ServerError }

// Unwrap makes it a *ServerError.
func (e *ReadTimeout) Unwrap() error { return &e.ServerError }

// Unwrap makes it a *ServerError.
func (e *ReadFailure) Unwrap() error { return &e.ServerError }

// Unwrap makes it a *ServerError.
func (e *FunctionFailure) Unwrap() error { return &e.ServerError }

// Unwrap makes it a *ServerError.
func (e *WriteFailure) Unwrap() error { return &e.ServerError }

// Unwrap makes it a *ServerError.
func (e *AlreadyExists) Unwrap() error { return &e.ServerError }

// Unwrap makes it a *ServerError.
func (e *Unprepared) Unwrap() error { return &e.ServerError }

// Ready says that the connection is open, or that REGISTER was done. Section 4.2.2.
type Ready struct{}

// Authenticate has the class of the authenticator that wants an answer. Section 4.2.3.
type Authenticate struct{ Class string }

// A SupportedOption has the values that there are of an option.
type SupportedOption struct {
	Key    string
	Values []string
}

// Supported has the options that there are. Section 4.2.4.
type Supported struct{ Options []SupportedOption }

// Void is a result that is nothing. Section 4.2.5.1.
type Void struct{}

// A Type is the type of a column.
type Type struct {
	Kind Kind
	// Inner are the types in it: one of a list or a set, a key's and a value's of a map, one for each field of a tuple or a UDT.
	Inner []Type
	// Names are those of the fields of a UDT.
	Names []string
	// Keyspace is a UDT's.
	Keyspace string
	// Name is that of a UDT, or the class of a custom type.
	Name string
}

// String is as CQL writes it, with the class of a custom type between quotation marks.
func (t Type) String() string {
	switch t.Kind {
	case KindUDT:
		return t.Keyspace + "." + t.Name
	case KindCustom:
		return fmt.Sprintf("%q", t.Name)
	}
	if len(t.Inner) == 0 {
		return t.Kind.String()
	}
	words := make([]string, len(t.Inner))
	for i, inner := range t.Inner {
		words[i] = inner.String()
	}
	return fmt.Sprintf("%v<%s>", t.Kind, strings.Join(words, ", "))
}

// A Column of a page, or a value that is to be bound.
type Column struct {
	Keyspace, Table, Name string
	Type                  Type
}

// Metadata describes the columns of a result. Section 4.2.5.2.
type Metadata struct {
	// Flags are 1 one table for all columns, 2 more pages, 4 no columns are described.
	Flags int32
	// Width is how many columns there are, also where none are described.
	Width int32
	// PagingState is where the result goes on, or nil where this is its last page.
	PagingState []byte
	Columns     []Column
}

// Rows is a page. Section 4.2.5.2.
type Rows struct {
	Metadata Metadata
	// Count is how many rows it says that it has. A page without columns has none in Rows, whatever it says.
	Count int32
	// Rows are as RowReader.Values gives them; AppendMessage also takes what Bind does.
	Rows [][]any
}

// SetKeyspace has the keyspace in use. Section 4.2.5.3.
type SetKeyspace struct{ Keyspace string }

// Prepared says that a statement is prepared. Section 4.2.5.4.
type Prepared struct {
	ID []byte
	// Flags is 1 where one table is written for all values that are to be bound.
	Flags int32
	// Keys say which of the values are the partition key, in the key's order.
	Keys []uint16
	// Bound are the values that are to be bound.
	Bound []Column
	// Result describes the columns of the statement's pages.
	Result Metadata
}

// SchemaChange says that the schema was changed. Section 4.2.5.5.
type SchemaChange struct {
	// Change is CREATED, UPDATED or DROPPED; another text is kept.
	Change string
	// Target is KEYSPACE, TABLE, TYPE, FUNCTION or AGGREGATE; after another text no more is read.
	Target string
	// Name is that of what is no keyspace.
	Keyspace, Name string
	// Arguments are the types of the arguments of a function or an aggregate.
	Arguments []string
}

// UnknownResult is a result of a kind that is none of 1 to 5.
type UnknownResult struct{ Kind ResultKind }

// NodeEvent is an EVENT about a node. Section 4.2.6.
type NodeEvent struct {
	// Type is TOPOLOGY_CHANGE or STATUS_CHANGE.
	Type string
	// Change is NEW_NODE, REMOVED_NODE, UP or DOWN; another text is kept.
	Change  string
	Address net.IP
	Port    int32
}

// SchemaEvent is an EVENT of the type SCHEMA_CHANGE.
type SchemaEvent struct{ Schema SchemaChange }

// UnknownEvent is an EVENT of another type.
type UnknownEvent struct{ Type string }

// AuthChallenge is a challenge of the server. Section 4.2.7.
type AuthChallenge struct{ Token []byte }

// AuthSuccess is the end of the authentication. Section 4.2.8.
type AuthSuccess struct{ Token []byte }

// Opcode is OpcodeStartup.
func (*Startup) Opcode() Opcode { return OpcodeStartup }

// Opcode is OpcodeOptions.
func (*Options) Opcode() Opcode { return OpcodeOptions }

// Opcode is OpcodeQuery.
func (*Query) Opcode() Opcode { return OpcodeQuery }

// Opcode is OpcodePrepare.
func (*Prepare) Opcode() Opcode { return OpcodePrepare }

// Opcode is OpcodeExecute.
func (*Execute) Opcode() Opcode { return OpcodeExecute }

// Opcode is OpcodeBatch.
func (*Batch) Opcode() Opcode { return OpcodeBatch }

// Opcode is OpcodeRegister.
func (*Register) Opcode() Opcode { return OpcodeRegister }

// Opcode is OpcodeAuthResponse.
func (*AuthResponse) Opcode() Opcode { return OpcodeAuthResponse }

// Opcode is OpcodeError.
func (*ServerError) Opcode() Opcode { return OpcodeError }

// Opcode is OpcodeReady.
func (*Ready) Opcode() Opcode { return OpcodeReady }

// Opcode is OpcodeAuthenticate.
func (*Authenticate) Opcode() Opcode { return OpcodeAuthenticate }

// Opcode is OpcodeSupported.
func (*Supported) Opcode() Opcode { return OpcodeSupported }

// Opcode is OpcodeResult.
func (*Void) Opcode() Opcode { return OpcodeResult }

// Opcode is OpcodeResult.
func (*Rows) Opcode() Opcode { return OpcodeResult }

// Opcode is OpcodeResult.
func (*SetKeyspace) Opcode() Opcode { return OpcodeResult }

// Opcode is OpcodeResult.
func (*Prepared) Opcode() Opcode { return OpcodeResult }

// Opcode is OpcodeResult.
func (*SchemaChange) Opcode() Opcode { return OpcodeResult }

// Opcode is OpcodeResult.
func (*UnknownResult) Opcode() Opcode { return OpcodeResult }

// Opcode is OpcodeEvent.
func (*NodeEvent) Opcode() Opcode { return OpcodeEvent }

// Opcode is OpcodeEvent.
func (*SchemaEvent) Opcode() Opcode { return OpcodeEvent }

// Opcode is OpcodeEvent.
func (*UnknownEvent) Opcode() Opcode { return OpcodeEvent }

// Opcode is OpcodeAuthChallenge.
func (*AuthChallenge) Opcode() Opcode { return OpcodeAuthChallenge }

// Opcode is OpcodeAuthSuccess.
func (*AuthSuccess) Opcode() Opcode { return OpcodeAuthSuccess }
