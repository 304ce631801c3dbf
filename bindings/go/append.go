package cqlp

// What writes bodies. This is plain Go, and uses nothing of the proved library but the header; the tests read all that it writes
// with the decoder. A text that is not UTF-8 is refused, and a text or a list that is longer than its length can say; nothing else is looked at.

import (
	"errors"
	"fmt"
	"math"
	"net"
	"unicode/utf8"
)

// ErrTooLong says that a text, a list or a body is longer than its length can say.
var ErrTooLong = errors.New("cqlp: longer than its length can say")

// ErrNotText says that a text is not UTF-8, or a string of an ascii column not ASCII, so that no decoder would read it.
var ErrNotText = errors.New("cqlp: a text that is not UTF-8, or not ASCII where it has to be")

// ErrNotWritten says that there is no writer of such a message, type or value here.
var ErrNotWritten = errors.New("cqlp: there is no writer of this")

// AppendMessage appends a frame without flags under this stream id. The values of Rows are those that Bind takes; columns are written with their
// tables, except where the flag 4 of the metadata is set: then Columns may have their types, and a reader has to know them. The error is
// ErrTooLong, ErrNotText, ErrNotWritten, or one that says what does not go together, and b is then as it was.
func AppendMessage(b []byte, stream int16, m Message) ([]byte, error) {
	return AppendFrame(b, &Frame{Stream: stream, Message: m})
}

// AppendFrame appends a frame with a trace id, warnings and a custom payload, where they are not nil, and its message. Its opcode, direction and
// length are the message's, and of its flags those that announce what is there; Extra bytes are left out. The errors are those of
// AppendMessage.
func AppendFrame(b []byte, f *Frame) ([]byte, error) {
	var w writer
	opcode := f.Message.Opcode()
	flags := f.Flags&^0x04 | set(0x04, f.Payload != nil)
	if isResponse(opcode) {
		flags = flags&^0x0a | set(0x02, f.TraceID != nil) | set(0x08, f.Warnings != nil)
		w.announced(f)
	}
	w.payload(f.Payload)
	w.message(f.Message)
	if w.err != nil {
		return b, w.err
	}
	if len(w.body) > 1<<28 {
		return b, ErrTooLong
	}
	with, err := AppendHeader(b, Header{opcode, f.Stream, uint32(len(w.body)), flags, isResponse(opcode)})
	if err != nil {
		return b, err
	}
	return append(with, w.body...), nil
}

// A writer writes the notations of section 3, and keeps its first error.
type writer struct {
	body []byte
	err  error
}

func isResponse(opcode Opcode) bool {
	switch opcode {
	case OpcodeStartup, OpcodeOptions, OpcodeQuery, OpcodePrepare, OpcodeExecute, OpcodeRegister, OpcodeBatch, OpcodeAuthResponse:
		return false
	}
	return true
}

func (w *writer) fail(form string, words ...any) { w.err = fmt.Errorf("cqlp: "+form, words...) }

func (w *writer) byte(n byte) { w.body = append(w.body, n) }

func (w *writer) short(n uint16) { w.body = append(w.body, byte(n>>8), byte(n)) }

func (w *writer) int(n int32) {
	w.short(uint16(n >> 16))
	w.short(uint16(n))
}

func (w *writer) long(n int64) {
	w.int(int32(n >> 32))
	w.int(int32(n))
}

// count is how many items come.
func (w *writer) count(n int) {
	if n > math.MaxUint16 {
		w.err = ErrTooLong
	}
	w.short(uint16(n))
}

func (w *writer) text(s string) {
	w.isText(utf8.ValidString(s))
	w.shortBytes(s)
}

func (w *writer) shortBytes(s string) {
	w.count(len(s))
	w.body = append(w.body, s...)
}

func (w *writer) isText(is bool) {
	if !is && w.err == nil {
		w.err = ErrNotText
	}
}

func (w *writer) texts(texts ...string) {
	for _, s := range texts {
		w.text(s)
	}
}

// list writes texts with how many they are.
func (w *writer) list(texts []string) {
	w.count(len(texts))
	w.texts(texts...)
}

func (w *writer) longText(s string) {
	w.isText(utf8.ValidString(s))
	w.length(len(s))
	w.body = append(w.body, s...)
}

func (w *writer) length(n int) {
	if n > 1<<28 {
		w.err = ErrTooLong
	}
	w.int(int32(n))
}

// bytes are null where they are nil.
func (w *writer) bytes(b []byte) {
	if b == nil {
		w.int(-1)
		return
	}
	w.length(len(b))
	w.body = append(w.body, b...)
}

func (w *writer) value(v Value) {
	if v.Unset {
		w.int(-2)
		return
	}
	w.bytes(v.Bytes)
}

// announced is what the flags of a response announce.
func (w *writer) announced(f *Frame) {
	if f.TraceID != nil {
		w.body = append(w.body, f.TraceID[:]...)
	}
	if f.Warnings != nil {
		w.list(f.Warnings)
	}
}

func (w *writer) payload(items []PayloadItem) {
	if items == nil {
		return
	}
	w.count(len(items))
	for _, item := range items {
		w.text(item.Key)
		w.bytes(item.Value)
	}
}

func (w *writer) message(m Message) {
	switch m := m.(type) {
	case *Startup:
		w.count(len(m.Options))
		for _, option := range m.Options {
			w.texts(option.Key, option.Value)
		}
	case *Query:
		w.longText(m.Query)
		w.parameters(&m.Parameters)
	case *Prepare:
		w.longText(m.Query)
	case *Execute:
		w.shortBytes(string(m.ID))
		w.parameters(&m.Parameters)
	case *Batch:
		w.batch(m)
	case *Register:
		w.list(m.EventTypes)
	case *AuthResponse:
		w.bytes(m.Token)
	default:
		w.response(m)
	}
}

func (w *writer) response(m Message) {
	switch m := m.(type) {
	case *Options, *Ready:
	case *Authenticate:
		w.text(m.Class)
	case *Supported:
		w.count(len(m.Options))
		for _, option := range m.Options {
			w.text(option.Key)
			w.list(option.Values)
		}
	case *AuthChallenge:
		w.bytes(m.Token)
	case *AuthSuccess:
		w.bytes(m.Token)
	case *NodeEvent:
		w.texts(m.Type, m.Change)
		w.inet(m.Address, m.Port)
	case *SchemaEvent:
		w.text("SCHEMA_CHANGE")
		w.change(&m.Schema)
	case *UnknownEvent:
		w.text(m.Type)
	default:
		w.result(m)
	}
}

func (w *writer) inet(address net.IP, port int32) {
	at := len(w.body)
	w.byte(0)
	if !w.address(address) {
		w.fail("an address of %d bytes", len(address))
	}
	w.body[at] = byte(len(w.body) - at - 1)
	w.int(port)
}

func (w *writer) result(m Message) {
	switch m := m.(type) {
	case *Void:
		w.int(int32(ResultVoid))
	case *SetKeyspace:
		w.int(int32(ResultSetKeyspace))
		w.text(m.Keyspace)
	case *Prepared:
		w.prepared(m)
	case *Rows:
		w.rows(m)
	case *SchemaChange:
		w.int(int32(ResultSchemaChange))
		w.change(m)
	case *UnknownResult:
		w.int(int32(m.Kind))
	default:
		w.serverError(m)
	}
}

func (w *writer) change(m *SchemaChange) {
	w.texts(m.Change, m.Target)
	switch m.Target {
	case "KEYSPACE":
		w.text(m.Keyspace)
	case "TABLE", "TYPE":
		w.texts(m.Keyspace, m.Name)
	case "FUNCTION", "AGGREGATE":
		w.texts(m.Keyspace, m.Name)
		w.list(m.Arguments)
	}
}

// serverError writes an ERROR. One with fields of its own has the code that they come with, whatever is said.
func (w *writer) serverError(m Message) {
	switch m := m.(type) {
	case *ServerError:
		if _, has := withFields[m.Code]; has {
			w.err = fmt.Errorf("%w: the fields of %v in a %T", ErrNotWritten, m.Code, m)
		}
		w.failure(m.Code, m.Message)
	case *Unavailable:
		w.failure(ErrorUnavailable, m.Message)
		w.replicas(m.Consistency, m.Required, m.Alive)
	case *WriteTimeout:
		w.failure(ErrorWriteTimeout, m.Message)
		w.replicas(m.Consistency, m.Received, m.BlockFor)
		w.text(m.WriteType)
	case *ReadTimeout:
		w.failure(ErrorReadTimeout, m.Message)
		w.replicas(m.Consistency, m.Received, m.BlockFor)
		w.byte(set(1, m.DataPresent))
	case *ReadFailure:
		w.failure(ErrorReadFailure, m.Message)
		w.replicas(m.Consistency, m.Received, m.BlockFor, m.Failures)
		w.byte(set(1, m.DataPresent))
	case *WriteFailure:
		w.failure(ErrorWriteFailure, m.Message)
		w.replicas(m.Consistency, m.Received, m.BlockFor, m.Failures)
		w.text(m.WriteType)
	case *FunctionFailure:
		w.failure(ErrorFunctionFailure, m.Message, m.Keyspace, m.Name)
		w.list(m.Arguments)
	case *AlreadyExists:
		w.failure(ErrorAlreadyExists, m.Message, m.Keyspace, m.Table)
	case *Unprepared:
		w.failure(ErrorUnprepared, m.Message)
		w.shortBytes(string(m.ID))
	default:
		w.err = fmt.Errorf("%w: %T", ErrNotWritten, m)
	}
}

// withFields are the codes after whose message more fields come.
var withFields = map[ErrorCode]struct{}{
	ErrorUnavailable: {}, ErrorWriteTimeout: {}, ErrorReadTimeout: {}, ErrorReadFailure: {}, ErrorFunctionFailure: {}, ErrorWriteFailure: {},
	ErrorAlreadyExists: {}, ErrorUnprepared: {},
}

func (w *writer) failure(code ErrorCode, texts ...string) {
	w.int(int32(code))
	w.texts(texts...)
}

func (w *writer) replicas(level Consistency, counts ...int32) {
	w.short(uint16(level))
	for _, count := range counts {
		w.int(count)
	}
}

// set is the flag, where it is set.
func set(flag byte, isSet bool) byte {
	if isSet {
		return flag
	}
	return 0
}

func (w *writer) parameters(p *Parameters) {
	flags := set(flagValues, p.Values != nil) | set(flagNames, p.Names != nil) | set(flagSkipMetadata, p.SkipMetadata) |
		set(flagPageSize, p.PageSize != nil) | set(flagPagingState, p.PagingState != nil)
	w.short(uint16(p.Consistency))
	w.byte(flags | lastFlags(p.SerialConsistency, p.Timestamp))
	if p.Values != nil {
		w.values(p.Values, p.Names)
	}
	if p.PageSize != nil {
		w.int(*p.PageSize)
	}
	if p.PagingState != nil {
		w.bytes(p.PagingState)
	}
	w.last(p.SerialConsistency, p.Timestamp)
}

func (w *writer) values(values []Value, names []string) {
	if names != nil && len(names) != len(values) {
		w.fail("%d names of %d values", len(names), len(values))
		return
	}
	w.count(len(values))
	for i, value := range values {
		if names != nil {
			w.text(names[i])
		}
		w.value(value)
	}
}

func lastFlags(serial *Consistency, timestamp *int64) byte {
	return set(flagSerialConsistency, serial != nil) | set(flagTimestamp, timestamp != nil)
}

func (w *writer) last(serial *Consistency, timestamp *int64) {
	if serial != nil {
		w.short(uint16(*serial))
	}
	if timestamp != nil {
		w.long(*timestamp)
	}
}

func (w *writer) batch(m *Batch) {
	w.byte(byte(m.Type))
	w.count(len(m.Statements))
	for _, statement := range m.Statements {
		if statement.ID != nil {
			w.byte(1)
			w.shortBytes(string(statement.ID))
		} else {
			w.byte(0)
			w.longText(statement.Query)
		}
		w.values(statement.Values, nil)
	}
	w.short(uint16(m.Consistency))
	w.byte(lastFlags(m.SerialConsistency, m.Timestamp))
	w.last(m.SerialConsistency, m.Timestamp)
}

func (w *writer) prepared(m *Prepared) {
	w.int(int32(ResultPrepared))
	w.shortBytes(string(m.ID))
	w.int(0)
	w.int(int32(len(m.Bound)))
	w.int(int32(len(m.Keys)))
	for _, key := range m.Keys {
		w.short(key)
	}
	w.columns(m.Bound)
	w.metadata(&m.Result)
}

func (w *writer) rows(m *Rows) {
	w.int(int32(ResultRows))
	width := w.metadata(&m.Metadata)
	if width == 0 {
		w.int(m.Count)
		return
	}
	w.int(int32(len(m.Rows)))
	for _, row := range m.Rows {
		if len(row) != width {
			w.fail("a row of %d values in %d columns", len(row), width)
		}
		for i, value := range row {
			typ := Type{Kind: KindRaw}
			if i < len(m.Metadata.Columns) {
				typ = m.Metadata.Columns[i].Type
			}
			w.typed(typ, value)
		}
	}
}

// metadata answers how many columns there are.
func (w *writer) metadata(m *Metadata) int {
	width, described := len(m.Columns), m.Flags&4 == 0
	if !described {
		width = int(m.Width)
	}
	w.int(m.Flags&4 | int32(set(2, m.PagingState != nil)))
	w.int(int32(width))
	if m.PagingState != nil {
		w.bytes(m.PagingState)
	}
	if described {
		w.columns(m.Columns)
	}
	return width
}

// columns are written with their tables.
func (w *writer) columns(columns []Column) {
	for _, column := range columns {
		w.texts(column.Keyspace, column.Table, column.Name)
		w.typ(column.Type)
	}
}

// typ writes a type option.
func (w *writer) typ(t Type) {
	w.short(uint16(t.Kind))
	switch t.Kind {
	case KindCustom:
		w.text(t.Name)
	case KindTuple:
		w.count(len(t.Inner))
	case KindUDT:
		w.texts(t.Keyspace, t.Name)
		w.count(len(t.Inner))
	case KindRaw:
		w.err = fmt.Errorf("%w: %v", ErrNotWritten, t.Kind)
	}
	if wanted, is := innerCount[t.Kind]; is && wanted != len(t.Inner) || t.Kind == KindUDT && len(t.Names) != len(t.Inner) {
		w.fail("a %v of %d types", t.Kind, len(t.Inner))
		return
	}
	for i, inner := range t.Inner {
		if t.Kind == KindUDT {
			w.text(t.Names[i])
		}
		w.typ(inner)
	}
}
