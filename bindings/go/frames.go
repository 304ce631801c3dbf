package cqlp

import (
	"context"
	"errors"
	"fmt"
	"io"
)

// A PayloadItem of a custom payload is a key with its value, nil where it is null.
type PayloadItem struct {
	Key   string
	Value []byte
}

// A Frame is a frame with its message.
type Frame struct {
	// At is the offset in the stream of its first byte.
	At       uint64
	Response bool
	// Flags are those of section 2.2.
	Flags  uint8
	Stream int16
	Opcode Opcode
	// Length is how many bytes its body has.
	Length uint32
	// TraceID is that of the tracing session, or nil where the flag 02 is not set.
	TraceID  *UUID
	Warnings []string
	// Payload is the custom payload, where the flag 04 is set.
	Payload []PayloadItem
	Message Message
	// Extra is how many bytes come after the message, which are passed over.
	Extra int64
}

// Event is the event of its header, which a Client or a Server takes.
func (f *Frame) Event() Event {
	e := Event{At: f.At, Tag: TagFrame, Opcode: f.Opcode, Flags: f.Flags, Number: int64(f.Length), Extra: int32(f.Stream)}
	if f.Response {
		e.Mark = MarkResponse
	}
	return e
}

// A FrameTooLong says that a frame has a body longer than was asked for.
type FrameTooLong struct {
	// At is the offset of the frame, and Length how many bytes its body has.
	At     uint64
	Length uint32
}

func (e *FrameTooLong) Error() string {
	return fmt.Sprintf("cqlp: the frame at %d has a body of %d bytes", e.At, e.Length)
}

// Frames gives the frames of what an io.Reader reads, each once it is whole. So it holds as much as a peer sends in one frame, and more, as
// values of Go: where the peer is not trusted set Longest, or read pages by a RowReader.
type Frames struct {
	Reader
	// Longest is how many bytes a body may have: a frame with more is a *FrameTooLong before its body is held.
	Longest uint32

	parser parser
	cells  cells
}

// NewFrames makes a decoder for what is read. Close frees it, and does not close the io.Reader.
func NewFrames(source io.Reader, limits Limits) (*Frames, error) {
	return newFrames(NewReader(source, limits))
}

// NewLenientFrames makes one for a lenient reading, as NewLenientDecoder. The rows of its pages are those of a RowReader that is lenient.
func NewLenientFrames(source io.Reader, limits Limits) (*Frames, error) {
	return newFrames(NewLenientReader(source, limits))
}

func newFrames(reader *Reader, err error) (*Frames, error) {
	if err != nil {
		return nil, err
	}
	f := &Frames{Reader: *reader, Longest: 1 << 28}
	f.parser.reader, f.cells.parser = &f.Reader, &f.parser
	return f, nil
}

// Next gives the next frame, which lives on. The error after the last one is as that of a Reader.
func (f *Frames) Next() (*Frame, error) {
	p := &f.parser
	if !p.enter() {
		return nil, p.failed
	}
	defer f.decoder.leave()
	for {
		head, err := p.begin()
		if err != nil {
			return nil, err
		}
		if uint32(head.Number) > f.Longest {
			p.failed = &FrameTooLong{head.At, uint32(head.Number)}
			return nil, p.failed
		}
		frame := p.front(head)
		frame.Message = p.message(head.Opcode)
		if rows, ok := frame.Message.(*Rows); ok {
			f.rows(rows)
		}
		frame.Extra = p.end()
		switch {
		case p.failed == nil:
			return frame, nil
		case p.failed != errPassed:
			return nil, p.failed
		}
	}
}

// NextContext is Next, but ends once ctx is done, as Reader.NextContext does. Where that is between two frames the next call reads on; within a frame
// the frames have ended.
func (f *Frames) NextContext(ctx context.Context) (*Frame, error) {
	defer f.during(ctx)()
	return f.Next()
}

// rows reads the rows of a page whose metadata were read.
func (f *Frames) rows(page *Rows) {
	for f.cells.begin(&page.Metadata, f.typing); f.cells.next(); {
		page.Rows = append(page.Rows, f.cells.values())
	}
}

// errPassed says that the frame under way was passed over, and the next one began.
var errPassed = errors.New("cqlp: the frame was passed over")

// A parser reads the parts of messages off their events. After a failure each of them is zero.
type parser struct {
	reader *Reader
	event  Event
	failed error
	// whether it failed between two frames since a context was done, so that the next call reads on
	lapsed bool
}

// enter begins a call of its reader, and says whether it may go on; where it may not, it has failed.
func (p *parser) enter() bool {
	is := p.reader.decoder.enter()
	if p.lapsed {
		p.failed, p.lapsed = nil, false
	}
	if !is && (p.failed == nil || p.failed == errPassed) {
		p.failed = ErrClosed
	}
	return is
}

// pull takes the next event of the frame under way.
func (p *parser) pull() *Event {
	if p.failed == nil {
		p.failed = p.reader.next(&p.event)
		if p.failed == nil && p.event.Tag == TagFrame {
			p.failed = errPassed
		}
	}
	if p.failed != nil && p.failed != errPassed {
		p.event = Event{}
	}
	return &p.event
}

// begin gives the event of the next frame.
func (p *parser) begin() (Event, error) {
	switch p.failed {
	case errPassed:
		p.failed = nil
		return p.event, nil
	case nil:
		p.failed = p.reader.next(&p.event)
		p.lapsed = p.failed != nil && p.failed == p.reader.ctx.Err()
	}
	return p.event, p.failed
}

// field takes the event of this field; that there is another cannot be.
func (p *parser) field(field Field) *Event {
	if e := p.pull(); p.failed != nil || e.Field == field {
		return e
	}
	p.failed = fmt.Errorf("cqlp: %v came in place of %v", &p.event, field)
	return p.pull()
}

func (p *parser) number(field Field) int64 {
	e := p.field(field)
	if p.failed != nil {
		return 0
	}
	return e.Number
}

func (p *parser) text(field Field) string {
	e := p.field(field)
	if p.failed != nil {
		return ""
	}
	return string(e.Content)
}

// bytes are nil where they are null.
func (p *parser) bytes(field Field) []byte {
	e := p.field(field)
	if p.failed != nil || e.Mark == MarkNull {
		return nil
	}
	return clone(e.Content)
}

func (p *parser) value() Value {
	e := p.field(FieldValue)
	if p.failed != nil || e.Mark != MarkNone {
		return Value{Unset: p.failed == nil && e.Mark == MarkUnset}
	}
	return Value{Bytes: clone(e.Content)}
}

func (p *parser) level(field Field) Consistency { return Consistency(p.number(field)) }

// many reads as many items as the event of this field says.
func (p *parser) many(count Field, item func()) { p.times(p.number(count), item) }

func (p *parser) times(count int64, item func()) {
	for ; count > 0 && p.failed == nil; count-- {
		item()
	}
}

// texts are not nil, also where there are none.
func (p *parser) texts(count, field Field) []string {
	texts := []string{}
	p.many(count, func() { texts = append(texts, p.text(field)) })
	return texts
}

// end reads on to the end of the frame: how many bytes come after its last field.
func (p *parser) end() int64 {
	for p.failed == nil {
		if e := p.pull(); p.failed == nil && e.Tag == TagEnd {
			return e.Number
		}
	}
	return 0
}

// front is what comes before the message.
func (p *parser) front(head Event) *Frame {
	f := &Frame{
		At:       head.At,
		Response: head.Mark == MarkResponse,
		Flags:    head.Flags,
		Stream:   int16(head.Extra),
		Opcode:   head.Opcode,
		Length:   uint32(head.Number),
	}
	if f.Response && f.Flags&0x02 != 0 {
		id := UUID(p.field(FieldTraceID).Bytes)
		f.TraceID = &id
	}
	if f.Response && f.Flags&0x08 != 0 {
		f.Warnings = p.texts(FieldWarnings, FieldWarning)
	}
	if f.Flags&0x04 != 0 {
		f.Payload = []PayloadItem{}
		p.many(FieldPayloadItems, func() {
			key := p.text(FieldPayloadKey)
			f.Payload = append(f.Payload, PayloadItem{key, p.bytes(FieldPayloadValue)})
		})
	}
	return f
}

// message reads a message; of a page all but its rows.
func (p *parser) message(opcode Opcode) Message {
	switch opcode {
	case OpcodeError:
		return p.serverError()
	case OpcodeStartup:
		return p.startup()
	case OpcodeReady:
		return &Ready{}
	case OpcodeAuthenticate:
		return &Authenticate{p.text(FieldClass)}
	case OpcodeOptions:
		return &Options{}
	case OpcodeSupported:
		return p.supported()
	case OpcodeQuery:
		return &Query{p.text(FieldQuery), p.parameters()}
	case OpcodeResult:
		return p.result()
	case OpcodePrepare:
		return &Prepare{p.text(FieldQuery)}
	case OpcodeExecute:
		return &Execute{p.bytes(FieldStatementID), p.parameters()}
	case OpcodeRegister:
		return &Register{p.texts(FieldEventTypes, FieldEventType)}
	case OpcodeEvent:
		return p.pushed()
	case OpcodeBatch:
		return p.batch()
	case OpcodeAuthChallenge:
		return &AuthChallenge{p.bytes(FieldToken)}
	case OpcodeAuthResponse:
		return &AuthResponse{p.bytes(FieldToken)}
	}
	return &AuthSuccess{p.bytes(FieldToken)}
}

func (p *parser) startup() Message {
	m := &Startup{[]Option{}}
	p.many(FieldOptions, func() {
		key := p.text(FieldOptionKey)
		m.Options = append(m.Options, Option{key, p.text(FieldOptionValue)})
	})
	return m
}

func (p *parser) supported() Message {
	m := &Supported{[]SupportedOption{}}
	p.many(FieldOptions, func() {
		key := p.text(FieldOptionKey)
		m.Options = append(m.Options, SupportedOption{key, p.texts(FieldOptionValues, FieldOptionValue)})
	})
	return m
}

// The flags of a query, section 4.1.4. A batch has two of them, section 4.1.7.
const (
	flagValues            = 0x01
	flagSkipMetadata      = 0x02
	flagPageSize          = 0x04
	flagPagingState       = 0x08
	flagSerialConsistency = 0x10
	flagTimestamp         = 0x20
	flagNames             = 0x40
)

func (p *parser) parameters() Parameters {
	m := Parameters{Consistency: p.level(FieldConsistency)}
	flags := p.number(FieldQueryFlags)
	m.SkipMetadata = flags&flagSkipMetadata != 0
	if flags&flagValues != 0 {
		p.boundValues(&m, flags&flagNames != 0)
	}
	if flags&flagPageSize != 0 {
		size := int32(p.number(FieldPageSize))
		m.PageSize = &size
	}
	if flags&flagPagingState != 0 {
		m.PagingState = p.bytes(FieldPagingState)
	}
	m.SerialConsistency, m.Timestamp = p.lastParameters(flags)
	return m
}

func (p *parser) boundValues(m *Parameters, named bool) {
	m.Values = []Value{}
	if named {
		m.Names = []string{}
	}
	p.many(FieldValues, func() {
		if named {
			m.Names = append(m.Names, p.text(FieldValueName))
		}
		m.Values = append(m.Values, p.value())
	})
}

func (p *parser) lastParameters(flags int64) (serial *Consistency, timestamp *int64) {
	if flags&flagSerialConsistency != 0 {
		level := p.level(FieldSerialConsistency)
		serial = &level
	}
	if flags&flagTimestamp != 0 {
		microseconds := p.number(FieldTimestamp)
		timestamp = &microseconds
	}
	return serial, timestamp
}

func (p *parser) batch() Message {
	m := &Batch{Type: BatchType(p.number(FieldBatchType)), Statements: []Statement{}}
	p.many(FieldEntries, func() { m.Statements = append(m.Statements, p.statement()) })
	m.Consistency = p.level(FieldConsistency)
	m.SerialConsistency, m.Timestamp = p.lastParameters(p.number(FieldBatchFlags))
	return m
}

func (p *parser) statement() Statement {
	s := Statement{Values: []Value{}}
	if p.number(FieldEntryKind) == 1 {
		s.ID = p.bytes(FieldStatementID)
	} else {
		s.Query = p.text(FieldQuery)
	}
	p.many(FieldValues, func() { s.Values = append(s.Values, p.value()) })
	return s
}

func (p *parser) serverError() Message {
	e := ServerError{ErrorCode(p.number(FieldErrorCode)), p.text(FieldMessage)}
	switch e.Code {
	case ErrorUnavailable:
		return &Unavailable{e, p.level(FieldConsistency), p.int(FieldRequired), p.int(FieldAlive)}
	case ErrorWriteTimeout:
		return &WriteTimeout{e, p.level(FieldConsistency), p.int(FieldReceived), p.int(FieldBlockFor), p.text(FieldWriteType)}
	case ErrorReadTimeout:
		return &ReadTimeout{e, p.level(FieldConsistency), p.int(FieldReceived), p.int(FieldBlockFor), p.number(FieldDataPresent) != 0}
	case ErrorReadFailure:
		level, received, block, failures := p.failure()
		return &ReadFailure{e, level, received, block, failures, p.number(FieldDataPresent) != 0}
	case ErrorFunctionFailure:
		return &FunctionFailure{e, p.text(FieldKeyspace), p.text(FieldName), p.texts(FieldArguments, FieldArgument)}
	case ErrorWriteFailure:
		level, received, block, failures := p.failure()
		return &WriteFailure{e, level, received, block, failures, p.text(FieldWriteType)}
	case ErrorAlreadyExists:
		return &AlreadyExists{e, p.text(FieldKeyspace), p.text(FieldTable)}
	case ErrorUnprepared:
		return &Unprepared{e, p.bytes(FieldStatementID)}
	}
	return &e
}

func (p *parser) int(field Field) int32 { return int32(p.number(field)) }

func (p *parser) failure() (level Consistency, received, block, failures int32) {
	return p.level(FieldConsistency), p.int(FieldReceived), p.int(FieldBlockFor), p.int(FieldFailures)
}

func (p *parser) result() Message {
	switch kind := ResultKind(p.number(FieldResultKind)); kind {
	case ResultVoid:
		return &Void{}
	case ResultRows:
		metadata := p.metadata()
		return &Rows{Metadata: metadata, Count: p.int(FieldRows), Rows: [][]any{}}
	case ResultSetKeyspace:
		return &SetKeyspace{p.text(FieldKeyspace)}
	case ResultPrepared:
		return p.prepared()
	case ResultSchemaChange:
		change := p.change()
		return &change
	default:
		return &UnknownResult{kind}
	}
}

func (p *parser) metadata() Metadata {
	m := Metadata{Flags: p.int(FieldMetaFlags), Width: p.int(FieldColumns)}
	if m.Flags&2 != 0 {
		m.PagingState = p.bytes(FieldPagingState)
	}
	if m.Flags&4 == 0 {
		m.Columns = p.columns(m.Flags, m.Width)
	}
	return m
}

func (p *parser) columns(flags, width int32) []Column {
	columns, column, one := []Column{}, Column{}, flags&1 != 0
	if one {
		column.Keyspace, column.Table = p.text(FieldKeyspace), p.text(FieldTable)
	}
	p.times(int64(width), func() {
		if !one {
			column.Keyspace, column.Table = p.text(FieldKeyspace), p.text(FieldTable)
		}
		column.Name, column.Type = p.text(FieldColumnName), p.typ()
		columns = append(columns, column)
	})
	return columns
}

func (p *parser) typ() Type {
	e := p.pull()
	if p.failed != nil {
		return Type{}
	}
	t := Type{Kind: e.Kind}
	inner := func() { t.Inner = append(t.Inner, p.typ()) }
	switch t.Kind {
	case KindCustom:
		t.Name = p.text(FieldClass)
	case KindList, KindSet:
		inner()
	case KindMap:
		p.times(2, inner)
	case KindTuple:
		p.many(FieldFields, inner)
	case KindUDT:
		t.Keyspace, t.Name = p.text(FieldKeyspace), p.text(FieldTypeName)
		p.many(FieldFields, func() {
			t.Names = append(t.Names, p.text(FieldFieldName))
			inner()
		})
	}
	return t
}

func (p *parser) prepared() Message {
	m := &Prepared{ID: p.bytes(FieldStatementID), Flags: p.int(FieldMetaFlags), Keys: []uint16{}}
	width := p.int(FieldColumns)
	p.many(FieldKeys, func() { m.Keys = append(m.Keys, uint16(p.number(FieldKeyIndex))) })
	m.Bound = p.columns(m.Flags, width)
	m.Result = p.metadata()
	return m
}

func (p *parser) change() SchemaChange {
	m := SchemaChange{Change: p.text(FieldChange), Target: p.text(FieldTarget)}
	switch m.Target {
	case "KEYSPACE":
		m.Keyspace = p.text(FieldKeyspace)
	case "TABLE", "TYPE":
		m.Keyspace, m.Name = p.text(FieldKeyspace), p.text(FieldName)
	case "FUNCTION", "AGGREGATE":
		m.Keyspace, m.Name = p.text(FieldKeyspace), p.text(FieldName)
		m.Arguments = p.texts(FieldArguments, FieldArgument)
	}
	return m
}

func (p *parser) pushed() Message {
	switch kind := p.text(FieldEventType); kind {
	case "TOPOLOGY_CHANGE", "STATUS_CHANGE":
		m := &NodeEvent{Type: kind, Change: p.text(FieldChange)}
		if e := p.field(FieldAddress); p.failed == nil {
			m.Address, m.Port = e.address(), e.Extra
		}
		return m
	case "SCHEMA_CHANGE":
		return &SchemaEvent{p.change()}
	default:
		return &UnknownEvent{kind}
	}
}
