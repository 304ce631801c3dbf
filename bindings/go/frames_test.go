//go:build cgo

package cqlp

import (
	"bytes"
	"encoding/binary"
	"errors"
	"io"
	"math/rand"
	"net"
	"os"
	"reflect"
	"strings"
	"testing"
	"testing/iotest"
)

// framesOf are the frames of a stream, and how it ends.
func framesOf(t *testing.T, source io.Reader, limits Limits) (frames []*Frame, ending error) {
	t.Helper()
	f, err := NewFrames(source, limits)
	if err != nil {
		t.Fatal(err)
	}
	defer f.Close()
	for {
		frame, err := f.Next()
		if err != nil {
			if _, again := f.Next(); again == nil || again.Error() != err.Error() {
				t.Fatal(err, again)
			}
			return frames, err
		}
		frames = append(frames, frame)
	}
}

// same compares frames. A value that is no number is the same as itself.
func same(some, others []*Frame) bool {
	for _, frame := range append(append([]*Frame{}, some...), others...) {
		if rows, ok := frame.Message.(*Rows); ok {
			withoutNaN(rows.Rows)
		}
	}
	return reflect.DeepEqual(some, others)
}

func withoutNaN(rows [][]any) {
	for _, row := range rows {
		for i, value := range row {
			if number, ok := value.(float32); ok && number != number {
				row[i] = "no number"
			}
		}
	}
}

func allFrames(t *testing.T, stream []byte) []*Frame {
	t.Helper()
	frames, err := framesOf(t, bytes.NewReader(stream), DefaultLimits())
	if err != io.EOF || len(frames) == 0 {
		t.Fatal(frames, err)
	}
	return frames
}

func TestFramesOfAllStreams(t *testing.T) {
	for _, s := range streams(t) {
		whole, err := framesOf(t, bytes.NewReader(s.bytes), s.limits)
		mustEnd(t, s, err)
		ends := 0
		for _, line := range s.lines {
			if strings.Fields(line)[1] == "End" {
				ends++
			}
		}
		if len(whole) != ends {
			t.Fatal(s.name, len(whole), ends)
		}
		slowly, _ := framesOf(t, iotest.OneByteReader(bytes.NewReader(s.bytes)), s.limits)
		if !same(whole, slowly) {
			t.Fatal(s.name)
		}
	}
}

// Streams with bytes changed end where a decoder says that they do, whoever reads them, and passing over frames goes as far.
func TestChangedStreams(t *testing.T) {
	random := rand.New(rand.NewSource(1))
	for _, s := range streams(t) {
		for i := 0; i < len(s.bytes)/2; i++ {
			changed := append([]byte(nil), s.bytes...)
			changed[random.Intn(len(changed))] = byte(random.Intn(256))
			verdict, err := Check(s.limits, changed)
			if err != nil {
				t.Fatal(err)
			}
			s.verdict = verdict.String()
			_, err = framesOf(t, bytes.NewReader(changed), s.limits)
			mustEnd(t, s, err)
			r, err := NewRowReader(bytes.NewReader(changed), s.limits)
			if err != nil {
				t.Fatal(err)
			}
			for r.Next() {
				into := make([]any, len(r.Values()))
				for i := range into {
					into[i] = new([]any)
				}
				_ = r.Scan(into...)
			}
			mustEnd(t, s, r.parser.failed)
			r.Close()
			skips(t, s.limits, changed)
		}
	}
}

// skips reads a stream to the end where what is refused in a body is passed over: only a header is refused then.
func skips(t *testing.T, limits Limits, stream []byte) {
	t.Helper()
	f, err := NewFrames(bytes.NewReader(stream), limits)
	if err != nil {
		t.Fatal(err)
	}
	defer f.Close()
	f.Skip = func(Skipped) {}
	for err == nil {
		_, err = f.Next()
	}
	var refusal *Refusal
	if errors.As(err, &refusal) && refusal.Reason > ReasonBadLength || err != io.EOF && !errors.Is(err, io.ErrUnexpectedEOF) && refusal == nil {
		t.Fatal(err)
	}
}

// Each frame that has a writer is written as it came, but for bits of flags that say nothing and a paging state that is null.
func TestFramesAreWrittenAsTheyCame(t *testing.T) {
	written := map[reflect.Type]int{}
	for _, s := range streams(t) {
		frames, _ := framesOf(t, bytes.NewReader(s.bytes), s.limits)
		if !s.limits.Types {
			continue
		}
		for _, frame := range frames {
			mustWrite(t, s.name, s.bytes, frame, false, written)
		}
	}
	for _, m := range append(requests, &Prepare{}, &Execute{}, &Batch{}, &Ready{}, &Authenticate{}, &Supported{}, &Void{}, &SetKeyspace{},
		&ServerError{}, &Prepared{}, &Rows{}, &SchemaChange{}, &NodeEvent{}, &SchemaEvent{}, &Unavailable{}) {
		if written[reflect.TypeOf(m)] == 0 {
			t.Errorf("no %T was written", m)
		}
	}
}

func TestWhatADriverSentIsWrittenAsItCame(t *testing.T) {
	const folder = "../../captures/data/"
	if _, err := os.Stat(folder); err != nil {
		t.Skip("the recorded requests are not here")
	}
	written := map[reflect.Type]int{}
	for _, name := range []string{"driver.0.requests.bin", "driver.1.requests.bin", "driver-sll2.0.requests.bin", "driver-sll2.1.requests.bin",
		"driver.0.responses.bin", "driver.1.responses.bin"} {
		stream, err := os.ReadFile(folder + name)
		if err != nil {
			t.Fatal(err)
		}
		count := 0
		for _, frame := range allFrames(t, stream) {
			if !mustWrite(t, name, stream, frame, true, written) {
				t.Fatal(name, frame)
			}
			count++
		}
		if count < 5 {
			t.Fatal(name, count)
		}
	}
	for _, m := range []Message{&Startup{}, &Options{}, &Query{}, &Prepare{}, &Execute{}, &Register{}} {
		if written[reflect.TypeOf(m)] == 0 {
			t.Errorf("the driver sent no %T", m)
		}
	}
}

// mustWrite says whether there is a writer of the frame. What it writes has to be the bytes that came, or what they say.
func mustWrite(t *testing.T, name string, stream []byte, frame *Frame, exactly bool, written map[reflect.Type]int) bool {
	t.Helper()
	if frame.Extra != 0 {
		return false
	}
	// columns are always written with their tables
	switch m := frame.Message.(type) {
	case *Prepared:
		m.Flags, m.Result.Flags = m.Flags&^1, m.Result.Flags&^1
	case *Rows:
		m.Metadata.Flags &^= 1
	}
	b, err := AppendFrame(nil, frame)
	if err != nil {
		t.Fatalf("%s %T %v", name, frame.Message, err)
	}
	came := stream[frame.At : frame.At+headerLength+uint64(frame.Length)]
	if bytes.Equal(b, came) {
		written[reflect.TypeOf(frame.Message)]++
		return true
	}
	again := allFrames(t, b)[0]
	again.At, again.Length = frame.At, frame.Length
	if exactly && !frame.Response || !same([]*Frame{again}, []*Frame{frame}) {
		t.Fatalf("%s %T:\n%x\n%x %+v %+v", name, frame.Message, b, came, frame.Message, again.Message)
	}
	written[reflect.TypeOf(frame.Message)]++
	return true
}

func short(n int) string {
	var b [2]byte
	binary.BigEndian.PutUint16(b[:], uint16(n))
	return string(b[:])
}

func long(numbers ...int) string {
	var all strings.Builder
	for _, n := range numbers {
		all.WriteString(short(n>>16) + short(n))
	}
	return all.String()
}

func text(words ...string) string {
	var all strings.Builder
	for _, word := range words {
		all.WriteString(short(len(word)) + word)
	}
	return all.String()
}

func responseOf(opcode Opcode, flags uint8, body string) []byte {
	b, err := AppendHeader(nil, Header{opcode, 5, uint32(len(body)), flags, true})
	if err != nil {
		panic(err)
	}
	return append(b, body...)
}

func TestResponses(t *testing.T) {
	level, replicas := ConsistencyLocalQuorum, short(6)+long(1, 2)
	failed := func(code ErrorCode) ServerError { return ServerError{code, "why"} }
	column := func(k, table, name string) Column { return Column{k, table, name, Type{Kind: KindInt}} }
	udt := Type{Kind: KindUDT, Keyspace: "k", Name: "u", Names: []string{"x", "y"}, Inner: []Type{
		{Kind: KindTuple, Inner: []Type{{Kind: KindInt}, {Kind: KindCustom, Name: "C"}}},
		{Kind: KindMap, Inner: []Type{{Kind: KindVarchar}, {Kind: KindSet, Inner: []Type{{Kind: KindUUID}}}}}}}
	option := short(0x30) + text("k", "u") + short(2) + text("x") + short(0x31) + short(2) + short(9) + short(0) + text("C") + text("y") +
		short(0x21) + short(0x0d) + short(0x22) + short(0x0c)
	for _, row := range []struct {
		opcode Opcode
		body   string
		wanted Message
	}{
		{OpcodeError, long(0x2200) + text("why"), &ServerError{ErrorInvalid, "why"}},
		{OpcodeError, long(0x7777) + text("why"), &ServerError{0x7777, "why"}},
		{OpcodeError, long(0x1000) + text("why") + replicas, &Unavailable{failed(0x1000), level, 1, 2}},
		{OpcodeError, long(0x1100) + text("why") + replicas + text("CAS"), &WriteTimeout{failed(0x1100), level, 1, 2, "CAS"}},
		{OpcodeError, long(0x1200) + text("why") + replicas + "\x01", &ReadTimeout{failed(0x1200), level, 1, 2, true}},
		{OpcodeError, long(0x1300) + text("why") + replicas + long(3) + "\x00", &ReadFailure{failed(0x1300), level, 1, 2, 3, false}},
		{OpcodeError, long(0x1400) + text("why", "k", "f") + short(1) + text("int"), &FunctionFailure{failed(0x1400), "k", "f", []string{"int"}}},
		{OpcodeError, long(0x1500) + text("why") + replicas + long(3) + text("SIMPLE"), &WriteFailure{failed(0x1500), level, 1, 2, 3, "SIMPLE"}},
		{OpcodeError, long(0x2400) + text("why", "k", ""), &AlreadyExists{failed(0x2400), "k", ""}},
		{OpcodeError, long(0x2500) + text("why", "\xff\x00"), &Unprepared{failed(0x2500), []byte{0xff, 0}}},
		{OpcodeAuthSuccess, long(-1), &AuthSuccess{nil}},
		{OpcodeAuthChallenge, long(0), &AuthChallenge{[]byte{}}},
		{OpcodeSupported, short(1) + text("K") + short(2) + text("a", "b"), &Supported{[]SupportedOption{{"K", []string{"a", "b"}}}}},
		{OpcodeResult, long(9), &UnknownResult{9}},
		{OpcodeResult, long(5) + text("CREATED", "FUNCTION", "k", "f") + short(1) + text("int"),
			&SchemaChange{"CREATED", "FUNCTION", "k", "f", []string{"int"}}},
		{OpcodeResult, long(5) + text("DROPPED", "KEYSPACE", "k"), &SchemaChange{Change: "DROPPED", Target: "KEYSPACE", Keyspace: "k"}},
		{OpcodeEvent, text("STATUS_CHANGE", "UP") + "\x04\x7f\x00\x00\x01" + long(9042), &NodeEvent{"STATUS_CHANGE", "UP", net.IP{127, 0, 0, 1}, 9042}},
		{OpcodeEvent, text("SCHEMA_CHANGE", "UPDATED", "TABLE", "k", "t"),
			&SchemaEvent{SchemaChange{Change: "UPDATED", Target: "TABLE", Keyspace: "k", Name: "t"}}},
		{OpcodeEvent, text("OTHER"), &UnknownEvent{"OTHER"}},
		{OpcodeResult, long(4) + text("id") + long(1, 2, 1) + short(1) + text("k", "t", "a") + short(9) + text("b") + short(9) + long(4, 3),
			&Prepared{[]byte("id"), 1, []uint16{1}, []Column{column("k", "t", "a"), column("k", "t", "b")}, Metadata{Flags: 4, Width: 3}}},
		{OpcodeResult, long(2, 2, 2, 0) + text("k1", "t1", "a") + short(9) + text("k2", "t2", "b") + option + long(1, -1, -1),
			&Rows{Metadata{2, 2, []byte{}, []Column{column("k1", "t1", "a"), {"k2", "t2", "b", udt}}}, 1, [][]any{{nil, nil}}}},
		{OpcodeResult, long(2, 1, 0) + text("k", "t") + long(7), &Rows{Metadata{1, 0, nil, []Column{}}, 7, [][]any{}}},
	} {
		came := responseOf(row.opcode, 0, row.body)
		frame := allFrames(t, came)[0]
		if !reflect.DeepEqual(frame.Message, row.wanted) {
			t.Errorf("%#v\nand not\n%#v", frame.Message, row.wanted)
		}
		if rows, is := frame.Message.(*Rows); !is || rows.Metadata.Flags&1 == 0 {
			mustWrite(t, "response", came, frame, true, map[reflect.Type]int{})
		}
		if frame.Opcode != row.opcode || row.wanted.Opcode() != row.opcode || !frame.Response || frame.Stream != 5 {
			t.Error(frame)
		}
	}
	if word := udt.Inner[1].String(); word != "map<varchar, set<uuid>>" || udt.String() != "k.u" || udt.Inner[0].String() != `tuple<int, "C">` {
		t.Error(word, udt, udt.Inner[0])
	}
}

func TestErrorsOfServers(t *testing.T) {
	message := allFrames(t, responseOf(OpcodeError, 0, long(0x1000)+text("why")+short(6)+long(1, 2)))[0].Message
	err, ok := message.(error)
	var base *ServerError
	var unavailable *Unavailable
	if !ok || !errors.As(err, &base) || !errors.As(err, &unavailable) || base.Code != ErrorUnavailable || unavailable.Alive != 2 {
		t.Fatal(err)
	}
	if err.Error() != "cqlp: Unavailable: why" {
		t.Fatal(err)
	}
}

func TestWhatComesBeforeAMessage(t *testing.T) {
	body := strings.Repeat("\x11", 16) + short(1) + text("w") + short(2) + text("a") + long(1) + "v" + text("b") + long(-1) + long(1) + "rest"
	frame := allFrames(t, responseOf(OpcodeResult, 0x0e, body))[0]
	id := UUID{}
	copy(id[:], body)
	payload := []PayloadItem{{"a", []byte("v")}, {"b", nil}}
	if frame.Extra != 4 {
		t.Fatal(frame)
	}
	if b, err := AppendFrame(nil, frame); err != nil || !bytes.Equal(b[headerLength:], []byte(body[:len(body)-4])) || b[1] != 0x0e {
		t.Fatalf("%x %v", b, err)
	}
	if *frame.TraceID != id || !reflect.DeepEqual(frame.Warnings, []string{"w"}) || !reflect.DeepEqual(frame.Payload, payload) {
		t.Fatal(frame)
	}
}

func TestEachRequestIsReadAsItWasWritten(t *testing.T) {
	size, serial, timestamp := int32(100), ConsistencyLocalSerial, int64(-1)
	values := []Value{{Bytes: []byte("x")}, {}, {Unset: true}, {Bytes: []byte{}}}
	all := Parameters{ConsistencyTwo, true, values, []string{"a", "b", "c", "d"}, &size, []byte("state"), &serial, &timestamp}
	for _, m := range []Message{
		&Startup{[]Option{{"CQL_VERSION", "3.0.0"}, {"", ""}}}, &Startup{[]Option{}}, &Options{}, &Prepare{strings.Repeat("é", 40000)},
		&Query{"q", all}, &Query{"", Parameters{Values: []Value{}}}, &Execute{[]byte{1, 0xff}, all}, &Register{[]string{"A", "B"}},
		&AuthResponse{nil}, &AuthResponse{[]byte{0}},
		&Batch{BatchUnlogged, []Statement{{Query: "q", Values: values}, {ID: []byte("id"), Values: []Value{}}}, ConsistencyAll, &serial, &timestamp},
		&Batch{BatchCounter, []Statement{}, ConsistencyAny, nil, nil},
	} {
		b, err := AppendMessage([]byte(nil), 77, m)
		if err != nil {
			t.Fatal(m, err)
		}
		frame := allFrames(t, b)[0]
		if !reflect.DeepEqual(frame.Message, m) || frame.Stream != 77 || frame.Response || frame.Extra != 0 {
			t.Errorf("%#v\nand not\n%#v", frame.Message, m)
		}
	}
}

func TestWhatIsNotWritten(t *testing.T) {
	before := []byte("before")
	many := make([]Value, 1<<16)
	for _, row := range []struct {
		m    Message
		kind error
	}{
		{&Register{[]string{strings.Repeat("x", 1<<16)}}, ErrTooLong},
		{&Query{Parameters: Parameters{Values: many}}, ErrTooLong},
		{&Prepare{strings.Repeat("x", 1<<28)}, ErrTooLong},
		{&Rows{Metadata: Metadata{Columns: make([]Column, 2)}, Rows: [][]any{{1}}}, nil},
		{&NodeEvent{Address: net.IP{1, 2}}, nil},
		{&ServerError{Code: ErrorUnprepared}, ErrNotWritten},
		{&Query{Parameters: Parameters{Values: many[:1], Names: []string{}}}, nil},
		{&Prepared{Bound: []Column{{Type: Type{Kind: KindRaw}}}}, ErrNotWritten},
		{&Prepared{Bound: []Column{{Type: Type{Kind: KindMap}}}}, nil},
	} {
		b, err := AppendMessage(before, 0, row.m)
		if err == nil || row.kind != nil && !errors.Is(err, row.kind) || !bytes.Equal(b, before) {
			t.Errorf("%T %v", row.m, err)
		}
	}
}

// TestTextsThatAreNone gives each text of each message bytes that are none: nothing is written that no decoder would read. Ids are no texts.
func TestTextsThatAreNone(t *testing.T) {
	const bad = "a\xffb"
	failed := ServerError{ErrorInvalid, bad}
	column := func(typ Type) Metadata { return Metadata{Columns: []Column{{"k", "t", "c", typ}}} }
	typ := func(typ Type) Message { return &Rows{Metadata: column(typ)} }
	row := func(typ Type, value any) Message { return &Rows{Metadata: column(typ), Rows: [][]any{{value}}} }
	varchar, integer := Type{Kind: KindVarchar}, Type{Kind: KindInt}
	for _, m := range []Message{
		&Startup{[]Option{{bad, "v"}}}, &Startup{[]Option{{"k", bad}}}, &Query{Query: bad}, &Prepare{bad}, &Register{[]string{bad}},
		&Query{Query: "q", Parameters: Parameters{Values: []Value{{}}, Names: []string{bad}}}, &Batch{Statements: []Statement{{Query: bad}}},
		&Authenticate{bad}, &Supported{[]SupportedOption{{Key: bad}}}, &Supported{[]SupportedOption{{"k", []string{bad}}}},
		&NodeEvent{bad, "UP", net.IPv4(1, 2, 3, 4), 5}, &NodeEvent{"STATUS_CHANGE", bad, net.IPv4(1, 2, 3, 4), 5}, &UnknownEvent{bad},
		&SetKeyspace{bad}, &SchemaChange{Change: bad}, &SchemaChange{Target: bad}, &SchemaChange{Target: "KEYSPACE", Keyspace: bad},
		&SchemaEvent{SchemaChange{Target: "FUNCTION", Arguments: []string{bad}}},
		&failed, &Unavailable{ServerError: failed}, &WriteTimeout{WriteType: bad}, &WriteFailure{WriteType: bad}, &FunctionFailure{Keyspace: bad},
		&FunctionFailure{Arguments: []string{bad}}, &AlreadyExists{Table: bad}, &Unprepared{ServerError: failed},
		&Prepared{Bound: []Column{{bad, "t", "c", integer}}}, &Prepared{Result: Metadata{Columns: []Column{{"k", bad, "c", integer}}}},
		&Rows{Metadata: Metadata{Columns: []Column{{"k", "t", bad, integer}}}}, typ(Type{Kind: KindCustom, Name: bad}),
		typ(Type{Kind: KindUDT, Keyspace: bad}), typ(Type{Kind: KindUDT, Name: bad}),
		typ(Type{Kind: KindUDT, Names: []string{bad}, Inner: []Type{integer}}), row(varchar, bad), row(Type{Kind: KindASCII}, "\u00e9"),
		row(Type{Kind: KindList, Inner: []Type{varchar}}, []string{bad}),
		row(Type{Kind: KindMap, Inner: []Type{varchar, integer}}, map[string]int{bad: 1}),
	} {
		if b, err := AppendMessage([]byte("before"), 1, m); err != ErrNotText || string(b) != "before" {
			t.Errorf("%T %+v: %q, %v", m, m, b, err)
		}
	}
	for _, f := range []*Frame{
		{Message: &Ready{}, Warnings: []string{bad}}, {Message: &Ready{}, Payload: []PayloadItem{{bad, nil}}}, {Message: &Options{}, Payload: []PayloadItem{{bad, nil}}},
	} {
		if _, err := AppendFrame(nil, f); err != ErrNotText {
			t.Errorf("%+v: %v", f, err)
		}
	}
	if _, err := Bind(varchar, bad); err != ErrNotText {
		t.Error(err)
	}
	for _, m := range []Message{&Execute{ID: []byte(bad)}, &Unprepared{ID: []byte(bad)}, &Prepared{ID: []byte(bad)}, &Batch{Statements: []Statement{{ID: []byte(bad)}}},
		row(varchar, "\u00e9"), row(Type{Kind: KindBlob}, bad)} {
		b, err := AppendMessage(nil, 1, m)
		if v, e := Check(DefaultLimits(), b); err != nil || e != nil || v.End != EndWhole {
			t.Errorf("%T %+v: %v, %v, %v", m, m, err, v, e)
		}
	}
}

func TestFramesThatAreTooLong(t *testing.T) {
	pages, err := os.ReadFile("../pages.bin")
	if err != nil {
		t.Fatal(err)
	}
	f, err := NewFrames(bytes.NewReader(pages), DefaultLimits())
	if err != nil {
		t.Fatal(err)
	}
	defer f.Close()
	f.Longest = 385
	if _, err := f.Next(); err != nil {
		t.Fatal(err)
	}
	for i := 0; i < 2; i++ {
		var long *FrameTooLong
		if _, err := f.Next(); !errors.As(err, &long) || *long != (FrameTooLong{218, 386}) {
			t.Fatal(err)
		}
	}
}

// Frames that are refused within their bodies, as the tests of Python have them.
const (
	badText = "040000020700000009 00000002 c328 0001 00"
	query   = "040000030700000009 00000002 6162 0001 00"
	specs   = "00000002 00000001 00000001 000178 000179 000161 0009"
	badPage = "840000050800000032" + specs + "00000003 0000000400000007 00000003010203 0000000400000008"
	next    = "840000060800000023" + specs + "00000001 0000000400000009"
)

func TestFramesBehindBadOnes(t *testing.T) {
	stream := unhex(t, "040000010500000000"+badText+query+badPage+next)
	for size := 1; size <= len(stream); size++ {
		f, err := NewFrames(pieces(stream, size), DefaultLimits())
		if err != nil {
			t.Fatal(err)
		}
		var reported []string
		f.Skip = func(s Skipped) { reported = append(reported, s.String()) }
		var places []uint64
		for {
			frame, err := f.Next()
			if err == io.EOF {
				break
			}
			if err != nil {
				t.Fatal(err)
			}
			places = append(places, frame.At)
		}
		f.Close()
		wanted := "the frame at 9 is passed over: refused at 18: BadUtf8|the frame at 45 is passed over: refused at 89: BadSize"
		if !reflect.DeepEqual(places, []uint64{0, 27, 104}) || strings.Join(reported, "|") != wanted {
			t.Fatal(size, places, reported)
		}
	}
}

// pieces reads at most this many bytes at a time.
func pieces(stream []byte, size int) io.Reader {
	return readerFunc(func(p []byte) (int, error) {
		if len(p) > size {
			p = p[:size]
		}
		n := copy(p, stream)
		if stream = stream[n:]; n == 0 {
			return 0, io.EOF
		}
		return n, nil
	})
}

type readerFunc func([]byte) (int, error)

func (f readerFunc) Read(p []byte) (int, error) { return f(p) }

func TestSkipStepByStep(t *testing.T) {
	d := decoder(t, DefaultLimits())
	stream := unhex(t, badText+query)
	if _, err := d.Skip(); !errors.Is(err, CodeNotRefused) {
		t.Fatal(err)
	}
	events := make([]Event, 8)
	count, n, err := d.Decode(events, stream[:15])
	if count != 1 || err != nil {
		t.Fatal(count, n, err)
	}
	var refusal *Refusal
	if _, _, err := d.Decode(events, stream[n:15]); !errors.As(err, &refusal) || *refusal != (Refusal{9, ReasonBadUTF8}) {
		t.Fatal(err)
	}
	skipped, err := d.Skip()
	if err != nil || skipped.Frame.Extra != 2 || skipped.At != 9 || skipped.Reason != ReasonBadUTF8 || skipped.Rest != 18-uint64(n) {
		t.Fatal(skipped, err)
	}
	count, m, err := d.Decode(events, stream[n:])
	if count == 0 || err != nil || events[0].At != 18 {
		t.Fatal(count, m, err)
	}
	h := decoder(t, DefaultLimits())
	if _, _, err := h.Next(unhex(t, tooLong)); !errors.As(err, &refusal) {
		t.Fatal(err)
	}
	if _, err := h.Skip(); err != CodeInHeader {
		t.Fatal(err)
	}
	h.Close()
	if _, err := h.Skip(); err != ErrClosed {
		t.Fatal(err)
	}
}
