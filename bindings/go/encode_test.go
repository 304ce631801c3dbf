//go:build cgo

package cqlp

import (
	"bytes"
	"encoding/binary"
	"errors"
	"fmt"
	"io"
	"math/rand"
	"testing"
)

// A wholeFrame is a whole frame of a stream, with its events.
type wholeFrame struct {
	name   string
	limits Limits
	bytes  []byte
	events []Event
}

// wholeFrames are the whole frames of a stream.
func wholeFrames(t *testing.T, s stream) (found []wholeFrame) {
	t.Helper()
	d, err := NewDecoder(s.limits)
	if err != nil {
		t.Fatal(err)
	}
	defer d.Close()
	var events []Event
	for piece := s.bytes; ; {
		event, n, err := d.Next(piece)
		piece = piece[n:]
		if err != nil {
			return found
		}
		event.Content = clone(event.Content)
		if event.Tag == TagFrame {
			events = nil
		}
		if events = append(events, event); event.Tag == TagEnd {
			found = append(found, wholeFrame{s.name, s.limits, s.bytes[events[0].At:event.At], events})
		}
	}
}

func allWholeFrames(t *testing.T) (found []wholeFrame) {
	t.Helper()
	for _, s := range streams(t) {
		found = append(found, wholeFrames(t, s)...)
	}
	return found
}

// hasTag says whether one of the events has this tag.
func hasTag(events []Event, tag Tag) bool {
	for _, event := range events {
		if event.Tag == tag {
			return true
		}
	}
	return false
}

// refusal is why the frame is not written, or 0: a scalar of a cell comes in parts, or cells were read without their types.
func refusal(frame wholeFrame) Code {
	switch {
	case hasTag(frame.events, TagPart):
		return CodeUnbuilt
	case hasTag(frame.events, TagTypeNode) && !frame.limits.Types:
		return CodeNoSuchFrame
	}
	return 0
}

// spelled are the bytes of a frame without those after its last field, with a null of the length -1, and with 1 for true. There is no other way to
// spell it.
func spelled(frame wholeFrame) []byte {
	data, base := clone(frame.bytes), frame.events[0].At
	for _, event := range frame.events {
		if event.Tag == TagNull || event.Mark == MarkNull {
			copy(data[event.At-base:], "\xff\xff\xff\xff")
		}
		if event.Tag == TagLeaf && event.Kind == KindBoolean {
			data[event.At-base+4] = byte(event.Number)
		}
	}
	data = data[:len(data)-int(frame.events[len(frame.events)-1].Number)]
	binary.BigEndian.PutUint32(data[5:], uint32(len(data)-headerLength))
	return data
}

// plain is an event with the members that its tag uses, without offsets and lengths of frames.
func plain(e Event) Event {
	switch e.Tag {
	case TagEnd:
		return Event{Tag: e.Tag}
	case TagFrame:
		return Event{Tag: e.Tag, Extra: e.Extra, Opcode: e.Opcode, Flags: e.Flags, Mark: e.Mark}
	case TagByte, TagShort, TagInt, TagLong, TagCount:
		return Event{Tag: e.Tag, Field: e.Field, Number: e.Number}
	case TagUUID:
		return Event{Tag: e.Tag, Field: e.Field, Bytes: e.Bytes}
	case TagInet:
		found := Event{Tag: e.Tag, Field: e.Field, Octets: e.Octets, Extra: e.Extra}
		copy(found.Bytes[:], e.Bytes[:e.Octets])
		return found
	case TagText:
		return Event{Tag: e.Tag, Field: e.Field, Content: e.Content}
	case TagBytes, TagBound:
		found := Event{Tag: e.Tag, Field: e.Field, Mark: e.Mark}
		if e.Mark == MarkNone {
			found.Content = e.Content
		}
		return found
	}
	return plainOfPage(e)
}

// plainOfPage is the plain event of a type option or of a cell.
func plainOfPage(e Event) Event {
	found := Event{Tag: e.Tag, Row: e.Row, Column: e.Column, Level: e.Level}
	switch e.Tag {
	case TagTypeNode:
		return Event{Tag: e.Tag, Kind: e.Kind}
	case TagEnter:
		found.Kind, found.Number = e.Kind, e.Number
	case TagLeave:
		return Event{Tag: e.Tag, Level: e.Level, Number: e.Number}
	case TagPart:
		found.Number, found.Mark, found.Content = e.Number, e.Mark, e.Content
	case TagLeaf:
		found.Kind = e.Kind
		plainScalar(&found, e)
	}
	return found
}

func plainScalar(found *Event, e Event) {
	switch e.Kind {
	case KindDecimal:
		found.Extra, found.Content = e.Extra, e.Content
	case KindCustom, KindASCII, KindBlob, KindVarchar, KindVarint, KindRaw:
		found.Content = e.Content
	case KindFloat:
		copy(found.Bytes[:4], e.Bytes[:])
	case KindDouble:
		copy(found.Bytes[:8], e.Bytes[:])
	case KindUUID, KindTimeUUID:
		found.Bytes = e.Bytes
	case KindInet:
		found.Octets = e.Octets
		copy(found.Bytes[:e.Octets], e.Bytes[:])
	default:
		found.Number = e.Number
	}
}

func sameEvent(a, b Event) bool {
	content := bytes.Equal(a.Content, b.Content)
	a.Content, b.Content = nil, nil
	return content && fmt.Sprint(a) == fmt.Sprint(b)
}

// readsAll are limits by which all that is written is read whole.
var readsAll = Limits{Text: 4096, Cell: 4096, Entries: 128, Depth: 64, Types: true}

// mustRead compares what is read of a frame with the events that it was written of.
func mustRead(t *testing.T, data []byte, events []Event) {
	t.Helper()
	read := wholeFrames(t, stream{limits: readsAll, bytes: data})
	if events[len(events)-1].Tag != TagEnd {
		events = append(events[:len(events):len(events)], Event{Tag: TagEnd})
	}
	if len(read) != 1 || len(read[0].events) != len(events) || len(read[0].bytes) != len(data) {
		t.Fatalf("% x is read as %v, and not as %v", data, read, events)
	}
	for i, event := range read[0].events {
		if !sameEvent(plain(event), plain(events[i])) {
			t.Fatalf("% x: event %d is %v, and not %v", data, i, event, events[i])
		}
	}
}

func TestStreamsAreWrittenAsTheyCame(t *testing.T) {
	written, others, left := 0, 0, 0
	for _, frame := range allWholeFrames(t) {
		data, err := EncodeEvents(frame.events)
		if err != nil {
			if !errors.Is(err, refusal(frame)) || data != nil {
				t.Fatal(frame.name, err)
			}
			left++
			continue
		}
		if refusal(frame) != 0 {
			t.Fatal(frame.name, refusal(frame))
		}
		if !bytes.Equal(data, spelled(frame)) {
			t.Fatalf("%s: % x\nand not\n% x", frame.name, data, spelled(frame))
		}
		without, err := EncodeEvents(frame.events[:len(frame.events)-1])
		if err != nil || !bytes.Equal(without, data) {
			t.Fatal(frame.name, err)
		}
		written++
		if !bytes.Equal(data, frame.bytes) {
			others++
		}
	}
	if written < 82 || others < 7 || left < 5 {
		t.Fatal(written, others, left)
	}
}

// Each whole stream goes through an Encoder, event by event, as a Reader has them; frames that are not written are left out.
func TestAStreamIsEncodedEventByEvent(t *testing.T) {
	for _, s := range streams(t) {
		var target, wanted bytes.Buffer
		for _, frame := range wholeFrames(t, s) {
			if refusal(frame) == 0 {
				wanted.Write(spelled(frame))
			}
		}
		if err := copyEvents(t, NewEncoder(&target), s); err != nil && !errors.Is(err, CodeUnbuilt) && !errors.Is(err, CodeNoSuchFrame) {
			t.Fatal(s.name, err)
		}
		if !bytes.Equal(target.Bytes(), wanted.Bytes()) {
			t.Fatalf("%s: % x\nand not\n% x", s.name, target.Bytes(), wanted.Bytes())
		}
	}
}

// copyEvents gives the events of a stream to an Encoder, and answers its last error.
func copyEvents(t *testing.T, to *Encoder, s stream) (failed error) {
	t.Helper()
	reader, err := NewReader(bytes.NewReader(s.bytes), s.limits)
	if err != nil {
		t.Fatal(err)
	}
	defer reader.Close()
	for {
		event, err := reader.Next()
		if err != nil {
			return failed
		}
		if err := to.Encode(event); err != nil {
			failed = err
		}
	}
}

var someNumbers = []int64{0, 1, -1, 2, 3, 4, 5, 255, 256, 65535, 65536, 1<<31 - 1, 1 << 31, -1 << 31, 1<<32 - 1, 1 << 32, 1<<63 - 1, -1 << 63}

// changed has one thing of an event changed, or how many there are.
func changed(r *rand.Rand, events []Event) []Event {
	i, j := r.Intn(len(events)), r.Intn(len(events))
	event := &events[i]
	switch r.Intn(16) {
	case 0:
		event.Tag = Tag(r.Intn(22))
	case 1:
		event.Field = Field(r.Intn(60))
	case 2:
		event.Field = events[j].Field
	case 3:
		event.Mark = Mark(r.Intn(6))
	case 4:
		event.Number = someNumbers[r.Intn(len(someNumbers))]
	case 5:
		event.Number += r.Int63n(3) - 1
	case 6:
		event.Content = event.Content[:r.Intn(len(event.Content)+1)]
	case 7:
		event.Opcode = Opcode(r.Intn(18))
	case 8:
		event.Flags = 1 << r.Intn(8)
	case 9:
		event.Extra = int32(someNumbers[r.Intn(len(someNumbers))])
	case 10:
		event.Octets = uint8(r.Intn(18))
	case 11:
		event.Content = append(clone(event.Content), byte(r.Intn(256)))
	case 12:
		event.Kind, event.Row = Kind(r.Intn(256)), r.Uint32()
	case 13:
		events[i], events[j] = events[j], events[i]
	case 14:
		if len(events) > 1 {
			return append(events[:i:i], events[i+1:]...)
		}
	default:
		return append(events[:i:i], append([]Event{events[j]}, events[i:]...)...)
	}
	return events
}

// Each list is refused, or read back as it was given.
func TestEventsChangedAtRandom(t *testing.T) {
	times, frames := 100_000, allWholeFrames(t)
	if testing.Short() {
		times = 3_000
	}
	r, codes := rand.New(rand.NewSource(5)), map[Code]int{}
	for i := 0; i < times; i++ {
		frame := frames[r.Intn(len(frames))]
		events := append([]Event(nil), frame.events...)
		for n := r.Intn(4); n > 0; n-- {
			events = changed(r, events)
		}
		data, err := EncodeEvents(events)
		var bad *EventError
		if errors.As(err, &bad) {
			codes[bad.Code]++
			mustName(t, bad, events)
			continue
		}
		if err != nil {
			t.Fatal(err)
		}
		codes[0]++
		mustRead(t, data, events)
	}
	for _, code := range []Code{0, CodeNoEvent, CodeMisplaced, CodeNoSuchFrame} {
		if codes[code] < times/20 {
			t.Fatal(codes)
		}
	}
	if codes[CodeLeftOver] > 0 {
		t.Fatal(codes)
	}
}

// mustName looks whether the error names an event, or all together.
func mustName(t *testing.T, bad *EventError, events []Event) {
	t.Helper()
	together := bad.Index == -1
	if together && bad.Code != CodeNoSuchFrame && len(events) > 0 ||
		!together && (bad.Tag != events[bad.Index].Tag || bad.Field != events[bad.Index].Field) {
		t.Fatal(bad, events)
	}
	if !together && bad.Code == CodeNoSuchFrame {
		mustBeFirst(t, bad, events)
	}
}

// mustBeFirst looks whether the events before the one that is named all fit, and with it they do not.
func mustBeFirst(t *testing.T, bad *EventError, events []Event) {
	t.Helper()
	var before, with *EventError
	if _, err := EncodeEvents(events[:bad.Index]); errors.As(err, &before) && before.Index != -1 {
		t.Fatal(before, bad, events)
	}
	if _, err := EncodeEvents(events[:bad.Index+1]); !errors.As(err, &with) || *with != *bad {
		t.Fatal(with, bad, events)
	}
}

func queryEvents() []Event {
	return []Event{
		{Tag: TagFrame, Opcode: OpcodeQuery, Extra: 7},
		{Tag: TagText, Field: FieldQuery, Content: []byte("ä!")},
		{Tag: TagShort, Field: FieldConsistency, Number: int64(ConsistencyOne)},
		{Tag: TagByte, Field: FieldQueryFlags},
		{Tag: TagEnd},
	}
}

func TestEventsThatAreRefused(t *testing.T) {
	for _, refused := range []struct {
		at    int
		event Event
		code  Code
		words string
	}{
		{2, Event{}, CodeNoEvent, "event 2, 0: NoEvent"},
		{2, Event{Tag: TagShort, Field: FieldConsistency, Number: 65536}, CodeNoEvent, "event 2, Short Consistency: NoEvent"},
		{2, Event{Tag: TagShort}, CodeNoEvent, "event 2, Short: NoEvent"},
		{0, Event{Tag: TagFrame, Opcode: 4}, CodeNoEvent, "event 0, Frame: NoEvent"},
		{0, Event{Tag: TagFrame, Opcode: OpcodeQuery, Extra: 32768}, CodeNoEvent, "event 0, Frame: NoEvent"},
		{1, Event{Tag: TagText, Field: FieldQuery, Content: []byte("\xff")}, CodeNoEvent, "event 1, Text Query: NoEvent"},
		{1, Event{Tag: TagInet, Field: FieldAddress, Octets: 5}, CodeNoEvent, "event 1, Inet Address: NoEvent"},
		{1, Event{Tag: TagFrame, Opcode: OpcodeOptions}, CodeMisplaced, "event 1, Frame: Misplaced"},
		{3, Event{Tag: TagEnd}, CodeMisplaced, "event 4, End: Misplaced"},
		{1, Event{Tag: TagUUID, Field: FieldTraceID}, CodeNoSuchFrame, "event 1, Uuid TraceId: NoSuchFrame"},
		{3, Event{Tag: TagByte, Field: FieldQueryFlags, Number: 4}, CodeNoSuchFrame, "event 4, End: NoSuchFrame"},
	} {
		events := queryEvents()
		events[refused.at] = refused.event
		data, err := EncodeEvents(events)
		if data != nil || !errors.Is(err, refused.code) || err.Error() != "cqlp: "+refused.words {
			t.Fatal(data, err, refused.words)
		}
	}
	if data, err := EncodeEvents(nil); data != nil || !errors.Is(err, CodeMisplaced) {
		t.Fatal(data, err)
	}
}

// A frame that is refused is left out, and an error of the io.Writer is passed on.
func TestAnEncoderGoesOn(t *testing.T) {
	var target bytes.Buffer
	encoder := NewEncoder(&target)
	bad := queryEvents()
	bad[1].Content = bytes.Repeat([]byte("x\xff"), 1000)
	long := queryEvents()
	long[1].Content = bytes.Repeat([]byte("x"), 300_000)
	for i, events := range [][]Event{queryEvents(), bad, long, queryEvents()} {
		for _, event := range events {
			if err := encoder.Encode(event); (err != nil) != (i == 1 && event.Tag == TagEnd) {
				t.Fatal(i, event, err)
			}
		}
	}
	short, err := EncodeEvents(queryEvents())
	if err != nil || len(short) != 19 || target.Len() != 2*19+9+4+300_000+3 || !bytes.HasSuffix(target.Bytes(), short) {
		t.Fatal(short, err, target.Len())
	}
	closed, pipe := io.Pipe()
	closed.Close()
	encoder = NewEncoder(pipe)
	for _, event := range queryEvents() {
		err = encoder.Encode(event)
	}
	if err != io.ErrClosedPipe {
		t.Fatal(err)
	}
}

func TestRoomThatIsTooLittle(t *testing.T) {
	wanted, err := EncodeEvents(queryEvents())
	if err != nil {
		t.Fatal(err)
	}
	for room := 0; room <= len(wanted)+1; room++ {
		var e Encoder
		for _, event := range queryEvents() {
			e.add(&event)
		}
		if err := e.encodeIn(room); err != nil || !bytes.Equal(e.frame, wanted) {
			t.Fatal(room, e.frame, err)
		}
	}
}
