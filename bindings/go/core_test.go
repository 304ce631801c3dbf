//go:build cgo

package cqlp

import (
	"bytes"
	"errors"
	"fmt"
	"math/rand"
	"os"
	"sort"
	"strings"
	"sync"
	"testing"
)

func frameEvent(stream int32, opcode Opcode, tag Tag, mark Mark) Event {
	return Event{Extra: stream, Opcode: opcode, Tag: tag, Mark: mark}
}

func response(stream int32, opcode Opcode) Event {
	return frameEvent(stream, opcode, TagFrame, MarkResponse)
}

func request(stream int32, opcode Opcode) Event {
	return frameEvent(stream, opcode, TagFrame, MarkNone)
}

// A log says what the tests in C say of the same sessions, bindings/c/client.c and server.c.
type log struct{ strings.Builder }

func (l *log) say(form string, words ...any) { fmt.Fprintf(l, form+"\n", words...) }

// codeOf is the number of an error, 0 of none.
func codeOf(err error) uint32 {
	var code Code
	errors.As(err, &code)
	return uint32(code)
}

// sameAsInC compares a log with what the test in C prints, from its second line on.
func sameAsInC(t *testing.T, said *log, expected string) {
	t.Helper()
	text, err := os.ReadFile("../c/" + expected)
	if err != nil {
		t.Fatal(err)
	}
	_, wanted, _ := strings.Cut(string(text), "\n")
	wanted, _, _ = strings.Cut(wanted, "free: 0, again: ")
	if said.String() != wanted {
		t.Fatalf("%s\nand not\n%s", said, wanted)
	}
}

func client(t *testing.T, slots int) *Client {
	t.Helper()
	c, err := NewClient(slots)
	if err != nil {
		t.Fatal(err)
	}
	t.Cleanup(func() { c.Close() })
	return c
}

func server(t *testing.T, slots int) *Server {
	t.Helper()
	s, err := NewServer(slots)
	if err != nil {
		t.Fatal(err)
	}
	t.Cleanup(func() { s.Close() })
	return s
}

func TestASessionOfAClientIsThatOfC(t *testing.T) {
	c, l := client(t, 2), new(log)
	phase := func() {
		n, _ := c.Phase()
		l.say("phase %d", uint8(n))
	}
	begin := func(opcode Opcode) Ticket {
		ticket, err := c.Begin(opcode, 10*uint64(opcode))
		said := ticket
		if err != nil {
			said = Ticket{99, 99}
		}
		l.say("begin %d: code %d number %d id %d", uint8(opcode), codeOf(err), said.Number, said.ID)
		return ticket
	}
	hear := func(frame Event) {
		r, err := c.Reply(frame)
		if err != nil {
			r = Reply{99, Ticket{99, 99}, 99, 99}
		}
		l.say("reply %d %d: code %d number %d id %d what %d request %d carried %d", frame.Extra, uint8(frame.Opcode), codeOf(err),
			r.Ticket.Number, r.Ticket.ID, uint8(r.What), uint8(r.Request), r.Carried)
	}
	phase()
	begin(7)
	begin(8)
	begin(4)
	startup := begin(1)
	phase()
	begin(5)
	l.say("cancel a STARTUP: %d", codeOf(c.Cancel(startup)))
	hear(response(0, 3))
	phase()
	begin(15)
	hear(response(0, 16))
	phase()
	first, second := begin(7), begin(9)
	begin(7)
	for _, frame := range []Event{response(1, 8), response(1, 8), response(0, 6), request(0, 7), response(-1, 12), response(1, 12),
		response(2, 8), response(-1, 0)} {
		hear(frame)
	}
	l.say("cancel what was answered: %d", codeOf(c.Cancel(second)))
	l.say("cancel: %d, again: %d", codeOf(c.Cancel(first)), codeOf(c.Cancel(first)))
	begin(10)
	begin(13)
	hear(response(0, 0))
	begin(11)
	hear(response(0, 2))
	phase()
	hear(frameEvent(1, 8, TagEnd, MarkResponse))
	hear(response(65537, 8))
	hear(response(1, 17))
	sameAsInC(t, l, "expected-client")
}

func TestASessionOfAServerIsThatOfC(t *testing.T) {
	s, l := server(t, 2), new(log)
	phase := func() {
		n, _ := s.Phase()
		l.say("phase %d", uint8(n))
	}
	accept := func(frame Event, carried uint64) {
		l.say("accept %d %d: code %d", frame.Extra, uint8(frame.Opcode), codeOf(s.Accept(frame, carried)))
	}
	answer := func(stream int16, opcode Opcode) {
		a, err := s.Answer(stream, opcode)
		if err != nil {
			a = Answered{99, 99}
		}
		l.say("answer %d %d: code %d carried %d request %d", stream, uint8(opcode), codeOf(err), a.Carried, uint8(a.Request))
	}
	phase()
	for i, frame := range []Event{request(0, 7), request(0, 5), request(0, 1), request(2, 5), request(-1, 5), response(1, 2)} {
		accept(frame, uint64(i+1))
	}
	answer(1, 6)
	for _, opcode := range []Opcode{2, 4, 5, 6, 6} {
		answer(0, opcode)
	}
	accept(request(1, 1), 1<<64-1)
	phase()
	accept(request(0, 5), 7)
	answer(1, 3)
	phase()
	accept(request(0, 15), 8)
	answer(0, 16)
	phase()
	accept(request(1, 7), 9)
	accept(request(0, 11), 10)
	answer(1, 0)
	answer(0, 2)
	answer(-1, 12)
	phase()
	accept(frameEvent(1, 7, TagEnd, MarkNone), 11)
	accept(request(65537, 7), 12)
	accept(request(1, 17), 13)
	sameAsInC(t, l, "expected-server")
}

func TestCoresAfterClose(t *testing.T) {
	c, s := client(t, 1), server(t, 1)
	for i := 0; i < 2; i++ {
		c.Close()
		s.Close()
		_, begin := c.Begin(OpcodeOptions, 0)
		_, reply := c.Reply(response(0, OpcodeSupported))
		_, phase := c.Phase()
		_, answer := s.Answer(0, OpcodeSupported)
		_, other := s.Phase()
		for at, err := range []error{begin, reply, phase, c.Cancel(Ticket{}), s.Accept(request(0, OpcodeOptions), 0), answer, other} {
			if err != ErrClosed {
				t.Fatal(at, err)
			}
		}
	}
}

func TestSlotsOutOfRange(t *testing.T) {
	for _, slots := range []int{-1, 0, 32769, 65537, 1 << 32, 1<<32 + 1} {
		_, err := NewClient(slots)
		_, other := NewServer(slots)
		if !errors.Is(err, CodeBadSlots) || other != CodeBadSlots {
			t.Fatal(slots, err, other)
		}
	}
	client(t, 32768)
	server(t, 32768)
}

func TestHeaders(t *testing.T) {
	before := []byte("before")
	for _, row := range []struct {
		header Header
		wanted string
		code   error
	}{
		{Header{OpcodeQuery, 258, 3, 2, false}, "040201020700000003", nil},
		{Header{OpcodeResult, -1, 1 << 28, 0xfe, true}, "84feffff0810000000", nil},
		{Header{OpcodeQuery, 0, 1, 1, false}, "", CodeCompressed},
		{Header{4, 0, 1, 0, false}, "", CodeBadOpcode},
		{Header{OpcodeQuery, 0, 1, 0, true}, "", CodeBadDirection},
		{Header{OpcodeQuery, 0, 1<<28 + 1, 0, false}, "", CodeBadLength},
	} {
		b, err := AppendHeader(before, row.header)
		if err != row.code || fmt.Sprintf("%x", b) != fmt.Sprintf("%x", before)+row.wanted {
			t.Fatal(row, b, err)
		}
	}
	event, err := AppendEventHeader(nil, 7, 2)
	same, _ := AppendHeader(nil, Header{OpcodeEvent, -1, 7, 2, true})
	if err != nil || !bytes.Equal(event, same) {
		t.Fatal(event, err)
	}
	if b, err := AppendEventHeader(before, 1<<28+1, 0); err != CodeBadLength || !bytes.Equal(b, before) {
		t.Fatal(b, err)
	}
}

func TestAnotherVersion(t *testing.T) {
	for _, header := range [][]byte{{3, 0, 1, 2, 5}, {5, 0, 1, 2, 5, 0, 0, 0, 0, 9, 9}, {}, nil} {
		frames := allFrames(t, VersionError(header))
		refused, ok := frames[0].Message.(*ServerError)
		if len(frames) != 1 || !ok || refused.Code != ErrorProtocolError || !strings.Contains(refused.Message, "4") {
			t.Fatal(frames[0])
		}
	}
}

// A talk is a client and a server, and what is under way between them.
type talk struct {
	*testing.T
	random      *rand.Rand
	client      *Client
	server      *Server
	near, far   *Decoder
	asked, sent []byte
	open        []Event
	begun, seen uint64
}

var answersTo = map[Opcode][]Message{
	OpcodeStartup:      {&Ready{}, &Authenticate{"a"}},
	OpcodeAuthResponse: {&AuthChallenge{nil}, &AuthSuccess{[]byte{}}},
	OpcodeOptions:      {&Supported{}, &ServerError{ErrorOverloaded, "o"}},
	OpcodeQuery:        {&Void{}, &ServerError{ErrorInvalid, ""}},
	OpcodeRegister:     {&Ready{}},
}

var requests = []Message{&Startup{}, &AuthResponse{[]byte("t")}, &Options{}, &Query{Query: "q"}, &Register{[]string{"STATUS_CHANGE"}}}

func TestBothCoresTalk(t *testing.T) {
	for seed := int64(0); seed < 3; seed++ {
		talk := &talk{T: t, random: rand.New(rand.NewSource(seed)), client: client(t, 5), server: server(t, 5),
			near: decoder(t, DefaultLimits()), far: decoder(t, DefaultLimits())}
		for step := 0; step < 500 || len(talk.asked)+len(talk.sent)+len(talk.open) > 0; step++ {
			if step < 500 {
				talk.ask()
			}
			talk.serve()
			talk.hear()
		}
		if talk.seen != talk.begun || talk.begun < 50 {
			t.Fatal(talk.seen, talk.begun)
		}
	}
}

func (t *talk) ask() {
	m := requests[t.random.Intn(len(requests))]
	ticket, err := t.client.Begin(m.Opcode(), 1000*(t.begun+1))
	if err == CodeBadPhase || err == CodeFull {
		return
	}
	t.begun++
	if err != nil || ticket.Number != t.begun {
		t.Fatal(ticket, err)
	}
	t.asked, err = AppendMessage(t.asked, ticket.ID, m)
	if err != nil {
		t.Fatal(err)
	}
}

// came are the frames of some of the bytes that are under way.
func (t *talk) came(d *Decoder, wire *[]byte) (frames []Event) {
	piece := (*wire)[:t.random.Intn(len(*wire)+1)]
	for {
		event, n, err := d.Next(piece)
		piece, *wire = piece[n:], (*wire)[n:]
		if err == ErrMore {
			return frames
		}
		if err != nil {
			t.Fatal(err)
		}
		if event.Tag == TagFrame {
			frames = append(frames, event)
		}
	}
}

func (t *talk) serve() {
	for _, frame := range t.came(t.far, &t.asked) {
		if err := t.server.Accept(frame, uint64(frame.Opcode)); err != nil {
			t.Fatal(err)
		}
		t.open = append(t.open, frame)
	}
	if len(t.open) == 0 {
		return
	}
	at := t.random.Intn(len(t.open))
	frame := t.open[at]
	t.open = append(t.open[:at], t.open[at+1:]...)
	m := answersTo[frame.Opcode][t.random.Intn(len(answersTo[frame.Opcode]))]
	stream := int16(frame.Extra)
	answered, err := t.server.Answer(stream, m.Opcode())
	if err != nil || answered != (Answered{frame.Opcode, uint64(frame.Opcode)}) {
		t.Fatal(answered, err)
	}
	if t.sent, err = AppendMessage(t.sent, stream, m); err != nil {
		t.Fatal(err)
	}
}

func (t *talk) hear() {
	for _, frame := range t.came(t.near, &t.sent) {
		reply, err := t.client.Reply(frame)
		if err != nil || reply.What != ReplyAnswer || reply.Carried != 1000*reply.Ticket.Number {
			t.Fatal(reply, err)
		}
		t.seen++
	}
}

func TestGoroutinesMayShareACore(t *testing.T) {
	c := client(t, 32768)
	var wait sync.WaitGroup
	ids := make([][]int, 4)
	for i := range ids {
		i := i
		wait.Add(1)
		go func() {
			defer wait.Done()
			for n := 0; n < 500; n++ {
				ticket, err := c.Begin(OpcodeOptions, 0)
				if err != nil {
					t.Error(err)
				}
				ids[i] = append(ids[i], int(ticket.ID))
			}
		}()
	}
	wait.Wait()
	var all []int
	for _, some := range ids {
		all = append(all, some...)
	}
	sort.Ints(all)
	for i, id := range all {
		if i != id {
			t.Fatal(i, id)
		}
	}
}
