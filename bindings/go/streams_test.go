//go:build cgo

package cqlp

import (
	"bufio"
	"encoding/hex"
	"errors"
	"fmt"
	"io"
	"os"
	"strings"
	"sync"
	"testing"
	"testing/iotest"
)

// A stream of bindings/streams.txt, and what is said of it.
type stream struct {
	name    string
	limits  Limits
	bytes   []byte
	lines   []string
	verdict string
}

func streams(t *testing.T) []stream {
	t.Helper()
	file, err := os.Open("../streams.txt")
	if err != nil {
		t.Fatal(err)
	}
	defer file.Close()
	var found []stream
	for lines := bufio.NewScanner(file); lines.Scan(); {
		found = addLine(t, found, lines.Text())
	}
	if len(found) < 138 {
		t.Fatal("too few streams:", len(found))
	}
	return found
}

func addLine(t *testing.T, found []stream, line string) []stream {
	t.Helper()
	word, rest, _ := strings.Cut(line, " ")
	if word == "stream" {
		var next stream
		var types, parts int
		l := &next.limits
		_, err := fmt.Sscan(rest, &next.name, &l.Text, &l.Cell, &l.Entries, &l.Depth, &types, &parts)
		if err != nil {
			t.Fatal(err)
		}
		l.Types, l.Parts = types == 1, parts == 1
		return append(found, next)
	}
	last := &found[len(found)-1]
	switch word {
	case "bytes":
		last.bytes = unhex(t, rest)
	case "end":
		last.verdict = rest
	default:
		last.lines = append(last.lines, line)
	}
	return found
}

func unhex(t *testing.T, digits string) []byte {
	t.Helper()
	bytes, err := hex.DecodeString(strings.ReplaceAll(digits, " ", ""))
	if err != nil {
		t.Fatal(err)
	}
	return bytes
}

// said are the lines of the events of these pieces, and the verdict.
func said(t *testing.T, limits Limits, pieces ...[]byte) ([]string, string) {
	t.Helper()
	d, err := NewDecoder(limits)
	if err != nil {
		t.Fatal(err)
	}
	defer d.Close()
	var lines []string
	for _, piece := range pieces {
		lines = append(lines, linesOf(t, d, piece)...)
	}
	verdict, err := d.Finish()
	if err != nil {
		t.Fatal(err)
	}
	return lines, verdict.String()
}

func linesOf(t *testing.T, d *Decoder, piece []byte) (lines []string) {
	t.Helper()
	for {
		event, n, err := d.Next(piece)
		piece = piece[n:]
		var refusal *Refusal
		if errors.As(err, &refusal) || errors.Is(err, ErrMore) && len(piece) == 0 {
			return lines
		}
		if err != nil {
			t.Fatal(err)
		}
		lines = append(lines, event.String())
	}
}

// decoded are the lines of the events of these pieces, and the verdict, with room for this many events at a time.
func decoded(t *testing.T, limits Limits, room int, pieces ...[]byte) (lines []string, verdict string) {
	t.Helper()
	d, err := NewDecoder(limits)
	if err != nil {
		t.Fatal(err)
	}
	defer d.Close()
	events := make([]Event, room)
	for _, piece := range pieces {
		lines = append(lines, batchesOf(t, d, events, piece)...)
	}
	end, err := d.Finish()
	if err != nil {
		t.Fatal(err)
	}
	return lines, end.String()
}

func batchesOf(t *testing.T, d *Decoder, events []Event, piece []byte) (lines []string) {
	t.Helper()
	for {
		count, n, err := d.Decode(events, piece)
		piece = piece[n:]
		for i := range events[:count] {
			lines = append(lines, events[i].String())
		}
		var refusal *Refusal
		if errors.As(err, &refusal) || err == ErrMore && len(piece) == 0 {
			return lines
		}
		if err != nil || count == 0 {
			t.Fatal(count, err)
		}
	}
}

func mustSay(t *testing.T, s stream, what any, lines []string, verdict string) {
	t.Helper()
	if strings.Join(lines, "\n") != strings.Join(s.lines, "\n") || verdict != s.verdict {
		t.Fatalf("%s %v:\n%s\n%s", s.name, what, strings.Join(lines, "\n"), verdict)
	}
}

func TestLinesAndVerdicts(t *testing.T) {
	for _, s := range streams(t) {
		lines, verdict := said(t, s.limits, s.bytes)
		mustSay(t, s, "whole", lines, verdict)
		checked, err := Check(s.limits, s.bytes)
		if err != nil || checked.String() != s.verdict {
			t.Fatal(s.name, checked, err)
		}
	}
}

func TestEveryCutInTwo(t *testing.T) {
	if testing.Short() {
		t.Skip("it is long")
	}
	for _, s := range streams(t) {
		for at := range s.bytes {
			lines, verdict := said(t, s.limits, s.bytes[:at], s.bytes[at:])
			mustSay(t, s, at, lines, verdict)
		}
	}
}

func TestBatchesInEveryCut(t *testing.T) {
	if testing.Short() {
		t.Skip("it is long")
	}
	for _, s := range streams(t) {
		for at := range s.bytes {
			lines, verdict := decoded(t, s.limits, []int{1, 2, 7, 300}[at%4], s.bytes[:at], s.bytes[at:])
			mustSay(t, s, at, lines, verdict)
		}
	}
}

// Each goroutine has a decoder of its own, and then hands it on to another one.
func TestDecodersOfManyGoroutines(t *testing.T) {
	all := streams(t)
	var wait sync.WaitGroup
	for i := 0; i < 8; i++ {
		some, handed := all[i*len(all)/8:(i+1)*len(all)/8], make(chan *Decoder)
		wait.Add(2)
		go func() {
			defer wait.Done()
			defer close(handed)
			for _, s := range some {
				d, err := NewDecoder(s.limits)
				if err != nil {
					t.Error(err)
					return
				}
				linesOf(t, d, s.bytes[:len(s.bytes)/2])
				handed <- d
			}
		}()
		go func() {
			defer wait.Done()
			at := 0
			for d := range handed {
				s := some[at]
				linesOf(t, d, s.bytes[len(s.bytes)/2:])
				if verdict, err := d.Finish(); err != nil || verdict.String() != s.verdict {
					t.Error(s.name, verdict, err)
				}
				d.Close()
				at++
			}
		}()
	}
	wait.Wait()
}

func TestByteByByte(t *testing.T) {
	for _, s := range streams(t) {
		var pieces [][]byte
		for at := range s.bytes {
			pieces = append(pieces, s.bytes[at:at+1])
		}
		lines, verdict := said(t, s.limits, pieces...)
		mustSay(t, s, "byte by byte", lines, verdict)
	}
}

func TestReaders(t *testing.T) {
	for _, s := range streams(t) {
		for _, source := range []io.Reader{
			strings.NewReader(string(s.bytes)),
			iotest.OneByteReader(strings.NewReader(string(s.bytes))),
			iotest.DataErrReader(strings.NewReader(string(s.bytes))),
		} {
			lines, err := readAll(t, source, s.limits)
			mustSay(t, s, "read", lines, s.verdict)
			mustEnd(t, s, err)
		}
		lines, err := readAll(t, iotest.TimeoutReader(iotest.OneByteReader(strings.NewReader(string(s.bytes)))), s.limits)
		if len(s.bytes) > 9 && (!errors.Is(err, iotest.ErrTimeout) || len(lines) > 1) {
			t.Fatal(s.name, lines, err)
		}
	}
}

func readAll(t *testing.T, source io.Reader, limits Limits) (lines []string, err error) {
	t.Helper()
	r, err := NewReader(source, limits)
	if err != nil {
		t.Fatal(err)
	}
	defer r.Close()
	for {
		event, err := r.Next()
		if err != nil {
			_, again := r.Next()
			if again.Error() != err.Error() {
				t.Fatal(err, again)
			}
			return lines, err
		}
		lines = append(lines, event.String())
	}
}

// mustEnd compares the error of a Reader with the verdict.
func mustEnd(t *testing.T, s stream, err error) {
	t.Helper()
	var cut *Cut
	var refusal *Refusal
	switch {
	case err == io.EOF && strings.HasPrefix(s.verdict, "whole"):
	case errors.As(err, &cut) && errors.Is(err, io.ErrUnexpectedEOF) && err.Error() == "cqlp: "+s.verdict:
	case errors.As(err, &refusal) && err.Error() == "cqlp: "+s.verdict:
	default:
		t.Fatal(s.name, err)
	}
}
