//go:build cgo

package cqlp

import (
	"errors"
	"fmt"
	"io"
	"math/big"
	"net"
	"os"
	"reflect"
	"regexp"
	"runtime"
	"strconv"
	"strings"
	"testing"
	"time"
)

const (
	options = "040000000500000000"
	// a response whose body would have a byte more than 256 MB
	tooLong = "840000000810000001"
	// a page whose only cell is a list that says 2,147,483,647 elements
	tooMany = "840000000800000031 00000002 00000001 00000001 0001 6b 0001 74 0001 63 0020 0009 00000001" +
		"00000010 7fffffff 00000004 00000001 ffffffff"
)

func decoder(t *testing.T, limits Limits) *Decoder {
	t.Helper()
	d, err := NewDecoder(limits)
	if err != nil {
		t.Fatal(err)
	}
	t.Cleanup(func() { d.Close() })
	return d
}

func TestNineBytes(t *testing.T) {
	lines, verdict := said(t, DefaultLimits(), unhex(t, options))
	if strings.Join(lines, "|") != "0 Frame request 00 0 OPTIONS 0|9 End 0" || verdict != "whole 9" {
		t.Fatal(lines, verdict)
	}
}

func TestAContentThatNoTypeHas(t *testing.T) {
	// a page of two cells of the type int, the second of which has three bytes
	odd := unhex(t, "840000010800000028 00000002 00000001 00000001 0000 0000 0001 6e 0009 00000002 00000004 00000007 00000003 000102")
	if verdict, err := Check(DefaultLimits(), odd); err != nil || verdict.String() != "refused 42 BadSize" {
		t.Fatal(verdict, err)
	}
	d, err := NewLenientDecoder(DefaultLimits())
	if err != nil {
		t.Fatal(err)
	}
	defer d.Close()
	lines := linesOf(t, d, odd)
	if got := strings.Join(lines[len(lines)-3:], "|"); got != "34 Leaf 0 0 0 7|42 Leaf 1 0 0 0x000102|49 End 0" {
		t.Fatal(got)
	}
	if _, err := NewLenientDecoder(Limits{}); err == nil {
		t.Fatal("limits of 0 are out of their ranges")
	}
}

func TestARefusalStays(t *testing.T) {
	d := decoder(t, DefaultLimits())
	if lines := linesOf(t, d, unhex(t, options+tooLong)); len(lines) != 2 {
		t.Fatal(lines)
	}
	for i := 0; i < 3; i++ {
		_, n, err := d.Next(unhex(t, options))
		var refusal *Refusal
		if n != 0 || !errors.As(err, &refusal) || *refusal != (Refusal{14, ReasonBadLength}) {
			t.Fatal(n, err)
		}
	}
	if verdict, _ := d.Finish(); verdict.String() != "refused 14 BadLength" {
		t.Fatal(verdict)
	}
}

func TestACountThatLiesHoldsNothing(t *testing.T) {
	d := decoder(t, DefaultLimits())
	lines := linesOf(t, d, unhex(t, tooMany))
	verdict, _ := d.Finish()
	if lines[len(lines)-3] != "38 Enter 0 0 0 list 2147483647" || verdict.String() != "refused 58 Overrun" {
		t.Fatal(lines, verdict)
	}
	if held, err := d.Held(); err != nil || held.Bytes+held.Entries+held.Levels > 100 {
		t.Fatal(held, err)
	}
}

func TestHeldIsBounded(t *testing.T) {
	limits := DefaultLimits()
	limits.Text = 65
	d := decoder(t, limits)
	linesOf(t, d, unhex(t, "0400000007 00000048 00000041"))
	for i := 1; i <= 64; i++ {
		linesOf(t, d, []byte("a"))
		if held, err := d.Held(); err != nil || held.Bytes != uint32(i) {
			t.Fatal(i, held, err)
		}
	}
}

func TestLimitsOutOfRange(t *testing.T) {
	for _, row := range []struct {
		name            string
		least, greatest uint32
		set             func(*Limits) *uint32
	}{
		{"text", 32, 1 << 24, func(l *Limits) *uint32 { return &l.Text }},
		{"cell", 32, 1 << 24, func(l *Limits) *uint32 { return &l.Cell }},
		{"entries", 1, 65536, func(l *Limits) *uint32 { return &l.Entries }},
		{"depth", 1, 64, func(l *Limits) *uint32 { return &l.Depth }},
	} {
		for _, number := range []uint32{row.least, row.greatest} {
			limits := DefaultLimits()
			*row.set(&limits) = number
			decoder(t, limits)
		}
		for _, number := range []uint32{0, row.least - 1, row.greatest + 1, 1<<32 - 1} {
			limits := DefaultLimits()
			*row.set(&limits) = number
			var bad *LimitError
			if _, err := NewDecoder(limits); !errors.As(err, &bad) || bad.Limit != row.name {
				t.Fatal(row.name, number, err)
			}
			if _, err := Check(limits, nil); !errors.As(err, &bad) || bad.Limit != row.name {
				t.Fatal(row.name, number, err)
			}
			if _, err := NewReader(strings.NewReader(""), limits); !errors.As(err, &bad) {
				t.Fatal(err)
			}
		}
	}
}

func TestUseAfterClose(t *testing.T) {
	d := decoder(t, DefaultLimits())
	linesOf(t, d, unhex(t, options)[:4])
	for i := 0; i < 2; i++ {
		if err := d.Close(); err != nil {
			t.Fatal(err)
		}
		_, _, next := d.Next(unhex(t, options))
		_, finish := d.Finish()
		_, held := d.Held()
		if next != ErrClosed || finish != ErrClosed || held != ErrClosed {
			t.Fatal(next, finish, held)
		}
	}
	r, err := NewReader(strings.NewReader("x"), DefaultLimits())
	if err != nil {
		t.Fatal(err)
	}
	r.Close()
	if _, err := r.Next(); err != ErrClosed {
		t.Fatal(err)
	}
}

func resident() int {
	text, _ := os.ReadFile("/proc/self/statm")
	words := append(strings.Fields(string(text)), "0", "0")
	pages, _ := strconv.Atoi(words[1])
	return pages
}

func TestManyAreMadeAndFreed(t *testing.T) {
	if testing.Short() {
		t.Skip("it is long")
	}
	bytes := unhex(t, options)
	makeAndFree := func(count int) {
		for i := 0; i < count; i++ {
			d, err := NewDecoder(DefaultLimits())
			if err != nil {
				t.Fatal(err)
			}
			if _, n, err := d.Next(bytes[:4]); n != 4 || err != ErrMore {
				t.Fatal(n, err)
			}
			d.Close()
		}
	}
	makeAndFree(1000)
	before := resident()
	makeAndFree(100000)
	if after := resident(); after > before+4000 {
		t.Fatal(before, "pages, then", after)
	}
}

func TestWhatIsLetGoIsFreed(t *testing.T) {
	for i := 0; i < 1000; i++ {
		if _, err := NewDecoder(DefaultLimits()); err != nil {
			t.Fatal(err)
		}
	}
	runtime.GC()
}

func TestContentsLongerThanABuffer(t *testing.T) {
	text := strings.Repeat("abcdefgh", 10000)
	frame := append(unhex(t, "04000000090001388400013880"), text...)
	r, err := NewReader(strings.NewReader(string(frame)), DefaultLimits())
	if err != nil {
		t.Fatal(err)
	}
	defer r.Close()
	for {
		event, err := r.Next()
		if err != nil {
			t.Fatal(err)
		}
		if event.Tag == TagText {
			if string(event.Content) != text {
				t.Fatal(len(event.Content))
			}
			return
		}
	}
}

func TestARealPage(t *testing.T) {
	file, err := os.Open("../pages.bin")
	if err != nil {
		t.Fatal(err)
	}
	defer file.Close()
	r, err := NewReader(file, DefaultLimits())
	if err != nil {
		t.Fatal(err)
	}
	defer r.Close()
	var values []any
	for {
		event, err := r.Next()
		if err == io.EOF {
			break
		}
		if err != nil {
			t.Fatal(err)
		}
		if event.Tag == TagLeaf && event.Level == 0 {
			values = append(values, event.Value())
		}
	}
	var wanted []any
	for i := int64(0); i < 3; i++ {
		wanted = append(wanted, i, i*1000003, fmt.Sprintf("%016d", i), i%2 == 1)
	}
	if !reflect.DeepEqual(values, wanted) {
		t.Fatal(values)
	}
}

func TestValues(t *testing.T) {
	for _, row := range []struct {
		event Event
		value any
	}{
		{Event{Kind: KindBlob, Content: []byte{1}}, []byte{1}},
		{Event{Kind: KindVarint, Content: []byte{0xff, 0x7f}}, big.NewInt(-129)},
		{Event{Kind: KindDecimal, Content: []byte{0x30, 0x39}, Extra: 2}, Decimal{big.NewInt(12345), 2}},
		{Event{Kind: KindFloat, Bytes: [16]byte{0xbe, 0x80}, Octets: 4}, float32(-0.25)},
		{Event{Kind: KindDouble, Bytes: [16]byte{0x3f, 0xf8}, Octets: 8}, 1.5},
		{Event{Kind: KindInet, Bytes: [16]byte{127, 0, 0, 1}, Octets: 4}, net.IP{127, 0, 0, 1}},
		{Event{Kind: KindTimestamp, Number: -1}, time.Date(1969, 12, 31, 23, 59, 59, 999e6, time.UTC)},
		{Event{Kind: KindDate, Number: 1<<31 + 19000}, time.Date(2022, 1, 8, 0, 0, 0, 0, time.UTC)},
		{Event{Kind: KindTime, Number: 1}, time.Nanosecond},
		{Event{Kind: KindUUID, Bytes: [16]byte{1}}, UUID{1}},
	} {
		if value := row.event.Value(); !reflect.DeepEqual(value, row.value) {
			t.Fatal(row.event.Kind, value)
		}
	}
}

// What the names of numbers of a type begin with here, and in the header.
var begins = map[string][2]string{
	"Tag": {"Tag", "TAG"}, "Mark": {"Mark", "MARK"}, "Field": {"Field", "FIELD"}, "Kind": {"Kind", "KIND"}, "Reason": {"Reason", "REASON"},
	"End": {"End", "END"}, "Opcode": {"Opcode", "OPCODE"}, "Code": {"Code", ""}, "Phase": {"Phase", "PHASE"}, "ReplyKind": {"Reply", "REPLY"},
	"ErrorCode": {"Error", "ERROR"}, "ResultKind": {"Result", "RESULT"}, "Consistency": {"Consistency", "CONSISTENCY"},
	"BatchType": {"Batch", "BATCH"}, "Group": {"Group", "GROUP"},
}

func TestNumbersAreThoseOfTheHeader(t *testing.T) {
	header, err := os.ReadFile("../../include/cqlp.h")
	if err != nil {
		t.Fatal(err)
	}
	wanted := map[string]uint64{}
	for _, found := range regexp.MustCompile(`(?m)^#define CQLP_(\w+) (0x[0-9A-F]+|\d+)`).FindAllStringSubmatch(string(header), -1) {
		wanted[strings.ReplaceAll(found[1], "_", "")], _ = strconv.ParseUint(found[2], 0, 64)
	}
	counts := map[string]int{}
	for _, name := range []string{"numbers.go", "groups.go"} {
		source, err := os.ReadFile(name)
		if err != nil {
			t.Fatal(err)
		}
		for _, found := range regexp.MustCompile(`(?m)^\t(\w+) +(\w+) = (0x[0-9a-f]+|\d+)`).FindAllStringSubmatch(string(source), -1) {
			number, err := strconv.ParseUint(found[3], 0, 64)
			begin := begins[found[2]]
			name := strings.ToUpper(begin[1] + strings.TrimPrefix(found[1], begin[0]))
			if there, is := wanted[name]; err != nil || !is || there != number {
				t.Error(found[0], name)
			}
			counts[begin[1]]++
		}
	}
	for begin, count := range counts {
		there := strings.Count(string(header), "#define CQLP_"+begin+"_")
		if begin != "" && begin != "BATCH" && begin != "ERROR" && there != count {
			t.Error(begin, count, there)
		}
	}
	if len(counts) != len(begins) {
		t.Error(counts)
	}
}

// Two small pages, time and again: a page of three rows with four scalars, and one of two rows with a list and a map.
func BenchmarkReader(b *testing.B) {
	pages, err := os.ReadFile("../pages.bin")
	if err != nil {
		b.Fatal(err)
	}
	stream, events := strings.Repeat(string(pages), 1000), 0
	b.SetBytes(int64(len(stream)))
	for i := 0; i < b.N; i++ {
		r, err := NewReader(strings.NewReader(stream), DefaultLimits())
		if err != nil {
			b.Fatal(err)
		}
		for err == nil {
			_, err = r.Next()
			events++
		}
		r.Close()
	}
	b.ReportMetric(float64(events)/float64(b.N), "events/op")
}
