package cqlp

import (
	"encoding/binary"
	"encoding/hex"
	"fmt"
	"math"
	"math/big"
	"net"
	"strings"
	"time"
)

// An Event is what include/cqlp.h says of cqlp_event. What its tag has no use for is 0, or empty.
type Event struct {
	// At is the offset in the stream of the event's field; an end's is the frame's end.
	At     uint64
	Tag    Tag
	Field  Field
	Kind   Kind
	Opcode Opcode
	Flags  uint8
	Mark   Mark
	// Octets is how many of Bytes are the event's: 4, 8 or 16.
	Octets uint8
	// Bytes is a uuid, an address or a binary number, in the order of the stream, and zeros after it.
	Bytes [16]byte
	// Number is a value, a count, how many items, an offset, or how many bytes.
	Number             int64
	Row, Column, Level uint32
	// Extra is a stream id, a port, or a scale.
	Extra int32
	// Content lives until the next call of Next.
	Content []byte
}

// A UUID is 16 bytes, whose String has hyphens.
type UUID [16]byte

// String is lower case, with hyphens.
func (u UUID) String() string {
	return fmt.Sprintf("%x-%x-%x-%x-%x", u[:4], u[4:6], u[6:8], u[8:10], u[10:])
}

// A Decimal is Unscaled / 10^Scale.
type Decimal struct {
	Unscaled *big.Int
	Scale    int32
}

// String is the unscaled number, e, and the negated scale.
func (d Decimal) String() string { return fmt.Sprintf("%ve%d", d.Unscaled, -int64(d.Scale)) }

// Value is a scalar as a value of Go, which lives on: an int64, bool, string, []byte, float32, float64, *big.Int, Decimal, UUID,
// net.IP; a timestamp and a date as a time.Time in UTC, a time as a time.Duration since midnight.
func (e *Event) Value() any {
	switch e.Kind {
	case KindBigint, KindCounter, KindInt, KindSmallint, KindTinyint:
		return e.Number
	case KindBoolean:
		return e.Number != 0
	case KindASCII, KindVarchar:
		return string(e.Content)
	case KindFloat:
		return math.Float32frombits(binary.BigEndian.Uint32(e.Bytes[:]))
	case KindDouble:
		return math.Float64frombits(binary.BigEndian.Uint64(e.Bytes[:]))
	case KindVarint:
		return varint(e.Content)
	case KindDecimal:
		return Decimal{varint(e.Content), e.Extra}
	case KindUUID, KindTimeUUID:
		return UUID(e.Bytes)
	case KindInet:
		return e.address()
	case KindTimestamp:
		return time.UnixMilli(e.Number).UTC()
	case KindDate:
		return time.Unix(e.days()*86400, 0).UTC()
	case KindTime:
		return time.Duration(e.Number)
	}
	return clone(e.Content)
}

// Text is a scalar as cqlp rows writes it.
func (e *Event) Text() string {
	switch e.Kind {
	case KindBigint, KindCounter, KindInt, KindSmallint, KindTinyint, KindTimestamp:
		return fmt.Sprint(e.Number)
	case KindBoolean:
		return fmt.Sprint(e.Number != 0)
	case KindASCII, KindVarchar:
		return quoted(e.Content)
	case KindFloat, KindDouble:
		return hexed(e.Bytes[:e.Octets])
	case KindVarint:
		return varintText(e.Content)
	case KindDecimal:
		return fmt.Sprintf("%se%d", varintText(e.Content), -int64(e.Extra))
	case KindUUID, KindTimeUUID:
		return UUID(e.Bytes).String()
	case KindInet:
		return e.addressText()
	case KindTime:
		seconds := e.Number / 1e9
		return fmt.Sprintf("%02d:%02d:%02d.%09d", seconds/3600, seconds/60%60, seconds%60, e.Number%1e9)
	case KindDate:
		if days := e.days(); days < -719528 || days > 2932896 {
			return fmt.Sprintf("day %d", days)
		}
		return e.Value().(time.Time).Format("2006-01-02")
	}
	return hexed(e.Content)
}

// String is the line that cqlp show writes of it, without the byte at its end.
func (e *Event) String() string {
	return strings.TrimRight(fmt.Sprintf("%d %v %s", e.At, e.Tag, e.words()), " ")
}

// words are what follows the tag in a line.
func (e *Event) words() string {
	place := fmt.Sprintf("%d %d %d", e.Row, e.Column, e.Level)
	switch e.Tag {
	case TagFrame:
		return fmt.Sprintf("%s %02x %d %v %d", e.direction(), e.Flags, e.Extra, e.Opcode, e.Number)
	case TagByte, TagShort, TagInt, TagLong, TagCount:
		return fmt.Sprintf("%v %d", e.Field, e.Number)
	case TagUUID:
		return fmt.Sprintf("%v %v", e.Field, UUID(e.Bytes))
	case TagText:
		return fmt.Sprintf("%v %s", e.Field, quoted(e.Content))
	case TagBytes, TagBound:
		return fmt.Sprintf("%v %s", e.Field, e.lent())
	case TagInet:
		return fmt.Sprintf("%v %s %d", e.Field, e.addressText(), e.Extra)
	case TagTypeNode:
		return e.Kind.String()
	case TagLeaf:
		return place + " " + e.Text()
	case TagNull, TagEmpty:
		return place
	case TagEnter:
		return fmt.Sprintf("%s %v %d", place, e.Kind, e.Number)
	case TagLeave:
		return fmt.Sprintf("%d %d", e.Level, e.Number)
	case TagPart:
		return fmt.Sprintf("%s %d %s %s", place, e.Number, e.more(), hexed(e.Content))
	case TagEnd:
		return fmt.Sprint(e.Number)
	}
	return ""
}

func (e *Event) direction() string {
	if e.Mark == MarkResponse {
		return "response"
	}
	return "request"
}

func (e *Event) more() string {
	if e.Mark == MarkLast {
		return "last"
	}
	return "more"
}

// lent is bytes, or that there are none.
func (e *Event) lent() string {
	if e.Mark == MarkNone {
		return hexed(e.Content)
	}
	return e.Mark.String()
}

// days are counted from 1970.
func (e *Event) days() int64 { return e.Number - 1<<31 }

func (e *Event) address() net.IP { return append(net.IP(nil), e.Bytes[:e.Octets]...) }

// addressText is never shortened.
func (e *Event) addressText() string {
	if e.Octets == 4 {
		return e.address().String()
	}
	groups := make([]string, 8)
	for i := range groups {
		groups[i] = hex.EncodeToString(e.Bytes[2*i : 2*i+2])
	}
	return strings.Join(groups, ":")
}

func hexed(b []byte) string { return "0x" + hex.EncodeToString(b) }

// quoted is a text between quotation marks, with what would not print escaped.
func quoted(content []byte) string {
	var text strings.Builder
	text.WriteByte('"')
	for _, b := range content {
		switch {
		case b == '"' || b == '\\':
			text.Write([]byte{'\\', b})
		case b < 0x20 || b == 0x7f:
			fmt.Fprintf(&text, "\\x%02x", b)
		default:
			text.WriteByte(b)
		}
	}
	text.WriteByte('"')
	return text.String()
}

// varint is a number in two's complement, the highest byte first.
func varint(content []byte) *big.Int {
	number := new(big.Int).SetBytes(content)
	if len(content) > 0 && content[0] >= 0x80 {
		number.Sub(number, new(big.Int).Lsh(big.NewInt(1), uint(8*len(content))))
	}
	return number
}

// varintText is in decimal where it has at most 16 bytes.
func varintText(content []byte) string {
	if len(content) > 16 {
		return hexed(content)
	}
	return varint(content).String()
}

// hasContent says whether the content is one of those that the library takes.
func (e *Event) hasContent() bool {
	switch e.Tag {
	case TagText:
		return true
	case TagBytes, TagBound:
		return e.Mark == MarkNone
	case TagLeaf:
		switch e.Kind {
		case KindCustom, KindASCII, KindBlob, KindDecimal, KindVarchar, KindVarint, KindRaw:
			return true
		}
	}
	return false
}
