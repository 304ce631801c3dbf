//go:build cgo

package cqlp

import (
	"bytes"
	"database/sql"
	"errors"
	"fmt"
	"io"
	"math"
	"math/big"
	"net"
	"net/netip"
	"os"
	"reflect"
	"strings"
	"testing"
	"time"
)

func rowReader(t *testing.T, source io.Reader) *RowReader {
	t.Helper()
	r, err := NewRowReader(source, DefaultLimits())
	if err != nil {
		t.Fatal(err)
	}
	t.Cleanup(func() { r.Close() })
	return r
}

// rowsOf are the values of all rows.
func rowsOf(t *testing.T, r *RowReader) (rows [][]any) {
	t.Helper()
	for r.Next() {
		rows = append(rows, r.Values())
	}
	return rows
}

func TestScanOfPages(t *testing.T) {
	pages, err := os.ReadFile("../pages.bin")
	if err != nil {
		t.Fatal(err)
	}
	for size := 1; size < 700; size += 1 + size/3 {
		r := rowReader(t, pieces(pages, size))
		for i := 0; i < 3; i++ {
			var a int32
			var b int64
			var c string
			var d bool
			if !r.Next() {
				t.Fatal(r.Err())
			}
			if err := r.Scan(&a, &b, &c, &d); err != nil {
				t.Fatal(err)
			}
			if a != int32(i) || b != int64(i)*1000003 || c != fmt.Sprintf("%016d", i) || d != (i%2 == 1) || r.Page().Number != 1 {
				t.Fatal(a, b, c, d)
			}
		}
		for i := 0; i < 2; i++ {
			var list []int
			var pairs map[string]int8
			if !r.Next() {
				t.Fatal(r.Err())
			}
			if err := r.Scan(&list, &pairs); err != nil {
				t.Fatal(err)
			}
			if len(list) != 8 || list[7] != i+7 || len(pairs) != 3 || pairs[fmt.Sprintf("%016d", i+2)] != 2 || r.Page().Number != 2 {
				t.Fatal(list, pairs)
			}
		}
		if r.Next() || r.Err() != nil || r.Next() {
			t.Fatal(r.Err())
		}
	}
}

// onePage is a page with one row.
func onePage(t *testing.T, types []Type, values ...any) []byte {
	t.Helper()
	m := &Rows{Rows: [][]any{values}}
	for i, typ := range types {
		m.Metadata.Columns = append(m.Metadata.Columns, Column{"k", "t", fmt.Sprint("c", i), typ})
	}
	b, err := AppendMessage(nil, 0, m)
	if err != nil {
		t.Fatal(err)
	}
	return b
}

// lenientRow reads the one row of a page.
func lenientRow(t *testing.T, page []byte) *RowReader {
	t.Helper()
	r, err := NewLenientRowReader(bytes.NewReader(page), DefaultLimits())
	if err != nil {
		t.Fatal(err)
	}
	t.Cleanup(func() { r.Close() })
	if !r.Next() {
		t.Fatal(r.Err())
	}
	return r
}

func TestScanOfAContentThatItsTypeDoesNotHave(t *testing.T) {
	// a bigint of the digits 123, an inet of five bytes, a time of 24 hours, a text with a surrogate, a list of an int of three bytes
	row := "840000010800000063 00000002 00000001 00000005 0001 6b 0001 74 0001 61 0002 0001 62 0010 0001 63 0012 0001 64 000d 0001 65 0020 0009 00000001" +
		"00000003 313233 00000005 7f00000102 00000008 00004e94914f0000 00000003 eda080 0000000b 00000001 00000003 313233"
	page := unhex(t, row)
	if r := rowReader(t, bytes.NewReader(page)); r.Next() || r.Err() == nil {
		t.Fatal("it is refused")
	}
	r := lenientRow(t, page)
	wanted := []any{[]byte("123"), []byte("\x7f\x00\x00\x01\x02"), []byte("\x00\x00\x4e\x94\x91\x4f\x00\x00"), []byte("\xed\xa0\x80"), []any{[]byte("123")}}
	if found := r.Values(); !reflect.DeepEqual(found, wanted) {
		t.Fatal(found)
	}
	var some any
	var raw RawBytes
	var octets []byte
	var words, list = "", [][]byte(nil)
	if err := r.Scan(&some, &raw, &octets, &words, &list); err != nil {
		t.Fatal(err)
	}
	if !reflect.DeepEqual([]any{some, []byte(raw), octets, []byte(words), []any{list[0]}}, wanted) {
		t.Fatal(some, raw, octets, words, list)
	}
	for _, to := range []any{
		new(int), new(int64), new(int32), new(int8), new(uint16), new(bool), new(float64), new(*int64), new(big.Int), new(sql.NullInt64),
		new(sql.NullFloat64), new(sql.NullBool), new(time.Time), new(UUID), new(net.IP), new(netip.Addr), new(Decimal), new([]int),
	} {
		for column := 0; column < 3; column++ {
			pointers := make([]any, 5)
			pointers[column] = to
			var failed *ScanError
			if err := r.Scan(pointers...); !errors.As(err, &failed) || failed.Column != column || !strings.Contains(err.Error(), "raw does not go into") {
				t.Fatalf("%T: %v", to, err)
			}
		}
	}
	if err := r.Scan(nil, nil, nil, nil, new([]int64)); err == nil {
		t.Fatal("digits are no number")
	}
	var text sql.NullString
	if err := r.Scan(nil, nil, nil, &text, nil); err != nil || text.String != "\xed\xa0\x80" {
		t.Fatal(text, err)
	}
}

func TestScanOfBytesAfterTheLastField(t *testing.T) {
	// a tuple of an int, a UDT of a field a, and a UDT without fields; each with bytes more; and a bigint of a type that no kind has
	row := "840000010800000067 00000002 00000001 00000004 0001 6b 0001 74 0001 61 0031 0001 0009 0001 62 0030 0001 6b 0001 75 0001 0001 61 0009" +
		"0001 63 0030 0001 6b 0001 76 0000 0001 64 0015 00000001" +
		"0000000b 00000004 00000007 010203 00000006 ffffffff 0405 00000001 06 00000002 3132"
	page := unhex(t, row)
	r := lenientRow(t, page)
	wanted := []any{
		[]any{int64(7), []byte{1, 2, 3}}, []NamedValue{{"a", nil}, {"", []byte{4, 5}}}, []NamedValue{{"", []byte{6}}}, []byte("12"),
	}
	if found := r.Values(); !reflect.DeepEqual(found, wanted) {
		t.Fatalf("%#v", found)
	}
	var items []any
	var fields map[string]any
	var named []NamedValue
	var raw []byte
	if err := r.Scan(&items, &fields, &named, &raw); err != nil {
		t.Fatal(err)
	}
	if !reflect.DeepEqual([]any{items, named, raw}, []any{wanted[0], wanted[2], wanted[3]}) {
		t.Fatal(items, named, raw)
	}
	if !reflect.DeepEqual(fields, map[string]any{"a": nil, "": []byte{4, 5}}) {
		t.Fatal(fields)
	}
	for column, to := range []any{new([]int64), new(map[string]*int64), new(map[string]int64), new(int64)} {
		pointers := make([]any, 4)
		pointers[column] = to
		if err := r.Scan(pointers...); err == nil {
			t.Fatalf("%T has no place for bytes", to)
		}
	}
	frames, err := NewLenientFrames(bytes.NewReader(page), DefaultLimits())
	if err != nil {
		t.Fatal(err)
	}
	defer frames.Close()
	frame, err := frames.Next()
	if err != nil || !reflect.DeepEqual(frame.Message.(*Rows).Rows, [][]any{wanted}) {
		t.Fatal(frame, err)
	}
	if _, err := NewLenientRowReader(bytes.NewReader(page), Limits{}); err == nil {
		t.Fatal("limits of 0 are out of their ranges")
	}
	if _, err := NewLenientFrames(bytes.NewReader(page), Limits{}); err == nil {
		t.Fatal("limits of 0 are out of their ranges")
	}
}

// bound is a value that goes into its type.
func bound(t *testing.T, typ Type, value any) Value {
	t.Helper()
	v, err := Bind(typ, value)
	if err != nil {
		t.Fatal(err)
	}
	return v
}

func TestBind(t *testing.T) {
	number, word := Type{Kind: KindInt}, Type{Kind: KindVarchar}
	udt := Type{Kind: KindUDT, Names: []string{"x", "y"}, Inner: []Type{number, word}}
	pairs := Type{Kind: KindMap, Inner: []Type{word, {Kind: KindList, Inner: []Type{number}}}}
	seven := int8(7)
	for _, row := range []struct {
		typ    Type
		value  any
		wanted string
	}{
		{number, uint16(7), "00000007"}, {number, &seven, "00000007"}, {Type{Kind: KindTinyint}, -128, "80"}, {Type{Kind: KindVarint}, 255, "00ff"},
		{Type{Kind: KindVarint}, -129, "ff7f"}, {Type{Kind: KindVarint}, 0, "00"}, {word, []byte("a"), "61"}, {Type{Kind: KindBlob}, "a", "61"},
		{Type{Kind: KindTimestamp}, 1, "0000000000000001"}, {Type{Kind: KindTime}, time.Second, "000000003b9aca00"},
		{pairs, map[string][]int{"a": {1}}, "00000001 00000001 61 0000000c 00000001 00000004 00000001"},
		{udt, map[string]any{"y": "b"}, "ffffffff 00000001 62"}, {udt, []NamedValue{{"x", 1}}, "00000004 00000001"},
		{Type{Kind: KindTuple, Inner: []Type{number, word}}, []any{nil, "b"}, "ffffffff 00000001 62"}, {word, "", ""},
		{Type{Kind: KindFloat}, 0.5, "3f000000"}, {number, Empty{}, ""},
	} {
		if v := bound(t, row.typ, row.value); !bytes.Equal(v.Bytes, unhex(t, row.wanted)) || v.Bytes == nil || v.Unset {
			t.Errorf("%v %v: %x", row.typ, row.value, v.Bytes)
		}
	}
	for _, value := range []any{nil, (*int)(nil), []byte(nil), Value{}} {
		if v := bound(t, number, value); v.Bytes != nil || v.Unset {
			t.Error(value, v)
		}
	}
	if v := bound(t, number, Value{Unset: true}); !v.Unset {
		t.Error(v)
	}
	for _, row := range []struct {
		typ   Type
		value any
	}{
		{number, int64(1) << 31}, {number, "1"}, {number, 1.5}, {word, 1}, {Type{Kind: KindBoolean}, 1}, {Type{Kind: KindUUID}, "a"},
		{udt, map[string]any{"z": 1}}, {udt, []any{1}}, {udt, []NamedValue{{}, {}, {}}}, {Type{Kind: KindList}, []int{1}}, {pairs, []int{1}},
		{Type{Kind: KindInet}, net.IP{1}}, {Type{Kind: KindInet}, netip.Addr{}}, {Type{Kind: KindDate}, 1}, {Type{Kind: KindDecimal}, Decimal{}},
		{Type{Kind: KindList, Inner: []Type{number}}, []string{"a"}}, {Type{Kind: KindVarint}, "1"}, {number, uint64(1) << 63},
	} {
		if v, err := Bind(row.typ, row.value); err == nil {
			t.Errorf("%v %v: %x", row.typ, row.value, v.Bytes)
		}
	}
}

type celsius float64

// Each value that Bind makes is read again, in all forms that it goes into.
func TestScanOfScalars(t *testing.T) {
	day, moment := time.Date(2022, 1, 8, 0, 0, 0, 0, time.UTC), time.UnixMilli(-1).UTC()
	huge, _ := new(big.Int).SetString("-170141183460469231731687303715884105729", 10)
	four := netip.MustParseAddr("127.0.0.1")
	text := "a"
	for _, row := range []struct {
		kind   Kind
		value  any
		wanted []any
	}{
		{KindTinyint, int8(-1), []any{int8(-1), int64(-1), -1, *big.NewInt(-1), sql.NullInt64{Int64: -1, Valid: true}}},
		{KindSmallint, int16(-300), []any{int16(-300), int32(-300)}},
		{KindInt, int32(1 << 20), []any{int32(1 << 20), uint32(1 << 20), uint64(1 << 20), any(int64(1 << 20))}},
		{KindBigint, int64(math.MinInt64), []any{int64(math.MinInt64)}},
		{KindCounter, int64(7), []any{uint8(7), uint(7)}},
		{KindBoolean, true, []any{true, sql.NullBool{Bool: true, Valid: true}}},
		{KindFloat, float32(-0.1), []any{float32(-0.1), float64(float32(-0.1))}},
		{KindDouble, 0.25, []any{0.25, float32(0.25), celsius(0.25)}},
		{KindVarchar, "a", []any{"a", []byte("a"), RawBytes("a"), &text, sql.NullString{String: "a", Valid: true}, any("a")}},
		{KindASCII, "a", []any{"a"}},
		{KindBlob, []byte{0, 255}, []any{[]byte{0, 255}, RawBytes{0, 255}, any([]byte{0, 255})}},
		{KindTimestamp, moment, []any{moment, int64(-1), any(moment), sql.NullTime{Time: moment, Valid: true}}},
		{KindDate, day, []any{day}},
		{KindDate, time.Date(1969, 12, 31, 23, 0, 0, 0, time.UTC), []any{time.Date(1969, 12, 31, 0, 0, 0, 0, time.UTC)}},
		{KindTime, time.Nanosecond, []any{time.Nanosecond, int64(1)}},
		{KindUUID, UUID{1}, []any{UUID{1}, [16]byte{1}}},
		{KindTimeUUID, UUID{6: 0x10}, []any{UUID{6: 0x10}}},
		{KindInet, four, []any{four, net.IP{127, 0, 0, 1}}},
		{KindInet, net.ParseIP("::1"), []any{netip.MustParseAddr("::1")}},
		{KindVarint, huge, []any{huge, *huge}},
		{KindVarint, big.NewInt(-128), []any{int8(-128), big.NewInt(-128)}},
		{KindVarint, big.NewInt(128), []any{uint8(128)}},
		{KindDecimal, Decimal{big.NewInt(-12345), 2}, []any{Decimal{big.NewInt(-12345), 2}}},
	} {
		r := rowReader(t, bytes.NewReader(onePage(t, []Type{{Kind: row.kind}}, row.value)))
		if !r.Next() {
			t.Fatal(row, r.Err())
		}
		for _, wanted := range row.wanted {
			to := reflect.New(reflect.TypeOf(wanted))
			if err := r.Scan(to.Interface()); err != nil || !reflect.DeepEqual(to.Elem().Interface(), wanted) {
				t.Errorf("%v: %v, and not %v: %v", row.kind, to.Elem(), wanted, err)
			}
			pointer := reflect.New(to.Type())
			if err := r.Scan(pointer.Interface()); err != nil || !reflect.DeepEqual(pointer.Elem().Elem().Interface(), wanted) {
				t.Errorf("%v: %v, and not %v: %v", row.kind, pointer.Elem(), wanted, err)
			}
		}
		var found any
		if err := r.Scan(&found); err != nil || !reflect.DeepEqual(found, r.Values()[0]) {
			t.Error(row.kind, found, err)
		}
	}
}

func TestScanThatFails(t *testing.T) {
	types := []Type{{Kind: KindInt}, {Kind: KindInt}, {Kind: KindInt}, {Kind: KindVarchar}, {Kind: KindDouble}, {Kind: KindVarchar}}
	row := []any{nil, Empty{}, 300, "a", 0.1, ""}
	r := rowReader(t, bytes.NewReader(onePage(t, types, row...)))
	if !r.Next() {
		t.Fatal(r.Err())
	}
	if values := r.Values(); !reflect.DeepEqual(values, []any{nil, Empty{}, int64(300), "a", 0.1, ""}) {
		t.Fatal(values)
	}
	for _, row := range []struct {
		column int
		to     any
		wanted error
	}{
		{0, new(int32), ErrNull},
		{0, new(string), ErrNull},
		{1, new(int), ErrEmpty},
		{2, new(int8), ErrRange},
		{2, new(uint8), ErrRange},
		{2, new(string), nil},
		{2, new(bool), nil},
		{3, new(int), nil},
		{3, "no pointer", nil},
		{3, (*string)(nil), nil},
		{3, new(chan int), nil},
		{3, new([]int), nil},
		{4, new(float32), ErrRange},
		{4, new(int64), nil},
		{5, new(UUID), nil},
	} {
		to := make([]any, 6)
		to[row.column] = row.to
		err := r.Scan(to...)
		var bad *ScanError
		if !errors.As(err, &bad) || bad.Column != row.column || row.wanted != nil && !errors.Is(err, row.wanted) {
			t.Errorf("%d into %T: %v", row.column, row.to, err)
		}
	}
	if err := r.Scan(new(int)); err == nil {
		t.Error("one pointer for six columns")
	}
	none, slice, text := new(int), []byte("x"), "x"
	if err := r.Scan(&none, nil, nil, nil, nil, &text); err != nil || none != nil || text != "" {
		t.Error(none, text, err)
	}
	if err := r.Scan(&slice, nil, nil, nil, nil, nil); err != nil || slice != nil {
		t.Error(slice, err)
	}
}

// cellOf is a cell, or an item, with its length in front.
func cellOf(content string) string { return long(len(content)) + content }

func TestScanOfWhatHasItems(t *testing.T) {
	number, word := Type{Kind: KindInt}, Type{Kind: KindVarchar}
	udt := Type{Kind: KindUDT, Keyspace: "k", Name: "u", Names: []string{"x", "y", "z"}, Inner: []Type{number, number, word}}
	types := []Type{
		{Kind: KindList, Inner: []Type{{Kind: KindSet, Inner: []Type{number}}}},
		{Kind: KindMap, Inner: []Type{{Kind: KindBlob}, word}},
		{Kind: KindTuple, Inner: []Type{number, word}},
		udt,
	}
	set := long(2) + cellOf(long(1)) + cellOf(long(2))
	row := []any{
		Value{Bytes: []byte(long(2) + cellOf(set) + cellOf(long(0)))},
		Value{Bytes: []byte(long(1) + cellOf("\xff") + cellOf("v"))},
		Value{Bytes: []byte(cellOf(long(3)))},
		Value{Bytes: []byte(cellOf(long(4)) + long(-1))},
	}
	stream := onePage(t, types, row...)
	for size := 1; size <= len(stream); size++ {
		r := rowReader(t, pieces(stream, size))
		if !r.Next() {
			t.Fatal(r.Err())
		}
		wanted := []any{
			[]any{[]any{int64(1), int64(2)}, []any{}},
			[]Pair{{[]byte{0xff}, "v"}},
			[]any{int64(3), nil},
			[]NamedValue{{"x", int64(4)}, {"y", nil}, {"z", nil}},
		}
		if values := r.Values(); !reflect.DeepEqual(values, wanted) {
			t.Fatal(size, values)
		}
		var lists [][]int16
		var pairs []Pair
		var texts map[string]string
		var tuple []any
		var fields map[string]*int
		if err := r.Scan(&lists, &pairs, &tuple, &fields); err != nil {
			t.Fatal(err)
		}
		if err := r.Scan(nil, &texts, nil, nil); err != nil || texts["\xff"] != "v" {
			t.Fatal(texts, err)
		}
		if !reflect.DeepEqual(lists, [][]int16{{1, 2}, {}}) || len(pairs) != 1 || tuple[0] != int64(3) || *fields["x"] != 4 || fields["y"] != nil {
			t.Fatal(lists, pairs, tuple, fields)
		}
		var keys map[any]string
		if err := r.Scan(nil, &keys, nil, nil); err == nil {
			t.Fatal("a blob is no key of a map")
		}
		var words [][]string
		if err := r.Scan(&words, nil, nil, nil); err == nil {
			t.Fatal(words)
		}
	}
}

func TestWhatIsNoPageIsPassedOver(t *testing.T) {
	one := onePage(t, []Type{{Kind: KindInt}}, int32(1))
	none, err := AppendMessage(nil, 3, &Rows{Metadata: Metadata{Columns: []Column{{Type: Type{Kind: KindInt}}}, PagingState: []byte("s")}})
	if err != nil {
		t.Fatal(err)
	}
	stream := bytes.Join([][]byte{unhex(t, options), one, responseOf(OpcodeResult, 0, long(1)), none, unhex(t, next)}, nil)
	r := rowReader(t, bytes.NewReader(stream))
	if rows := rowsOf(t, r); !reflect.DeepEqual(rows, [][]any{{int64(1)}, {int64(9)}}) || r.Err() != nil {
		t.Fatal(rows, r.Err())
	}
	r = rowReader(t, bytes.NewReader(stream))
	var states []string
	for r.NextPage() {
		states = append(states, string(r.Page().Metadata.PagingState))
	}
	if !reflect.DeepEqual(states, []string{"", "s", ""}) || r.Page().Stream != 6 || r.Columns()[0].Name != "a" {
		t.Fatal(states, r.Page())
	}
}

func TestRowsOfRefusedPages(t *testing.T) {
	stream := unhex(t, badPage+next)
	r := rowReader(t, bytes.NewReader(stream))
	var refusal *Refusal
	if rows := rowsOf(t, r); len(rows) != 1 || !errors.As(r.Err(), &refusal) {
		t.Fatal(rows, r.Err())
	}
	r = rowReader(t, bytes.NewReader(stream[:40]))
	if rows := rowsOf(t, r); len(rows) != 0 || !errors.Is(r.Err(), io.ErrUnexpectedEOF) {
		t.Fatal(rows, r.Err())
	}
	for size := 1; size <= len(stream); size++ {
		r = rowReader(t, pieces(stream, size))
		passed := 0
		r.Skip = func(Skipped) { passed++ }
		if rows := rowsOf(t, r); !reflect.DeepEqual(rows, [][]any{{int64(7)}, {int64(9)}}) || passed != 1 || r.Err() != nil {
			t.Fatal(size, rows, passed, r.Err())
		}
	}
}

// A result of PREPARE, and pages of its columns, with metadata and without, as the tests of Python have them.
const (
	preparedTypes = "84000001080000002d 00000004 000170 000000000000000000000000 0000000100000002 00016b 000174 0001610009 000162 0020 000d"
	bare          = "840000020800000025 00000002 00000004 00000002 00000001 0000000400000007 00000009000000010000000178"
	typedPage     = "840000020800000023 00000002 00000001 00000001 00016b 000174 0001630009 00000001 0000000400000009"
	wide          = "84000002080000001c 00000002 00000004 00000003 00000001 ffffffffffffffff 00000000"
	badBare       = "84000002080000001b 00000002 00000004 00000002 00000001 00000003000007 00000000"
)

// typesOf are those of the result of PREPARE.
func typesOf(t *testing.T) *Types {
	t.Helper()
	f, err := NewFrames(bytes.NewReader(unhex(t, preparedTypes+bare)), DefaultLimits())
	if err != nil {
		t.Fatal(err)
	}
	defer f.Close()
	frame, err := f.Next()
	if err != nil {
		t.Fatal(err)
	}
	types, err := f.TypesOf()
	if err != nil {
		t.Fatal(err)
	}
	types.Columns = frame.Message.(*Prepared).Result.Columns
	t.Cleanup(func() { types.Close() })
	return types
}

func TestGivenTypes(t *testing.T) {
	typed, raw := []any{int64(7), []any{"x"}}, []any{[]byte{0, 0, 0, 7}, []byte{0, 0, 0, 1, 0, 0, 0, 1, 'x'}}
	if rows := rowsOf(t, rowReader(t, bytes.NewReader(unhex(t, bare)))); !reflect.DeepEqual(rows, [][]any{raw}) {
		t.Fatal(rows)
	}
	stream := unhex(t, bare+typedPage+preparedTypes+bare+wide+bare)
	wanted := [][]any{typed, {int64(9)}, typed, {nil, nil, []byte{}}, typed}
	types := typesOf(t)
	for size := 1; size < 60; size++ {
		r := rowReader(t, pieces(stream, size))
		r.Types = func(frame Event) *Types {
			if frame.Extra != 2 {
				return nil
			}
			return types
		}
		if rows := rowsOf(t, r); !reflect.DeepEqual(rows, wanted) || r.Err() != nil {
			t.Fatal(size, rows, r.Err())
		}
		if columns := r.Columns(); len(columns) != 2 || columns[1].Name != "b" || columns[1].Type.String() != "list<varchar>" {
			t.Fatal(columns)
		}
	}
}

func TestTypesThatAreNotTaken(t *testing.T) {
	for _, row := range []struct {
		limits func(*Limits)
		code   Code
	}{
		{func(l *Limits) { l.Types = false }, CodeOff},
		{func(l *Limits) { l.Entries = 2 }, CodeTooMany},
		{func(l *Limits) { l.Depth = 1 }, CodeTooDeep},
	} {
		limits, types := DefaultLimits(), typesOf(t)
		row.limits(&limits)
		r, err := NewReader(bytes.NewReader(unhex(t, bare)), limits)
		if err != nil {
			t.Fatal(err)
		}
		r.Types = func(Event) *Types { return types }
		if _, err := r.Next(); !errors.Is(err, row.code) {
			t.Fatal(err)
		}
		r.Close()
	}
}

func TestTypesStepByStep(t *testing.T) {
	d, types := decoder(t, DefaultLimits()), typesOf(t)
	for i := 0; i < 3; i++ {
		if err := d.Give(types); err != nil {
			t.Fatal(err)
		}
		if err := d.Give(types); err != CodeNoTypes {
			t.Fatal(err)
		}
		lines := linesOf(t, d, unhex(t, bare))
		if all := strings.Join(lines, "|"); !strings.Contains(all, "Leaf 0 0 0 7|") || !strings.Contains(all, "Leaf 0 1 1 \"x\"|") {
			t.Fatal(all)
		}
		if err := d.TakeGiven(types); err != nil {
			t.Fatal(err)
		}
		if err := d.TakeGiven(types); err != CodeInUse {
			t.Fatal(err)
		}
	}
	var other Types
	if err := d.TakeGiven(&other); err != CodeNoTypes {
		t.Fatal(err)
	}
	if err := d.Give(&other); err != CodeNoTypes {
		t.Fatal(err)
	}
	linesOf(t, d, unhex(t, bare)[:30])
	if err := d.Give(types); err != nil {
		t.Fatal(err)
	}
	types.Close()
	other.Close()
	d.Close()
	if _, err := d.TypesOf(); err != ErrClosed {
		t.Fatal(err)
	}
	if err := d.Give(types); err != ErrClosed {
		t.Fatal(err)
	}
	if err := d.TakeGiven(types); err != ErrClosed {
		t.Fatal(err)
	}
}

// A table is there again after a page that is refused, passed over or not, and where the reader is closed after a page.
func TestTypesOfPagesThatAreRefused(t *testing.T) {
	types := typesOf(t)
	given := func(stream string, skip func(Skipped)) *RowReader {
		r := rowReader(t, bytes.NewReader(unhex(t, stream)))
		r.Types, r.Skip = func(Event) *Types { return types }, skip
		return r
	}
	var refusal *Refusal
	if r := given(badBare, nil); r.Next() || !errors.As(r.Err(), &refusal) {
		t.Fatal(r.Err())
	}
	r := given(badBare+badBare+bare, func(Skipped) {})
	if rows := rowsOf(t, r); len(rows) != 1 || r.Err() != nil {
		t.Fatal(rows, r.Err())
	}
	r = given(bare, nil)
	if !r.Next() {
		t.Fatal(r.Err())
	}
	r.Close()
	if rows := rowsOf(t, given(bare, nil)); len(rows) != 1 {
		t.Fatal(rows)
	}
	r = given(bare[:78], nil)
	if r.Next() || !errors.Is(r.Err(), io.ErrUnexpectedEOF) {
		t.Fatal(r.Err())
	}
	r.Close()
	if r := given(bare, nil); r.Next() || r.Err() != CodeNoTypes {
		t.Fatal(r.Err())
	}
}

func TestWhatARowHolds(t *testing.T) {
	word := strings.Repeat("x", 70000)
	typ := []Type{{Kind: KindVarchar}, {Kind: KindVarchar}, {Kind: KindVarchar}}
	stream := onePage(t, typ, word, "y", word)
	for _, size := range []int{1000, 65536, 1 << 20} {
		r := rowReader(t, pieces(stream, size))
		var a, b, c string
		if !r.Next() || r.Scan(&a, &b, &c) != nil || a != word || b != "y" || c != word {
			t.Fatal(len(a), b, len(c), r.Err())
		}
	}
}

func TestPartsOfAValue(t *testing.T) {
	blob := bytes.Repeat([]byte("0123456789"), 50)
	limits := DefaultLimits()
	limits.Cell, limits.Parts = 32, true
	for _, size := range []int{1, 7, 1 << 16} {
		r, err := NewRowReader(pieces(onePage(t, []Type{{Kind: KindBlob}}, blob), size), limits)
		if err != nil {
			t.Fatal(err)
		}
		var found []byte
		if !r.Next() || r.Scan(&found) != nil || !bytes.Equal(found, blob) || !reflect.DeepEqual(r.Values(), []any{blob}) {
			t.Fatal(found, r.Err())
		}
		r.Close()
	}
}
