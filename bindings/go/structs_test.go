//go:build cgo

package cqlp

import (
	"bytes"
	"database/sql"
	"errors"
	"fmt"
	"math/big"
	"net/netip"
	"reflect"
	"testing"
	"time"
)

type key [16]byte

type street struct {
	Name  string   `cqlp:"name"`
	House *int32   `cqlp:"house"`
	Tags  []string `cqlp:"tags"`
	Note  string
}

type dates struct {
	Created time.Time `cqlp:"created"`
	Born    time.Time `cqlp:"born"`
}

type person struct {
	dates
	ID      key               `cqlp:"id"`
	Other   [16]byte          `cqlp:"other"`
	Name    *string           `cqlp:"name"`
	Age     uint8             `cqlp:"age"`
	Scores  map[string]int64  `cqlp:"scores"`
	Words   []string          `cqlp:"words"`
	Home    street            `cqlp:"home"`
	Former  []street          `cqlp:"former"`
	Address netip.Addr        `cqlp:"address"`
	Number  big.Int           `cqlp:"number"`
	Nick    sql.NullString    `cqlp:"nick"`
	Any     any               `cqlp:"any"`
	Fields  map[string]string `cqlp:"fields"`
	Seen    time.Duration     `cqlp:"seen"`
	Left    int               `cqlp:"-"`
	Plain   int
}

var streetType = Type{
	Kind:  KindUDT,
	Names: []string{"name", "house", "tags", "more"},
	Inner: []Type{{Kind: KindVarchar}, {Kind: KindInt}, typeOf(KindSet, Type{Kind: KindVarchar}), {Kind: KindInt}},
}

// A cellOfRow is a column with its name and the value of its only cell.
type cellOfRow struct {
	name  string
	typ   Type
	value any
}

func pageOf(t testing.TB, columns []cellOfRow) []byte {
	t.Helper()
	page := &Rows{Rows: [][]any{nil}}
	for _, column := range columns {
		page.Metadata.Columns = append(page.Metadata.Columns, Column{"k", "t", column.name, column.typ})
		page.Rows[0] = append(page.Rows[0], column.value)
	}
	b, err := AppendMessage(nil, 0, page)
	if err != nil {
		t.Fatal(err)
	}
	return b
}

// rowOf is a reader at the row of a page with these columns.
func rowOf(t *testing.T, columns ...cellOfRow) *RowReader {
	t.Helper()
	r := rowReader(t, bytes.NewReader(pageOf(t, columns)))
	if !r.Next() {
		t.Fatal(r.Err())
	}
	return r
}

func columnsOfPerson() []cellOfRow {
	text, moment := Type{Kind: KindVarchar}, time.Date(2026, 11, 27, 10, 0, 0, 5e6, time.UTC)
	home := []NamedValue{{"name", "Elm"}, {"house", 7}, {"tags", []string{"a", "b"}}, {"more", 1}}
	return []cellOfRow{
		{"words", typeOf(KindList, text), []string{"x", ""}}, {"id", Type{Kind: KindUUID}, UUID{1}}, {"other", Type{Kind: KindTimeUUID}, UUID{2, 6: 0x10}},
		{"not asked for", typeOf(KindMap, text, text), map[string]string{"a": "b"}}, {"name", text, "Ann"}, {"age", Type{Kind: KindInt}, 255},
		{"created", Type{Kind: KindTimestamp}, moment}, {"born", Type{Kind: KindDate}, moment}, {"scores", typeOf(KindMap, text, Type{Kind: KindBigint}), map[string]int{"a": 1}},
		{"home", streetType, home}, {"former", typeOf(KindList, streetType), []any{home, home}}, {"address", Type{Kind: KindInet}, netip.MustParseAddr("::1")},
		{"number", Type{Kind: KindVarint}, big.NewInt(-5)}, {"nick", text, nil}, {"any", Type{Kind: KindBoolean}, true},
		{"fields", Type{Kind: KindUDT, Names: []string{"f"}, Inner: []Type{text}}, []NamedValue{{"f", "g"}}}, {"seen", Type{Kind: KindTime}, time.Second},
	}
}

func TestScanIntoAStruct(t *testing.T) {
	r := rowOf(t, columnsOfPerson()...)
	got := person{Left: 3, Plain: 4}
	if err := r.Scan(&got); err != nil {
		t.Fatal(err)
	}
	name, house := "Ann", int32(7)
	elm := street{Name: "Elm", House: &house, Tags: []string{"a", "b"}}
	wanted := person{
		dates: dates{time.Date(2026, 11, 27, 10, 0, 0, 5e6, time.UTC), time.Date(2026, 11, 27, 0, 0, 0, 0, time.UTC)}, ID: key{1}, Other: [16]byte{2, 6: 0x10},
		Name: &name, Age: 255, Scores: map[string]int64{"a": 1}, Words: []string{"x", ""}, Home: elm, Former: []street{elm, elm},
		Address: netip.MustParseAddr("::1"), Number: *big.NewInt(-5), Any: true, Fields: map[string]string{"f": "g"}, Seen: time.Second, Left: 3, Plain: 4,
	}
	if !reflect.DeepEqual(got, wanted) {
		t.Errorf("%+v\nand not\n%+v", got, wanted)
	}
}

// TestScanIntoStructsOfSeveralPages reads pages whose columns have another order each, into one struct and into two in turn.
func TestScanIntoStructsOfSeveralPages(t *testing.T) {
	number, text := Type{Kind: KindInt}, Type{Kind: KindVarchar}
	stream := append(pageOf(t, []cellOfRow{{"a", number, 1}, {"b", text, "x"}}), pageOf(t, []cellOfRow{{"b", text, "y"}, {"c", number, 0}, {"a", number, 2}})...)
	for _, several := range []bool{false, true} {
		r := rowReader(t, bytes.NewReader(stream))
		printed := ""
		for r.Next() {
			var both struct {
				A int    `cqlp:"a"`
				B string `cqlp:"b"`
			}
			var one struct {
				B string `cqlp:"b"`
			}
			if err := r.Scan(&both); err != nil {
				t.Fatal(err)
			}
			printed += fmt.Sprint(both)
			if !several {
				continue
			}
			if err := r.Scan(&one); err != nil || one.B != both.B {
				t.Fatal(err, one)
			}
		}
		if printed != "{1 x}{2 y}" || r.Err() != nil {
			t.Error(printed, r.Err())
		}
	}
}

// TestScanOfAUDTThatIsShort has null for the fields that did not come.
func TestScanOfAUDTThatIsShort(t *testing.T) {
	short := Value{Bytes: []byte("\x00\x00\x00\x01A")}
	var home struct {
		Home street `cqlp:"home"`
	}
	if err := rowOf(t, cellOfRow{"home", streetType, short}).Scan(&home); err != nil || !reflect.DeepEqual(home.Home, street{Name: "A"}) {
		t.Error(home, err)
	}
	var strict struct {
		Home struct {
			House int `cqlp:"house"`
		} `cqlp:"home"`
	}
	if err := rowOf(t, cellOfRow{"home", streetType, short}).Scan(&strict); !errors.Is(err, ErrNull) {
		t.Error(err)
	}
	var pointer struct {
		Home *street `cqlp:"home"`
	}
	if err := rowOf(t, cellOfRow{"home", streetType, nil}).Scan(&pointer); err != nil || pointer.Home != nil {
		t.Error(pointer, err)
	}
	var variable street
	r := rowOf(t, cellOfRow{"home", streetType, short}, cellOfRow{"x", Type{Kind: KindInt}, 1})
	if err := r.Scan(&variable, nil); err != nil || variable.Name != "A" {
		t.Error(variable, err)
	}
}

func TestScanIntoAStructThatFails(t *testing.T) {
	number, text := Type{Kind: KindInt}, Type{Kind: KindVarchar}
	type User struct {
		Age uint8 `cqlp:"age"`
	}
	type Twice struct {
		A, B int `cqlp:"age"`
	}
	type hidden struct {
		age int `cqlp:"age"`
	}
	type Home struct {
		Home street `cqlp:"home"`
	}
	_ = hidden{}.age
	for _, row := range []struct {
		columns []cellOfRow
		to      any
		wanted  error
		says    string
	}{
		{[]cellOfRow{{"id", text, "x"}, {"age", number, 256}}, new(User), ErrRange, "cqlp: row 0, column 1 (age int) into User.Age uint8: the number is out of range"},
		{[]cellOfRow{{"age", number, nil}}, new(struct {
			Age int `cqlp:"age"`
		}), ErrNull, "cqlp: row 0, column 0 (age int) into Age int: the value is null"},
		{[]cellOfRow{{"age", number, nil}}, new(User), ErrNull, "cqlp: row 0, column 0 (age int) into User.Age uint8: the value is null"},
		{[]cellOfRow{{"age", text, "7"}}, new(User), nil, "cqlp: row 0, column 0 (age varchar) into User.Age uint8: varchar does not go into uint8"},
		{[]cellOfRow{{"Age", number, 1}}, new(User), ErrNoColumn, "cqlp: row 0, field User.Age uint8: no column has this name: age"},
		{[]cellOfRow{{"age", number, 1}}, (*User)(nil), nil, "cqlp: row 0: *cqlp.User is nil"},
		{[]cellOfRow{{"age", number, 1}}, new(Twice), nil, `cqlp: row 0: Twice.A and Twice.B have the tag "age"`},
		{[]cellOfRow{{"age", number, 1}}, new(hidden), nil, "cqlp: row 0: hidden.age has a tag and is not exported"},
		{[]cellOfRow{{"a", number, 1}, {"b", number, 1}}, new(int), nil, "cqlp: row 0: Scan has 1 pointers for 2 columns"},
		{[]cellOfRow{{"age", number, 1}}, new(struct{ Age int }), nil, "cqlp: row 0, column 0 (age int) into struct { Age int }: int does not go into struct { Age int }"},
		{[]cellOfRow{{"home", streetType, []NamedValue{{"name", "x"}, {"house", nil}, {"tags", []any{nil}}}}}, new(Home), ErrNull,
			"cqlp: row 0, column 0 (home .) into Home.Home cqlp.street: street.Tags []string: the value is null"},
		{[]cellOfRow{{"home", Type{Kind: KindUDT, Names: []string{"name"}, Inner: []Type{text}}, []NamedValue{{"name", "x"}}}}, new(Home), ErrNoColumn,
			"cqlp: row 0, column 0 (home .) into Home.Home cqlp.street: street.House: no column has this name: house"},
	} {
		err := rowOf(t, row.columns...).Scan(row.to)
		var failed *ScanError
		if !errors.As(err, &failed) || err.Error() != row.says || row.wanted != nil && !errors.Is(err, row.wanted) {
			t.Errorf("%T: %v", row.to, err)
		}
	}
	var failed *ScanError
	err := rowOf(t, cellOfRow{"id", text, "x"}, cellOfRow{"age", number, 256}).Scan(new(User))
	if !errors.As(err, &failed) || failed.Name != "age" || failed.Field != "User.Age" || failed.Into.Kind() != reflect.Uint8 || failed.Type.Kind != KindInt || failed.Column != 1 {
		t.Errorf("%+v", failed)
	}
}

// TestScanErrorsHaveTheirRow has the number of the row in its page, and that there is none before Next.
func TestScanErrorsHaveTheirRow(t *testing.T) {
	page := &Rows{Metadata: Metadata{Columns: []Column{{"k", "t", "n", Type{Kind: KindInt}}}}, Rows: [][]any{{1}, {nil}, {2}}}
	b, err := AppendMessage(nil, 1, page)
	if err != nil {
		t.Fatal(err)
	}
	r := rowReader(t, bytes.NewReader(append(b, b...)))
	var n int
	if err := r.Scan(&n); !errors.Is(err, ErrNoRow) {
		t.Error(err)
	}
	rows := []int{}
	for r.Next() {
		var failed *ScanError
		if err := r.Scan(&n); errors.As(err, &failed) {
			rows = append(rows, failed.Row)
		}
	}
	if !reflect.DeepEqual(rows, []int{1, 1}) {
		t.Error(rows)
	}
	if err := r.Scan(&n); !errors.Is(err, ErrNoRow) {
		t.Error(err)
	}
}

// TestBindOfAStruct has a struct with tags as a UDT, which Scan puts into such a struct again.
func TestBindOfAStruct(t *testing.T) {
	house := int32(7)
	for _, home := range []street{{"Elm", &house, []string{"a"}, ""}, {"", nil, nil, ""}} {
		var got struct {
			Home street `cqlp:"home"`
		}
		r := rowOf(t, cellOfRow{"home", streetType, home})
		if err := r.Scan(&got); err != nil || !reflect.DeepEqual(got.Home, home) {
			t.Errorf("%+v, and not %+v: %v", got.Home, home, err)
		}
		more := r.Values()[0].([]NamedValue)[3]
		if !reflect.DeepEqual(more, NamedValue{"more", nil}) {
			t.Error(more)
		}
	}
	short := Type{Kind: KindUDT, Names: []string{"name"}, Inner: []Type{{Kind: KindVarchar}}}
	for _, other := range []any{street{}, dates{}, struct{ Name string }{"x"}, time.Time{}} {
		if value, err := Bind(short, other); err == nil {
			t.Errorf("%T: %v", other, value)
		}
	}
}
