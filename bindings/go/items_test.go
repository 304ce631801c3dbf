//go:build cgo

package cqlp

import (
	"bytes"
	"errors"
	"fmt"
	"reflect"
	"strings"
	"testing"
)

// Types that putItems does not know, so that their values go by reflection.
type (
	someTexts  []string
	someInts   []int
	someInt32s []int32
	someInt64s []int64

	textsByText  map[string]string
	intsByText   map[string]int
	int32sByText map[string]int32
	int64sByText map[string]int64
	textsByInt32 map[int32]string
	textsByInt64 map[int64]string
)

// itemVariables has, of each type that putItems knows, a new variable, and one of a type that it does not know and that is like it.
func itemVariables() [][2]any {
	return [][2]any{
		{new([]string), new(someTexts)}, {new([]int), new(someInts)}, {new([]int32), new(someInt32s)}, {new([]int64), new(someInt64s)},
		{new([][]int32), new([]someInt32s)}, {new([]map[string]int64), new([]int64sByText)}, {new(map[string][]string), new(map[string]someTexts)},
		{new(map[string]string), new(textsByText)}, {new(map[string]int), new(intsByText)}, {new(map[string]int32), new(int32sByText)},
		{new(map[string]int64), new(int64sByText)}, {new(map[int32]string), new(textsByInt32)}, {new(map[int64]string), new(textsByInt64)},
		{new(any), new(any)}, {new([]any), new([]any)},
	}
}

// scanned is what Scan puts into a variable of the row's only column, and its error, without the name of the variable's type.
func scanned(r *RowReader, to any) string {
	err := r.Scan(to)
	value := fmt.Sprint(reflect.ValueOf(to).Elem().Interface())
	if err != nil {
		fault, _, _ := strings.Cut(errors.Unwrap(err).Error(), " go into ")
		return value + ", cqlp: " + fault
	}
	return value
}

func typeOf(kind Kind, inner ...Type) Type { return Type{Kind: kind, Inner: inner} }

func TestItemsGoWhereTheyGoByReflection(t *testing.T) {
	text, number, long := typeOf(KindVarchar), typeOf(KindInt), typeOf(KindBigint)
	list := typeOf(KindList, number)
	cells := []struct {
		typ   Type
		value any
	}{
		{list, []any{1, 2, 3}},
		{list, []any{}},
		{list, []any{1, nil, 3}},
		{list, nil},
		{typeOf(KindSet, text), []any{"a", "", "c"}},
		{typeOf(KindList, long), []any{int64(1), int64(1) << 40}},
		{typeOf(KindList, typeOf(KindTimestamp)), []any{int64(5)}},
		{typeOf(KindList, typeOf(KindUUID)), []any{UUID{1}}},
		{typeOf(KindList, typeOf(KindBlob)), []any{[]byte("x")}},
		{typeOf(KindTuple, number, number), []any{1, 2}},
		{typeOf(KindTuple, number, text), []any{1, "b"}},
		{typeOf(KindList, list), []any{[]any{1}, []any{}, []any{2, 3}}},
		{typeOf(KindList, typeOf(KindMap, text, long)), []any{[]Pair{{"a", 1}}, []Pair{}}},
		{typeOf(KindMap, text, typeOf(KindList, text)), []Pair{{"a", []any{"x", "y"}}}},
		{typeOf(KindMap, text, text), []Pair{{"a", "x"}, {"b", ""}}},
		{typeOf(KindMap, text, number), []Pair{{"a", 1}, {"b", -2}}},
		{typeOf(KindMap, text, number), []Pair{{"a", 1}, {"b", nil}, {"c", 3}}},
		{typeOf(KindMap, text, number), []Pair{}},
		{typeOf(KindMap, text, long), []Pair{{"a", int64(1) << 40}}},
		{typeOf(KindMap, number, text), []Pair{{7, "x"}, {8, "y"}}},
		{typeOf(KindMap, long, text), []Pair{{int64(1) << 40, "x"}}},
		{number, 1},
	}
	same := 0
	for _, cell := range cells {
		page := onePage(t, []Type{cell.typ}, cell.value)
		r := rowReader(t, bytes.NewReader(page))
		if !r.Next() {
			t.Fatal(cell, r.Err())
		}
		for _, to := range itemVariables() {
			known, other := scanned(r, to[0]), scanned(r, to[1])
			if known != other {
				t.Errorf("%v of %v into %T: %s, and not %s", cell.value, cell.typ, to[0], known, other)
			}
			if !strings.Contains(known, "cqlp: ") {
				same++
			}
		}
		for _, nothing := range []any{(*[]int32)(nil), (*map[string]int32)(nil)} {
			if err := r.Scan(nothing); err == nil {
				t.Errorf("%T: there is no variable", nothing)
			}
		}
	}
	if same < 80 {
		t.Error(same, "values were put")
	}
}
