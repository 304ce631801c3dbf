package cqlp

// What writes values. This is plain Go, as AppendMessage is.

import (
	"encoding/binary"
	"math"
	"math/big"
	"net"
	"net/netip"
	"reflect"
	"time"
	"unicode/utf8"
)

// Bind makes a value of this type, as of a Column of Prepared.Bound. It takes what RowReader.Values gives of the type, and what Scan puts
// it into: integers of any width in whose range they are, floats, strings and []byte, bool, time.Time, time.Duration, UUID, net.IP, netip.Addr,
// *big.Int, Decimal, slices and maps of these, a struct with tags for a UDT, nil and pointers that are nil for null, Empty, and a Value as it
// is. A string of a text has to be one, or the error is ErrNotText; []byte is not looked at, since a lenient reading has it of what is none.
// Another error says what does not go together.
func Bind(typ Type, value any) (Value, error) {
	if value, ok := value.(Value); ok {
		return value, nil
	}
	var w writer
	w.typed(typ, value)
	if w.err != nil || w.body[0]&0x80 != 0 {
		return Value{}, w.err
	}
	return Value{Bytes: w.body[4:]}, nil
}

// typed writes a value as [bytes].
func (w *writer) typed(typ Type, value any) {
	if v := reflect.ValueOf(value); v.Kind() == reflect.Pointer && v.Type() != reflect.TypeOf((*big.Int)(nil)) && !v.IsNil() {
		value = v.Elem().Interface()
	}
	switch value := value.(type) {
	case Value:
		w.value(value)
		return
	case Empty:
		w.int(0)
		return
	}
	if v := reflect.ValueOf(value); !v.IsValid() || v.Kind() == reflect.Pointer && v.IsNil() || (v.Kind() == reflect.Slice || v.Kind() == reflect.Map) && v.IsNil() {
		w.int(-1)
		return
	}
	at := len(w.body)
	w.int(0)
	if !w.content(typ, value) {
		w.fail("%T does not go into %v", value, typ)
	}
	length := len(w.body) - at - 4
	if length > 1<<28 {
		w.err = ErrTooLong
	}
	binary.BigEndian.PutUint32(w.body[at:], uint32(length))
}

// content writes a value without its length, and says whether it is of the type.
func (w *writer) content(typ Type, value any) bool {
	switch typ.Kind {
	case KindASCII, KindVarchar:
		at := len(w.body)
		is := w.contentOf(value)
		if _, lent := value.([]byte); !lent {
			w.isText(areText(w.body[at:], typ.Kind))
		}
		return is
	case KindBlob, KindCustom, KindRaw:
		return w.contentOf(value)
	case KindTinyint:
		return w.integer(value, 1)
	case KindSmallint:
		return w.integer(value, 2)
	case KindInt:
		return w.integer(value, 4)
	case KindBigint, KindCounter, KindTime:
		return w.integer(value, 8)
	case KindTimestamp:
		if moment, ok := value.(time.Time); ok {
			value = moment.UnixMilli()
		}
		return w.integer(value, 8)
	case KindList, KindSet, KindMap, KindTuple, KindUDT:
		return w.items(typ, value)
	}
	return w.scalar(typ.Kind, value)
}

// areText says whether these are a content of an ascii or a varchar.
func areText(content []byte, kind Kind) bool {
	for _, b := range content {
		if kind == KindASCII && b >= utf8.RuneSelf {
			return false
		}
	}
	return utf8.Valid(content)
}

func (w *writer) contentOf(value any) bool {
	v := reflect.ValueOf(value)
	switch {
	case v.Kind() == reflect.String:
		w.body = append(w.body, v.String()...)
	case v.Kind() == reflect.Slice && v.Type().Elem().Kind() == reflect.Uint8:
		w.body = append(w.body, v.Bytes()...)
	default:
		return false
	}
	return true
}

// number is an integer of any width.
func number(value any) (int64, bool) {
	v := reflect.ValueOf(value)
	switch {
	case v.CanInt():
		return v.Int(), true
	case v.CanUint():
		return int64(v.Uint()), v.Uint() <= math.MaxInt64
	}
	return 0, false
}

func (w *writer) integer(value any, width int) bool {
	n, ok := number(value)
	if shift := 64 - 8*width; !ok || n<<shift>>shift != n {
		return false
	}
	var b [8]byte
	binary.BigEndian.PutUint64(b[:], uint64(n))
	w.body = append(w.body, b[8-width:]...)
	return true
}

func (w *writer) scalar(kind Kind, value any) bool {
	v := reflect.ValueOf(value)
	switch kind {
	case KindBoolean:
		if v.Kind() == reflect.Bool {
			w.byte(set(1, v.Bool()))
			return true
		}
	case KindFloat:
		if v.CanFloat() {
			w.int(int32(math.Float32bits(float32(v.Float()))))
			return true
		}
	case KindDouble:
		if v.CanFloat() {
			w.long(int64(math.Float64bits(v.Float())))
			return true
		}
	case KindVarint:
		return w.varint(value)
	case KindDecimal:
		if decimal, ok := value.(Decimal); ok {
			w.int(decimal.Scale)
			return w.varint(decimal.Unscaled)
		}
	case KindUUID, KindTimeUUID:
		if v.Kind() == reflect.Array && v.Type().ConvertibleTo(reflect.TypeOf(UUID{})) {
			id := v.Convert(reflect.TypeOf(UUID{})).Interface().(UUID)
			w.body = append(w.body, id[:]...)
			return true
		}
	case KindInet:
		return w.address(value)
	case KindDate:
		if day, ok := value.(time.Time); ok {
			w.int(int32(floor(day.Unix(), 86400) + math.MinInt32))
			return true
		}
	}
	return false
}

func floor(n, by int64) int64 {
	if n%by < 0 {
		return n/by - 1
	}
	return n / by
}

func (w *writer) address(value any) bool {
	switch value := value.(type) {
	case netip.Addr:
		w.body = append(w.body, value.AsSlice()...)
		return value.IsValid()
	case net.IP:
		if four := value.To4(); four != nil {
			value = four
		}
		w.body = append(w.body, value...)
		return len(value) == 4 || len(value) == 16
	}
	return false
}

// varint is written in two's complement, in the fewest bytes.
func (w *writer) varint(value any) bool {
	var n *big.Int
	switch value := value.(type) {
	case *big.Int:
		n = value
	case big.Int:
		n = &value
	default:
		small, ok := number(value)
		if !ok {
			return false
		}
		n = big.NewInt(small)
	}
	if n == nil {
		return false
	}
	bits := n
	if n.Sign() < 0 {
		bits = new(big.Int).Not(n)
	}
	length := bits.BitLen()/8 + 1
	octets := bits.FillBytes(make([]byte, length))
	for i := range octets {
		if n.Sign() < 0 {
			octets[i] = ^octets[i]
		}
	}
	w.body = append(w.body, octets...)
	return true
}

// items writes a value with items in it.
func (w *writer) items(typ Type, value any) bool {
	if wanted, is := innerCount[typ.Kind]; is && len(typ.Inner) != wanted {
		return false
	}
	v := reflect.ValueOf(value)
	switch fields, isFields := value.([]NamedValue); {
	case typ.Kind == KindUDT && isFields:
		return w.fields(typ, len(fields), func(at int) any { return fields[at].Value })
	case typ.Kind == KindUDT && v.Kind() == reflect.Map && v.Type().Key().Kind() == reflect.String:
		return w.fieldsOfMap(typ, v)
	case typ.Kind == KindUDT && v.Kind() == reflect.Struct:
		return w.fieldsOfStruct(typ, v)
	case typ.Kind == KindTuple && v.Kind() == reflect.Slice:
		return w.fields(typ, v.Len(), func(at int) any { return v.Index(at).Interface() })
	case typ.Kind == KindMap:
		return w.pairs(typ, value)
	case typ.Kind != KindUDT && v.Kind() == reflect.Slice:
		w.int(int32(v.Len()))
		for i := 0; i < v.Len(); i++ {
			w.typed(typ.Inner[0], v.Index(i).Interface())
		}
		return true
	}
	return false
}

// innerCount is how many types a type of a kind has in it.
var innerCount = map[Kind]int{KindList: 1, KindSet: 1, KindMap: 2}

func (w *writer) fields(typ Type, count int, field func(at int) any) bool {
	if count > len(typ.Inner) {
		return false
	}
	for i := 0; i < count; i++ {
		w.typed(typ.Inner[i], field(i))
	}
	return true
}

// fieldsOfMap writes null for a field whose name the map has not, and refuses a name that no field has.
func (w *writer) fieldsOfMap(typ Type, v reflect.Value) bool {
	known := 0
	return w.fields(typ, len(typ.Names), func(at int) any {
		field := v.MapIndex(reflect.ValueOf(typ.Names[at]).Convert(v.Type().Key()))
		if !field.IsValid() {
			return nil
		}
		known++
		return field.Interface()
	}) && known == v.Len()
}

// fieldsOfStruct writes null for a field whose name no tag has, and refuses a tag that no field has.
func (w *writer) fieldsOfStruct(typ Type, v reflect.Value) bool {
	m := membersOf(v.Type())
	return len(m.fields) > 0 && m.err == nil && m.lacking(typ.Names) == nil && w.fields(typ, len(typ.Names), func(at int) any {
		if i, is := m.find(typ.Names[at]); is {
			return v.FieldByIndex(m.fields[i].index).Interface()
		}
		return nil
	})
}

func (w *writer) pairs(typ Type, value any) bool {
	if pairs, ok := value.([]Pair); ok {
		w.int(int32(len(pairs)))
		for _, pair := range pairs {
			w.typed(typ.Inner[0], pair.Key)
			w.typed(typ.Inner[1], pair.Value)
		}
		return true
	}
	v := reflect.ValueOf(value)
	if v.Kind() != reflect.Map {
		return false
	}
	w.int(int32(v.Len()))
	for each := v.MapRange(); each.Next(); {
		w.typed(typ.Inner[0], each.Key().Interface())
		w.typed(typ.Inner[1], each.Value().Interface())
	}
	return true
}
