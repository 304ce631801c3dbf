package cqlp

import (
	"errors"
	"fmt"
	"math"
	"math/big"
	"net"
	"net/netip"
	"reflect"
	"strings"
	"time"
)

// ErrNull says that a value is null, and what it was to be put into has no nil.
var ErrNull = errors.New("the value is null")

// ErrEmpty says that a value has no bytes, and its type is neither a text nor bytes.
var ErrEmpty = errors.New("the value has no bytes")

// ErrRange says that a number does not fit into what it was to be put into.
var ErrRange = errors.New("the number is out of range")

// ErrNoRow says that there is no row: Next was not called, or found none.
var ErrNoRow = errors.New("there is no row")

// A ScanError says that Scan cannot put the value of a column into what was asked for. It wraps ErrNull, ErrEmpty, ErrRange, ErrNoColumn, ErrNoRow,
// an error of a Scan method, or another one where the types do not go together.
type ScanError struct {
	// Row and Column count from 0 within the page. Where the fault is of no column, Column is how many there are.
	Row, Column int
	// Name and Type are those of the column; Name is empty where nobody said them.
	Name string
	Type Type
	// Field is that of a struct, as User.Age, and empty where Scan has variables.
	Field string
	// Into is the type of the variable or of the field, or nil where the fault is of none.
	Into reflect.Type
	Err  error
}

func (e *ScanError) Error() string {
	place := fmt.Sprintf("cqlp: row %d", e.Row)
	switch {
	case errors.Is(e.Err, ErrNoColumn) && e.Name == "":
		place += fmt.Sprintf(", field %s %v", e.Field, e.Into)
	case e.Into != nil:
		place += fmt.Sprintf(", column %d%s into %s", e.Column, e.column(), strings.TrimSpace(fmt.Sprint(e.Field, " ", e.Into)))
	}
	return fmt.Sprintf("%s: %v", place, e.Err)
}

// column is the name of the column with its type, where they are known.
func (e *ScanError) column() string {
	if e.Name == "" {
		return ""
	}
	return fmt.Sprintf(" (%s %v)", e.Name, e.Type)
}

// Unwrap is the error.
func (e *ScanError) Unwrap() error { return e.Err }

// RawBytes is a content that Scan lends: it lives until the next call of Next.
type RawBytes []byte

// scanner is an sql.Scanner.
type scanner interface{ Scan(src any) error }

// scan puts the cell into what a pointer points to, and passes over it where there is none.
func (c *cell) scan(to any) error {
	if to == nil {
		return nil
	}
	if e := &c.events[0]; e.tag == TagLeaf {
		if done, err := putLeaf(e, c.from, to); done {
			return err
		}
	}
	if done, err := c.putItems(to); done {
		return err
	}
	value := reflect.ValueOf(to)
	if value.Kind() != reflect.Pointer || value.IsNil() {
		return fmt.Errorf("%T is no pointer to a value", to)
	}
	return c.into(value.Elem())
}

// putLeaf puts a scalar into what is asked for most, and says whether it did, or why it cannot.
func putLeaf(e *placed, from []byte, to any) (bool, error) {
	switch to := to.(type) {
	case *string:
		if isText(e.kind) && to != nil {
			*to = string(e.content(from))
			return true, nil
		}
	case *int:
		return putInteger(e, to)
	case *int64:
		return putInteger(e, to)
	case *int32:
		return putInteger(e, to)
	case *bool:
		if e.kind == KindBoolean && to != nil {
			*to = e.number != 0
			return true, nil
		}
	case *any:
		if to != nil {
			*to = e.value(from)
			return true, nil
		}
	case *RawBytes:
		if hasContent(e.kind) && to != nil {
			*to = e.content(from)
			return true, nil
		}
	}
	return false, nil
}

func isText(kind Kind) bool { return kind == KindVarchar || kind == KindASCII }

// hasContent says whether the content of a leaf is its value.
func hasContent(kind Kind) bool {
	return isText(kind) || kind == KindBlob || kind == KindCustom || kind == KindRaw
}

// isInteger says whether the number of a leaf is its value. Those of a timestamp and a time are milliseconds from 1970, and nanoseconds.
func isInteger(kind Kind) bool {
	switch kind {
	case KindBigint, KindCounter, KindInt, KindSmallint, KindTinyint, KindTimestamp, KindTime:
		return true
	}
	return false
}

func putInteger[T int | int32 | int64](e *placed, to *T) (bool, error) {
	if !isInteger(e.kind) || to == nil {
		return false, nil
	}
	if int64(T(e.number)) != e.number {
		return true, ErrRange
	}
	*to = T(e.number)
	return true, nil
}

func mismatch(e *placed, to any) error { return fmt.Errorf("%v does not go into %T", e.kind, to) }

// into takes the next value, and puts it into v, which can be addressed.
func (c *cell) into(v reflect.Value) error {
	to := v.Addr().Interface()
	if e := &c.events[0]; e.tag == TagLeaf {
		if done, err := putLeaf(e, c.from, to); done {
			c.take()
			return err
		}
	}
	if done, err := c.putItems(to); done {
		return err
	}
	if to, ok := to.(scanner); ok && !c.isOdd() {
		return to.Scan(driverValue(c.value()))
	}
	e := &c.events[0]
	switch {
	case v.Kind() == reflect.Interface && v.NumMethod() == 0:
		if value := c.value(); value != nil {
			v.Set(reflect.ValueOf(value))
		} else {
			v.Set(reflect.Zero(v.Type()))
		}
		return nil
	case v.Kind() == reflect.Pointer:
		return c.intoPointer(v)
	case c.isOdd():
		return c.intoBytes(v)
	case e.tag == TagNull:
		c.take()
		if v.Kind() != reflect.Slice && v.Kind() != reflect.Map {
			return ErrNull
		}
		v.Set(reflect.Zero(v.Type()))
		return nil
	case e.tag == TagEnter:
		return c.intoItems(v)
	}
	return c.intoScalar(v)
}

// driverValue is one of those that an sql.Scanner knows, where there is such a one.
func driverValue(value any) any {
	switch value := value.(type) {
	case float32:
		return float64(value)
	case UUID:
		return value.String()
	case time.Duration:
		return int64(value)
	case *big.Int:
		return value.String()
	}
	return value
}

// intoPointer makes what the pointer is to point to, or nil where the value is null.
func (c *cell) intoPointer(v reflect.Value) error {
	if c.events[0].tag == TagNull {
		c.take()
		v.Set(reflect.Zero(v.Type()))
		return nil
	}
	made := reflect.New(v.Type().Elem())
	if err := c.into(made.Elem()); err != nil {
		return err
	}
	v.Set(made)
	return nil
}

// isOdd says whether the next value is a content that its type does not have, as a lenient reading gives it, of a type that is no text.
func (c *cell) isOdd() bool {
	e, kind := &c.events[0], kindOf(c.typ)
	return e.tag == TagLeaf && e.kind == KindRaw && kind != KindRaw && !isText(kind)
}

// intoBytes puts such a content into bytes or a string alone: digits in it are no number, and four bytes no address.
func (c *cell) intoBytes(v reflect.Value) error {
	e := c.take()
	if _, address := v.Interface().(net.IP); !address {
		if err, ok := convertText(string(e.content(c.from)), v); ok {
			return err
		}
	}
	return mismatch(e, v.Interface())
}

// intoScalar puts the value, which is neither null nor has items.
func (c *cell) intoScalar(v reflect.Value) error {
	kind := kindOf(c.typ)
	value := c.value()
	if _, empty := value.(Empty); empty {
		return ErrEmpty
	}
	if found, ok := convert(value, v); ok {
		return found
	}
	return fmt.Errorf("%v does not go into %v", kind, v.Type())
}

// convert puts a scalar, and says whether their types go together.
func convert(value any, v reflect.Value) (error, bool) {
	from := reflect.ValueOf(value)
	if from.Type() == v.Type() {
		v.Set(from)
		return nil, true
	}
	switch value := value.(type) {
	case int64:
		return convertInteger(value, v)
	case time.Duration:
		return convertInteger(int64(value), v)
	case time.Time:
		if v.Kind() == reflect.Int64 {
			v.SetInt(value.UnixMilli())
			return nil, true
		}
	case bool:
		if v.Kind() == reflect.Bool {
			v.SetBool(value)
			return nil, true
		}
	case float32:
		return convertFloat(float64(value), v)
	case float64:
		return convertFloat(value, v)
	case string:
		return convertText(value, v)
	case []byte:
		return convertText(string(value), v)
	case *big.Int:
		return convertBig(value, v)
	case UUID:
		if v.Kind() == reflect.Array && from.Type().ConvertibleTo(v.Type()) {
			v.Set(from.Convert(v.Type()))
			return nil, true
		}
	case net.IP:
		if address, ok := netip.AddrFromSlice(value); ok && v.Type() == reflect.TypeOf(address) {
			v.Set(reflect.ValueOf(address))
			return nil, true
		}
	}
	return nil, false
}

func convertInteger(number int64, v reflect.Value) (error, bool) {
	switch v.Kind() {
	case reflect.Int, reflect.Int8, reflect.Int16, reflect.Int32, reflect.Int64:
		if v.OverflowInt(number) {
			return ErrRange, true
		}
		v.SetInt(number)
		return nil, true
	case reflect.Uint, reflect.Uint8, reflect.Uint16, reflect.Uint32, reflect.Uint64:
		if number < 0 || v.OverflowUint(uint64(number)) {
			return ErrRange, true
		}
		v.SetUint(uint64(number))
		return nil, true
	}
	if v.Type() == reflect.TypeOf(big.Int{}) {
		v.Set(reflect.ValueOf(big.NewInt(number)).Elem())
		return nil, true
	}
	return nil, false
}

func convertFloat(number float64, v reflect.Value) (error, bool) {
	if v.Kind() != reflect.Float32 && v.Kind() != reflect.Float64 {
		return nil, false
	}
	if v.Kind() == reflect.Float32 && float64(float32(number)) != number && !math.IsNaN(number) {
		return ErrRange, true
	}
	v.SetFloat(number)
	return nil, true
}

func convertText(text string, v reflect.Value) (error, bool) {
	switch {
	case v.Kind() == reflect.String:
		v.SetString(text)
	case v.Kind() == reflect.Slice && v.Type().Elem().Kind() == reflect.Uint8:
		v.SetBytes([]byte(text))
	default:
		return nil, false
	}
	return nil, true
}

func convertBig(number *big.Int, v reflect.Value) (error, bool) {
	if v.Type() == reflect.TypeOf(big.Int{}) {
		v.Set(reflect.ValueOf(number).Elem())
		return nil, true
	}
	if !number.IsInt64() {
		return ErrRange, v.CanInt() || v.CanUint()
	}
	return convertInteger(number.Int64(), v)
}

// intoItems puts the items of a value: those of a list, a set or a tuple into a slice, those of a map into a map, the fields of a UDT into a
// map by their names, where these are known.
func (c *cell) intoItems(v reflect.Value) error {
	typ, begin := c.typ, c.take()
	switch {
	case v.Kind() == reflect.Slice && v.Type().Elem() == reflect.TypeOf(Pair{}), v.Kind() == reflect.Slice && v.Type().Elem() == reflect.TypeOf(NamedValue{}):
		found := reflect.ValueOf(c.items(begin, typ))
		if found.Type() != v.Type() {
			return mismatch(begin, v.Interface())
		}
		v.Set(found)
		return nil
	case v.Kind() == reflect.Slice && (begin.kind == KindList || begin.kind == KindSet || begin.kind == KindTuple):
		return c.intoSlice(v, begin, typ)
	case v.Kind() == reflect.Map && begin.kind == KindMap:
		return c.intoMap(v, begin, typ)
	case v.Kind() == reflect.Map && v.Type().Key().Kind() == reflect.String && begin.kind == KindUDT && typ != nil:
		return c.intoFields(v, begin, typ)
	case v.Kind() == reflect.Struct && begin.kind == KindUDT && typ != nil:
		return c.intoStruct(v, begin, typ)
	}
	return mismatch(begin, v.Interface())
}

// intoSlice has as many items as the value says, since all that came are there; fields of a tuple that did not come are zero, and bytes after
// its last field are an item more.
func (c *cell) intoSlice(v reflect.Value, begin *placed, typ *Type) error {
	count := int(begin.number)
	v.Set(reflect.MakeSlice(v.Type(), count, count))
	return c.each(begin, typ, func(at int) error {
		if at == v.Len() {
			v.Set(reflect.Append(v, reflect.Zero(v.Type().Elem())))
		}
		return c.into(v.Index(at))
	})
}

func (c *cell) intoMap(v reflect.Value, begin *placed, typ *Type) error {
	found := reflect.MakeMapWithSize(v.Type(), int(begin.number))
	key, item := reflect.New(v.Type().Key()).Elem(), reflect.New(v.Type().Elem()).Elem()
	noItem := reflect.Zero(item.Type())
	err := c.each(begin, typ, func(at int) error {
		if at%2 == 0 {
			return c.intoKey(key)
		}
		item.Set(noItem)
		if err := c.into(item); err != nil {
			return err
		}
		found.SetMapIndex(key, item)
		return nil
	})
	v.Set(found)
	return err
}

// intoKey refuses a value that no map can have as a key.
func (c *cell) intoKey(key reflect.Value) error {
	key.Set(reflect.Zero(key.Type()))
	err := c.into(key)
	if err == nil && key.Kind() == reflect.Interface && !key.IsNil() && !key.Elem().Type().Comparable() {
		return fmt.Errorf("%v cannot be the key of a map", key.Elem().Type())
	}
	return err
}

func (c *cell) intoFields(v reflect.Value, begin *placed, typ *Type) error {
	found := reflect.MakeMap(v.Type())
	item := reflect.New(v.Type().Elem()).Elem()
	err := c.each(begin, typ, func(at int) error {
		item.Set(reflect.Zero(item.Type()))
		if err := c.into(item); err != nil {
			return err
		}
		name := "" // of bytes after the last field
		if at < len(typ.Names) {
			name = typ.Names[at]
		}
		found.SetMapIndex(reflect.ValueOf(name).Convert(v.Type().Key()), item)
		return nil
	})
	v.Set(found)
	return err
}
