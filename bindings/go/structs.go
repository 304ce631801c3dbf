package cqlp

import (
	"errors"
	"fmt"
	"reflect"
	"strings"
	"sync"
	"unsafe"
)

// ErrNoColumn says that no column of the page, or no field of the UDT, has the name that a tag of the struct has.
var ErrNoColumn = errors.New("no column has this name")

// A member is a field of a struct with a tag.
type member struct {
	// tag is the name of a column, or of a field of a UDT
	tag string
	// path is its name from the struct on, as User.Name
	path  string
	index []int
	typ   reflect.Type
	// where it lies in the struct, and how it is put there
	offset uintptr
	form   form
}

// A form says of a field that it is of a type that is asked for most, and of which.
type form uint8

const (
	formOther form = iota
	formString
	formInt
	formInt64
	formInt32
	formBool
)

var forms = map[reflect.Type]form{
	reflect.TypeOf(""):       formString,
	reflect.TypeOf(0):        formInt,
	reflect.TypeOf(int64(0)): formInt64,
	reflect.TypeOf(int32(0)): formInt32,
	reflect.TypeOf(false):    formBool,
}

// members are the fields of a struct with tags, and why it cannot be used.
type members struct {
	fields []member
	err    error
}

// known has the members of each struct that was asked for, by its reflect.Type.
var known sync.Map

// membersOf are the fields of a struct that have tags, and those of the structs that it embeds.
func membersOf(typ reflect.Type) *members {
	if found, is := known.Load(typ); is {
		return found.(*members)
	}
	m := new(members)
	m.add(typ, nil, 0, typ.Name())
	known.Store(typ, m)
	return m
}

func (m *members) add(typ reflect.Type, index []int, offset uintptr, path string) {
	for i := 0; i < typ.NumField(); i++ {
		field := typ.Field(i)
		tag, is := field.Tag.Lookup("cqlp")
		at := append(index[:len(index):len(index)], i)
		within := strings.TrimPrefix(path+"."+field.Name, ".") // of a struct without a name too
		switch {
		case !is && field.Anonymous && field.Type.Kind() == reflect.Struct:
			m.add(field.Type, at, offset+field.Offset, within)
		case is && tag != "-":
			if !field.IsExported() {
				m.err = fmt.Errorf("%s has a tag and is not exported", within)
			} else if at, other := m.find(tag); other {
				m.err = fmt.Errorf("%s and %s have the tag %q", m.fields[at].path, within, tag)
			}
			m.fields = append(m.fields, member{tag, within, at, field.Type, offset + field.Offset, forms[field.Type]})
		}
	}
}

// find is which field has this tag, if one does.
func (m *members) find(tag string) (int, bool) {
	for i := range m.fields {
		if m.fields[i].tag == tag {
			return i, true
		}
	}
	return -1, false
}

// lacking is the first field whose tag is none of these names.
func (m *members) lacking(names []string) *member {
	there := make(map[string]bool, len(names))
	for _, name := range names {
		there[name] = true
	}
	for i := range m.fields {
		if !there[m.fields[i].tag] {
			return &m.fields[i]
		}
	}
	return nil
}

// A record says which field of a struct each column of a page goes into: nil where none does.
type record struct {
	pointer reflect.Type
	page    int
	fields  []*member
}

// isRecord says whether a pointer takes a row by the tags of its struct.
func (r *RowReader) isRecord(to any) bool {
	typ := reflect.TypeOf(to)
	if typ != nil && typ == r.record.pointer {
		return true
	}
	if typ == nil || typ.Kind() != reflect.Pointer || typ.Elem().Kind() != reflect.Struct {
		return false
	}
	_, is := to.(scanner)
	return !is && len(membersOf(typ.Elem()).fields) > 0
}

// scanRecord puts the row into the struct that a pointer points to.
func (r *RowReader) scanRecord(to any) error {
	pointer := reflect.ValueOf(to)
	if pointer.IsNil() {
		return r.rowError(fmt.Errorf("%T is nil", to))
	}
	if r.record.pointer != pointer.Type() || r.record.page != r.page.Number {
		if err := r.findRecord(pointer.Type()); err != nil {
			return err
		}
	}
	value, first := pointer.Elem(), pointer.UnsafePointer()
	for i, field := range r.record.fields {
		if field == nil {
			continue
		}
		e := &r.cells.row[r.cells.start(i)]
		if e.tag == TagLeaf && field.put(e, r.cells.from, first) {
			continue
		}
		v := value.FieldByIndex(field.index)
		// a cell on the heap costs more than most scalars do, as in Scan
		if e.tag == TagLeaf {
			if done, err := putLeaf(e, r.cells.from, v.Addr().Interface()); done && err == nil {
				continue
			}
		} else if e.tag == TagEnter && r.cells.putItems(i, v.Addr().Interface()) {
			continue
		}
		cell := r.cells.cell(i)
		if err := cell.into(v); err != nil {
			return r.scanError(i, field.path, field.typ, err)
		}
	}
	return nil
}

// put puts a scalar into the field of a struct that begins there, as putLeaf does, without reflection, and says whether it did. The struct is of the type of
// which the field is a member, and the structs around the field lie in it and are no pointers. So a value of the form's type lies at the offset, and the
// pointer that is made stays within that struct, which it keeps.
func (m *member) put(e *placed, from []byte, first unsafe.Pointer) (done bool) {
	var err error
	switch at := unsafe.Add(first, m.offset); m.form {
	case formString:
		if done = isText(e.kind); done {
			*(*string)(at) = string(e.content(from))
		}
	case formInt:
		done, err = putInteger(e, (*int)(at))
	case formInt64:
		done, err = putInteger(e, (*int64)(at))
	case formInt32:
		done, err = putInteger(e, (*int32)(at))
	case formBool:
		if done = e.kind == KindBoolean; done {
			*(*bool)(at) = e.number != 0
		}
	}
	return done && err == nil
}

// findRecord finds the field of each column of the page.
func (r *RowReader) findRecord(pointer reflect.Type) error {
	m := membersOf(pointer.Elem())
	if m.err != nil {
		return r.rowError(m.err)
	}
	names := make([]string, len(r.cells.columns))
	fields := make([]*member, len(r.cells.columns))
	for i := range names {
		names[i] = r.cells.columns[i].Name
		if at, is := m.find(names[i]); is {
			fields[i] = &m.fields[at]
		}
	}
	if field := m.lacking(names); field != nil {
		err := r.rowError(fmt.Errorf("%w: %s", ErrNoColumn, field.tag))
		err.Field, err.Into = field.path, field.typ
		return err
	}
	r.record = record{pointer, r.page.Number, fields}
	return nil
}

// intoStruct puts the fields of a UDT into the fields of a struct with their names as tags.
func (c *cell) intoStruct(v reflect.Value, begin *placed, typ *Type) error {
	m := membersOf(v.Type())
	if m.err != nil {
		return m.err
	}
	if len(m.fields) == 0 {
		return mismatch(begin, v.Interface())
	}
	if field := m.lacking(typ.Names); field != nil {
		return fmt.Errorf("%s: %w: %s", field.path, ErrNoColumn, field.tag)
	}
	came := 0
	err := c.each(begin, typ, func(at int) error {
		came = at + 1
		return c.intoMember(v, m, typ, at)
	})
	for at := came; err == nil && at < len(typ.Names); at++ {
		null := cell{events: []placed{{tag: TagNull}}}
		err = null.intoMember(v, m, typ, at)
	}
	return err
}

// intoMember takes the next value, that of a field of a UDT, and passes over it where the struct has no field for it.
func (c *cell) intoMember(v reflect.Value, m *members, typ *Type, at int) error {
	if at < len(typ.Names) { // else it is bytes after the last field
		if i, is := m.find(typ.Names[at]); is {
			field := &m.fields[i]
			if err := c.into(v.FieldByIndex(field.index)); err != nil {
				return fmt.Errorf("%s %v: %w", field.path, field.typ, err)
			}
			return nil
		}
	}
	_ = c.value()
	return nil
}
