package cqlp

// Empty is a value of no bytes, of a type that is neither a text nor bytes.
type Empty struct{}

// A Pair is an item of a map.
type Pair struct{ Key, Value any }

// A NamedValue is a field of a UDT.
type NamedValue struct {
	Name  string
	Value any
}

// cells has the events of a row, since Scan reads them as what they are asked for. A row that lies in a batch is read there, and one that is of several is
// gathered.
type cells struct {
	parser *parser
	width  int
	// the columns, if they are described
	columns []Column
	// the events of the row, and what their contents lie in
	row  []placed
	from []byte
	// how many cells the row has, and where they begin among the events, nil where each cell is one event
	count  int
	starts []int
	// the cell whose items are put
	lent cell
	// how many events the last row had that lay in a batch
	each int
	// what a row is gathered in
	events []placed
	memory []byte
	begins []int
}

// begin makes ready for the rows of a page, which this table types where the page describes no columns.
func (c *cells) begin(page *Metadata, types *Types) {
	c.width, c.columns = int(page.Width), page.Columns
	if page.Flags&4 != 0 && types != nil && len(types.Columns) == c.width {
		c.columns = types.Columns
	}
}

// clear leaves no row.
func (c *cells) clear() { c.row, c.from, c.count, c.starts = nil, nil, 0, nil }

// next goes on to the next row, where one comes.
func (c *cells) next() bool {
	if d := c.parser.reader.decoder; d.next == d.count && c.width > 0 {
		c.events = c.events[:0]
		if !c.comes() {
			c.clear()
			return false
		}
	}
	return c.lend() || c.lendItems() || c.gather()
}

// lend takes a row of scalars that lies in the batch: the last of as many events as there are columns is then of the last column. The memory of
// such a row is Go's, so this needs no enter.
func (c *cells) lend() bool {
	d := c.parser.reader.decoder
	end := d.next + c.width
	if c.width == 0 || c.parser.failed != nil || end > d.count {
		return false
	}
	row := d.events[d.next:end]
	first, last := &row[0], &row[len(row)-1]
	if !first.isScalar() || !last.isScalar() || last.level != 0 || int(last.column) != len(row)-1 || last.row != first.row || last.place == inDecoder {
		return false
	}
	d.next = end
	c.row, c.from, c.count, c.starts, c.each = row, d.piece, len(row), nil, len(row)
	return true
}

// lendItems takes a row with items that lies in the batch.
func (c *cells) lendItems() bool {
	d := c.parser.reader.decoder
	c.begins = c.begins[:0]
	if c.width == 0 || c.parser.failed != nil {
		return false
	}
	row, open := d.events[d.next:d.count], false
	for i := range row {
		e := &row[i]
		if !e.isOfCell() || e.place == inDecoder {
			return false
		}
		if !open {
			c.begins = append(c.begins, i)
		}
		if open = e.goesOn(); !open && len(c.begins) == c.width {
			d.next += i + 1
			c.row, c.from, c.count, c.starts, c.each = row[:i+1], d.piece, c.width, c.begins, i+1
			return true
		}
	}
	return false
}

// gather copies the events of the next row, and their contents.
func (c *cells) gather() bool {
	c.clear()
	c.events, c.memory, c.begins = c.events[:0], c.memory[:0], c.begins[:0]
	d := c.parser.reader.decoder
	for open := false; open || len(c.begins) < c.width; {
		if !c.comes() {
			return false
		}
		if !open {
			c.begins = append(c.begins, len(c.events))
		}
		e := d.events[d.next]
		if e.length > 0 {
			at := len(c.memory)
			c.memory = d.appendContent(c.memory, d.next)
			e.place = uintptr(at)
		}
		d.next++
		c.events = append(c.events, e)
		open = e.goesOn()
	}
	c.row, c.from, c.count, c.starts = c.events, c.memory, c.width, c.begins
	return c.width > 0
}

// comes says whether the next event is one of a cell.
func (c *cells) comes() bool {
	d := c.parser.reader.decoder
	if c.parser.failed == nil && d.next == d.count {
		c.parser.reader.room = c.room()
		c.parser.failed = c.parser.reader.fill()
		c.parser.reader.room = room
	}
	return c.parser.failed == nil && d.events[d.next].isOfCell()
}

// room is how many events the next batch may have: so many that it ends with a row, where the rows have as many events as the last one that lay in a batch.
func (c *cells) room() int {
	each, rest := c.each, 0
	if each < c.width {
		each = c.width
	}
	if each > room {
		return room
	}
	if had := len(c.events); had < each {
		rest = each - had
	}
	return rest + (room-rest)/each*each
}

// start is where a cell begins.
func (c *cells) start(at int) int {
	if c.starts == nil {
		return at
	}
	return c.starts[at]
}

// cell has the events of a cell, and its type, or nil where no columns are described.
func (c *cells) cell(at int) cell {
	end := len(c.row)
	if at+1 < c.count {
		end = c.start(at + 1)
	}
	found := cell{events: c.row[c.start(at):end], from: c.from}
	if at < len(c.columns) {
		found.typ = &c.columns[at].Type
	}
	return found
}

// putItems puts a cell with items into what is asked for most, as cell.putItems, without one on the heap, and says whether it did. No code of a caller runs in
// it, so none asks for another cell meanwhile.
func (c *cells) putItems(at int, to any) bool {
	c.lent = c.cell(at)
	done, err := c.lent.putItems(to)
	return done && err == nil
}

func (c *cells) values() []any {
	values := make([]any, c.count)
	for i := range values {
		cell := c.cell(i)
		values[i] = cell.value()
	}
	return values
}

// A cell, or what is left of it: the events of the values that come next, what their contents lie in, and the type of the first, where it is known.
type cell struct {
	events []placed
	from   []byte
	typ    *Type
}

// take takes the next event.
func (c *cell) take() *placed {
	e := &c.events[0]
	c.events = c.events[1:]
	return e
}

// value takes the next value.
func (c *cell) value() any {
	typ := c.typ
	switch e := c.take(); e.tag {
	case TagNull:
		return nil
	case TagEmpty:
		return emptyOf(typ)
	case TagPart:
		return c.parts(e)
	case TagEnter:
		return c.items(e, typ)
	default:
		return e.value(c.from)
	}
}

// kindOf is that of a type, raw where it is not known.
func kindOf(typ *Type) Kind {
	if typ == nil {
		return KindRaw
	}
	return typ.Kind
}

func emptyOf(typ *Type) any {
	switch kindOf(typ) {
	case KindASCII, KindVarchar:
		return ""
	case KindBlob, KindCustom, KindRaw:
		return []byte{}
	}
	return Empty{}
}

// parts puts the parts of a value together, of which this is the first.
func (c *cell) parts(e *placed) []byte {
	whole := clone(e.content(c.from))
	for e.mark != MarkLast {
		e = c.take()
		whole = append(whole, e.content(c.from)...)
	}
	return whole
}

// each calls item for each value in the one that began, with the cell at it, and takes its end.
func (c *cell) each(begin *placed, typ *Type, item func(at int) error) error {
	for at := 0; !c.ends(begin); at++ {
		c.typ = innerOf(typ, begin.kind, at)
		if err := item(at); err != nil {
			return err
		}
	}
	c.take()
	return nil
}

// innerOf is the type of an item, where that of the whole is known.
func innerOf(typ *Type, kind Kind, at int) *Type {
	if typ == nil || len(typ.Inner) == 0 {
		return nil
	}
	switch kind {
	case KindMap:
		return &typ.Inner[at%2]
	case KindList, KindSet:
		return &typ.Inner[0]
	}
	if at < len(typ.Inner) {
		return &typ.Inner[at]
	}
	return nil // bytes after the last field, as a lenient reading gives them
}

func (c *cell) items(begin *placed, typ *Type) any {
	items := []any{}
	_ = c.each(begin, typ, func(int) error {
		items = append(items, c.value())
		return nil
	})
	switch begin.kind {
	case KindMap:
		pairs := make([]Pair, len(items)/2)
		for i := range pairs {
			pairs[i] = Pair{items[2*i], items[2*i+1]}
		}
		return pairs
	case KindTuple, KindUDT:
		for len(items) < int(begin.number) {
			items = append(items, nil)
		}
	}
	if begin.kind == KindUDT {
		return namedValues(items, typ)
	}
	return items
}

// namedValues are the fields of a UDT, without names where the type is not known. Bytes after the last field have none.
func namedValues(items []any, typ *Type) []NamedValue {
	named := make([]NamedValue, len(items))
	for i, item := range items {
		named[i].Value = item
		if typ != nil && i < len(typ.Names) {
			named[i].Name = typ.Names[i]
		}
	}
	return named
}

func clone(b []byte) []byte { return append(make([]byte, 0, len(b)), b...) }
