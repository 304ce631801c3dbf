package cqlp

import (
	"context"
	"fmt"
	"io"
	"reflect"
)

// A RowReader gives the rows of the pages that an io.Reader reads, one at a time. It holds one row, and what its Limits say. It passes over frames
// that are no page.
//
//	for rows.Next() {
//		if err := rows.Scan(&id, &name); err != nil {
//			return err
//		}
//	}
//	return rows.Err()
//
// Skip and Types are those of the Reader: where a frame is passed over, the page within it ends.
type RowReader struct {
	Reader

	parser parser
	cells  cells
	// whether a page is under way, and the last page
	within bool
	page   Page
	// the struct that Scan put a row into last
	record record
}

// A Page describes the page of a row.
type Page struct {
	// At is the offset of its frame, and Stream its stream id.
	At     uint64
	Stream int16
	// Number counts the pages from 1 on, and is 0 before the first.
	Number   int
	Metadata Metadata
	// Count is how many rows it says that it has.
	Count int32
}

// NewRowReader makes a decoder for what is read. Close frees it, and does not close the io.Reader.
func NewRowReader(source io.Reader, limits Limits) (*RowReader, error) {
	return newRowReader(NewReader(source, limits))
}

// NewLenientRowReader makes one for a lenient reading, as NewLenientDecoder: Values has a content that its type does not have as []byte, and
// Scan puts it into bytes or a string, and into nothing else. Bytes after the last field of a tuple are an item more; of a UDT they are a
// value without a name.
func NewLenientRowReader(source io.Reader, limits Limits) (*RowReader, error) {
	return newRowReader(NewLenientReader(source, limits))
}

func newRowReader(reader *Reader, err error) (*RowReader, error) {
	if err != nil {
		return nil, err
	}
	reader.decoder.events = new([room]placed)
	r := &RowReader{Reader: *reader}
	r.parser.reader, r.cells.parser = &r.Reader, &r.parser
	return r, nil
}

// Next goes on to the next row, of this page or of the next, and says whether there is one.
func (r *RowReader) Next() bool {
	if r.within && !r.decoder.closed() && r.cells.lend() {
		return true
	}
	if !r.enter() {
		return false
	}
	defer r.decoder.leave()
	for {
		if r.within && r.cells.next() {
			return true
		}
		if !r.nextPage() {
			return false
		}
	}
}

// NextContext is Next, but ends once ctx is done, as Reader.NextContext does: Err is then the error of ctx. Where that is between two frames the next
// call reads on; within a page the rows have ended.
func (r *RowReader) NextContext(ctx context.Context) bool {
	defer r.during(ctx)()
	return r.Next()
}

// enter begins a call, and says whether it may go on; where it may not, there is no row.
func (r *RowReader) enter() bool {
	is := r.parser.enter()
	if !is {
		r.within = false
		r.cells.clear()
	}
	return is
}

// NextPage passes over what is left of a page, and says whether there is another one. Its first row is the next that Next gives, so a
// page without rows is seen too.
func (r *RowReader) NextPage() bool {
	if !r.enter() {
		return false
	}
	defer r.decoder.leave()
	return r.nextPage()
}

// NextPageContext is NextPage, but ends once ctx is done, as NextContext does: the metadata of a Page have the paging state of a paged query.
func (r *RowReader) NextPageContext(ctx context.Context) bool {
	defer r.during(ctx)()
	return r.NextPage()
}

func (r *RowReader) nextPage() bool {
	p := &r.parser
	for r.within && r.cells.next() {
	}
	for {
		if r.within {
			p.end()
			r.within = false
		}
		head, err := p.begin()
		if err != nil {
			return false
		}
		if r.within = true; r.begin(head) {
			return true
		}
	}
}

// begin reads a frame up to the rows of a page, where it is one.
func (r *RowReader) begin(head Event) bool {
	if head.Opcode != OpcodeResult {
		return false
	}
	p := &r.parser
	p.front(head)
	if ResultKind(p.number(FieldResultKind)) != ResultRows {
		return false
	}
	metadata := p.metadata()
	count := p.int(FieldRows)
	if p.failed != nil {
		return false
	}
	r.page = Page{head.At, int16(head.Extra), r.page.Number + 1, metadata, count}
	r.cells.begin(&r.page.Metadata, r.typing)
	return true
}

// Page describes the page of the last row.
func (r *RowReader) Page() Page { return r.page }

// Columns are the columns of the page, as it describes them or as the table that types it does; none where neither does.
func (r *RowReader) Columns() []Column { return r.cells.columns }

// Scan puts the values of the row into what the pointers point to, one for each column. nil passes over a column. A value goes into
//
//   - any: what Values has of it
//   - a bool, an integer or a float in whose range it is, a string, []byte, or a type of these kinds; RawBytes lends the content until Next
//   - time.Time, time.Duration, UUID, [16]byte, net.IP, netip.Addr, big.Int, Decimal
//   - a pointer to one of these, which is nil where the value is null; else null is ErrNull, but that slices and maps are nil
//   - a slice of one of these, of a list, a set or a tuple; a map, of a map, or of a UDT by its fields' names; []Pair and []NamedValue
//   - a struct with tags, of a UDT by its fields' names
//   - an sql.Scanner.
//
// A single pointer to a struct with tags takes the row by the columns' names:
//
//	type user struct {
//		ID   int32   `cqlp:"id"`
//		Name *string `cqlp:"name"` // nil for null
//	}
//
// Columns and fields of a UDT without a tag are passed over, and a tag that none of them has is ErrNoColumn. Fields without a tag stay as they are;
// those of a struct that is embedded count too.
//
// A timestamp in an integer is milliseconds from 1970, a time nanoseconds since midnight. The error is a *ScanError, and the reading may go on.
func (r *RowReader) Scan(to ...any) error {
	if r.cells.count == 0 {
		return r.rowError(ErrNoRow)
	}
	if len(to) == 1 && r.isRecord(to[0]) {
		return r.scanRecord(to[0])
	}
	if len(to) != r.cells.count {
		return r.rowError(fmt.Errorf("Scan has %d pointers for %d columns", len(to), r.cells.count))
	}
	for i, to := range to {
		// most cells are scalars, so this is not in a function of its own
		if e := &r.cells.row[r.cells.start(i)]; e.tag == TagLeaf {
			if done, err := putLeaf(e, r.cells.from, to); done && err == nil {
				continue
			}
		} else if e.tag == TagEnter && r.cells.putItems(i, to) {
			continue
		}
		cell := r.cells.cell(i)
		if err := cell.scan(to); err != nil {
			into := reflect.TypeOf(to)
			if into.Kind() == reflect.Pointer {
				into = into.Elem()
			}
			return r.scanError(i, "", into, err)
		}
	}
	return nil
}

// rowError is an error of no column.
func (r *RowReader) rowError(err error) *ScanError {
	failed := &ScanError{Column: r.cells.count, Err: err}
	if len(r.cells.row) > 0 {
		failed.Row = int(r.cells.row[0].row)
	}
	return failed
}

// scanError is the error of a column that does not go into a variable, or a field, of this type.
func (r *RowReader) scanError(column int, field string, into reflect.Type, err error) *ScanError {
	failed := r.rowError(err)
	failed.Column, failed.Field, failed.Into = column, field, into
	if column < len(r.cells.columns) {
		failed.Name, failed.Type = r.cells.columns[column].Name, r.cells.columns[column].Type
	}
	return failed
}

// Values are those of the row, one for each column, which live on: of a scalar Event.Value, nil where it is null, Empty where it has no bytes
// and is neither a text nor bytes; []any of a list, a set or a tuple, []Pair of a map, []NamedValue of a UDT. Fields of a tuple or a UDT
// that did not come are nil.
func (r *RowReader) Values() []any { return r.cells.values() }

// Err is what ended the rows, or nil where it is the end of the stream: a *Refusal, a *Cut, or the error of the io.Reader.
func (r *RowReader) Err() error {
	if err := r.parser.failed; err != io.EOF && err != errPassed {
		return err
	}
	return nil
}
