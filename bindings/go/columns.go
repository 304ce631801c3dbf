package cqlp

// #include "box.h"
import "C"

import (
	"context"
	"io"
	"unsafe"
)

// A ColumnReader gives the rows of the pages that an io.Reader reads in batches, column by column, in the layout of Apache Arrow. It passes over
// frames that are no page. A page with a column of lists, sets, maps, tuples or UDTs ends it with CodeUnsupported, one with more columns than
// Limits.Entries with CodeTooManyColumns: read them by a RowReader. A part of a value, where Limits.Parts is set, is a *CellTooLong.
//
//	for columns.Next() {
//		for _, id := range columns.Columns()[0].Int32s() {
//			sum += int64(id)
//		}
//	}
//	return columns.Err()
//
// Skip and Types are those of the Reader: where a frame is passed over, the page within it ends. A page that a Types types is read by its Columns.
type ColumnReader struct {
	Reader

	parser parser
	limits Limits
	batch  BatchLimits
	// what the arrays that are there were made for
	kinds []byte
	sizes C.cqlp_batch_limits
	// whether a page is under way, the last page, and its columns as they are described
	within bool
	page   Page
	known  []Column
	// how many rows of the page came before the batch, and which they are
	first int
	// the arrays of the batch, and the memory that they lie in, of words so that numbers can be read there
	arrays []ColumnArray
	memory []uint64
	count  int
}

// NewColumnReader makes a decoder for what is read. Close frees it, and does not close the io.Reader.
func NewColumnReader(source io.Reader, limits Limits, batch BatchLimits) (*ColumnReader, error) {
	if batch.Rows < 1 || batch.Memory < 1 {
		return nil, &LimitError{"batch"}
	}
	reader, err := NewReader(source, limits)
	if err != nil {
		return nil, err
	}
	r := &ColumnReader{Reader: *reader, limits: limits, batch: batch}
	r.room = 1
	r.parser.reader = &r.Reader
	return r, nil
}

// Next goes on to the next batch, of this page or of the next, and says whether there is one. A page has a batch at least, also where it has
// no rows.
func (r *ColumnReader) Next() bool {
	r.first += r.count
	r.count, r.arrays = 0, r.arrays[:0]
	if !r.parser.enter() {
		r.within, r.filling = false, false
		return false
	}
	defer r.decoder.leave()
	C.cqlp_columns_clear(&r.decoder.box.columns)
	for r.within || r.begins() {
		if r.goOn() {
			return true
		}
	}
	return false
}

// NextContext is Next, but ends once ctx is done, as RowReader.NextContext does.
func (r *ColumnReader) NextContext(ctx context.Context) bool {
	defer r.during(ctx)()
	return r.Next()
}

// Columns are the arrays of the batch, one for each column of its page, until the next call of Next.
func (r *ColumnReader) Columns() []ColumnArray { return r.arrays }

// Rows is how many rows the batch has, and First which row of its page is the first of them, counted from 0.
func (r *ColumnReader) Rows() int  { return r.count }
func (r *ColumnReader) First() int { return r.first }

// Page describes the page of the batch.
func (r *ColumnReader) Page() Page { return r.page }

// Err is what ended the batches, or nil where it is the end of the stream: a *Refusal, a *Cut, or the error of the io.Reader.
func (r *ColumnReader) Err() error {
	if err := r.parser.failed; err != io.EOF && err != errPassed {
		return err
	}
	return nil
}

// begins reads on up to the rows of the next page.
func (r *ColumnReader) begins() bool {
	p := &r.parser
	for {
		head, err := p.begin()
		if err != nil {
			return false
		}
		if head.Opcode == OpcodeResult && r.beginPage(head) {
			return p.failed == nil
		}
		p.end()
	}
}

func (r *ColumnReader) beginPage(head Event) bool {
	p := &r.parser
	p.front(head)
	if ResultKind(p.number(FieldResultKind)) != ResultRows {
		return false
	}
	metadata := p.metadata()
	count := p.int(FieldRows)
	if p.failed != nil {
		return false
	}
	r.page, r.first = Page{head.At, int16(head.Extra), r.page.Number + 1, metadata, count}, 0
	r.within = true
	if metadata.Width > 0 {
		if err := r.make(uint64(head.Number)); err != nil {
			p.failed, r.within = err, false
			return true
		}
		r.filling = true
	}
	return true
}

// make makes arrays for the page, whose body has this many bytes. Those that are there are used again where they are as large.
func (r *ColumnReader) make(body uint64) error {
	width := r.page.Metadata.Width
	if uint32(width) > r.limits.Entries {
		return CodeTooManyColumns
	}
	kinds, err := r.kindsOf()
	if err != nil {
		return err
	}
	box, sizes := r.decoder.box, r.sizesFor(kinds, body)
	there := r.sizes
	if string(kinds) == string(r.kinds) && there.rows >= sizes.rows && there.bytes >= sizes.bytes && there.content >= sizes.content {
		C.cqlp_columns_clear(&box.columns)
		return nil
	}
	C.cqlp_columns_free(&box.columns)
	r.kinds, r.sizes = nil, C.cqlp_batch_limits{}
	if err := done(C.cqlp_columns_new(&sizes, (*C.uint8_t)(unsafe.Pointer(&kinds[0])), C.size_t(width), &box.columns)); err != nil {
		return err
	}
	r.kinds, r.sizes, r.decoder.width = kinds, sizes, len(kinds)
	return nil
}

// kindsOf are the kinds by which the cells of the page are read.
func (r *ColumnReader) kindsOf() ([]byte, error) {
	page := &r.page.Metadata
	kinds := make([]byte, page.Width)
	for i := range kinds {
		kinds[i] = byte(KindRaw)
	}
	r.known = page.Columns
	if page.Flags&4 != 0 && r.typing != nil {
		switch r.known = r.typing.Columns; {
		case len(r.known) == 0:
			return nil, ErrUntold
		case len(r.known) != len(kinds): // then the table does not type the page
			r.known = nil
		}
	}
	if r.limits.Types {
		for i := range r.known {
			kinds[i] = byte(r.known[i].Type.Kind)
		}
	}
	return kinds, nil
}

// sizesFor is such that all arrays together have no more than the memory, and none has more than the page needs: values of a fixed length have 16
// bytes at most.
func (r *ColumnReader) sizesFor(kinds []byte, body uint64) C.cqlp_batch_limits {
	share := uint64(r.batch.Memory) / uint64(len(kinds))
	rows := greatest(least(uint64(r.batch.Rows), share/32, uint64(r.page.Count), 1<<24), 1)
	bytes, content := 16*rows, uint64(16)
	if !areFixed(kinds) {
		bytes = greatest(least(64*uint64(r.batch.Rows), share/4, body), 1)
		content = greatest(least(uint64(r.limits.Cell), share/4, body), 16)
	}
	return C.cqlp_batch_limits{
		columns: C.uint32_t(len(kinds)),
		rows:    C.uint32_t(rows),
		bytes:   C.uint32_t(bytes),
		content: C.uint32_t(content),
	}
}

// areFixed says whether all values of these kinds have a fixed length.
func areFixed(kinds []byte) bool {
	for _, kind := range kinds {
		switch Kind(kind) {
		case KindCustom, KindASCII, KindBlob, KindDecimal, KindVarchar, KindVarint, KindInet, KindRaw:
			return false
		}
	}
	return true
}

func least(first uint64, others ...uint64) uint64 {
	for _, n := range others {
		if n < first {
			first = n
		}
	}
	return first
}

func greatest(a, b uint64) uint64 {
	if a > b {
		return a
	}
	return b
}

// goOn reads on within a page, and says whether there is a batch.
func (r *ColumnReader) goOn() bool {
	p := &r.parser
	if !r.filling {
		p.end()
		r.within = false
		return p.failed == nil
	}
	err := r.fill()
	r.copyOut()
	if err == errFull {
		return true
	}
	r.filling, r.within = false, false
	if err != nil {
		p.failed = err
		return r.count > 0
	}
	p.failed = r.next(&p.event)
	switch {
	case p.failed != nil:
	case p.event.Tag == TagEnd:
		return r.count > 0 || r.first == 0
	case p.event.Tag == TagFrame:
		p.failed = errPassed
	default:
		p.failed = &CellTooLong{p.event.Row, p.event.Column}
	}
	return r.count > 0
}

// copyOut copies the whole rows that came.
func (r *ColumnReader) copyOut() {
	box, words := r.decoder.box, 0
	r.arrays, r.count = r.arrays[:0], int(C.cqlp_box_rows(box, C.size_t(len(r.kinds))))
	for i := range r.kinds {
		C.cqlp_columns_get(&box.columns, C.size_t(i), &box.column)
		found := arrayOf(&box.column, r.count)
		if i < len(r.known) {
			found.Column = r.known[i]
		}
		words += wordCount(found.Values) + len(found.Offsets) + wordCount(found.Valid) + wordCount(found.Empty)
		r.arrays = append(r.arrays, found)
	}
	if cap(r.memory) < words {
		r.memory = make([]uint64, words)
	}
	left := r.memory[:words]
	for i := range r.arrays {
		a := &r.arrays[i]
		a.Values = copied(a.Values, &left)
		if a.Offsets != nil {
			bounds := left[:len(a.Offsets):len(a.Offsets)]
			left = left[copy(bounds, a.Offsets):]
			a.Offsets = bounds
		}
		a.Valid, a.Empty = copied(a.Valid, &left), copied(a.Empty, &left)
	}
}

// wordCount is how many words of 8 bytes these take.
func wordCount(b []byte) int { return (len(b) + 7) / 8 }

// copied copies bytes to the first of the words that are left, and takes these from them.
func copied(b []byte, left *[]uint64) []byte {
	if len(b) == 0 {
		return []byte{}
	}
	to := unsafe.Slice((*byte)(unsafe.Pointer(&(*left)[0])), len(b))
	*left = (*left)[wordCount(b):]
	copy(to, b)
	return to
}

func bytesOf(first *C.uint8_t, length int) []byte {
	if length == 0 {
		return []byte{}
	}
	return unsafe.Slice((*byte)(unsafe.Pointer(first)), length)
}

// arrayOf has the first cells of a column, in the memory of C.
func arrayOf(native *C.cqlp_column, cells int) ColumnArray {
	a := ColumnArray{Kind: Kind(native.kind), Cells: cells}
	bits, size := (cells+7)/8, int(native.size)
	switch {
	case native.bounds > 0:
		a.Offsets = unsafe.Slice((*uint64)(unsafe.Pointer(native.offsets)), cells+1)
		size = int(a.Offsets[cells])
	case a.Kind == KindBoolean:
		size = bits
	case native.cells > 0:
		size = size / int(native.cells) * cells
	}
	a.Values, a.Valid, a.Empty = bytesOf(native.values, size), bytesOf(native.validity, bits), bytesOf(native.empties, bits)
	return a
}
