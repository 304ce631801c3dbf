package cqlp

import (
	"encoding/binary"
	"errors"
	"fmt"
	"math"
	"unsafe"
)

// A CellTooLong says that a value of a page is longer than its array may hold.
type CellTooLong struct {
	// Row and Column count from 0 within the page.
	Row, Column uint32
}

func (e *CellTooLong) Error() string {
	return fmt.Sprintf("cqlp: the value in row %d, column %d is longer than the arrays may hold", e.Row, e.Column)
}

// ErrUntold says that a table types a page whose columns nobody has described: set Types.Columns.
var ErrUntold = errors.New("cqlp: the columns of the page are not told")

// BatchLimits say how large the batches of a ColumnReader are, and what they hold.
type BatchLimits struct {
	// Rows bounds the rows of a batch.
	Rows int
	// Memory bounds the bytes of all arrays together. Where columns are many or values long, a batch has fewer rows.
	Memory int
}

// DefaultBatchLimits are 8192 rows, and 64 MiB of memory.
func DefaultBatchLimits() BatchLimits { return BatchLimits{Rows: 8192, Memory: 1 << 26} }

// A ColumnArray has the values of a column of a batch, in the layout of Apache Arrow, copied out of the library's memory: each array begins at a
// multiple of 8 bytes. The ColumnReader writes the next batch over them, and nothing else does: they outlive the reader.
type ColumnArray struct {
	// Column describes the column; its name is empty where neither the page nor its types name it.
	Column Column
	// Kind is that of the values: KindRaw where they are not read by their type.
	Kind Kind
	// Cells is how many there are.
	Cells int
	// Values are the values, one after the other, zeros where a cell has none: of booleans a bit each, the least of a byte first; numbers with
	// their lowest byte first; of UUIDs 16 bytes; of other kinds the bytes between the offsets. A date is the days from 1970 and 2^31 to them.
	Values []byte
	// Offsets say, of values without a fixed length, where each begins in Values, and where the last one ends.
	Offsets []uint64
	// Valid has a bit for each cell, set where it has a value, the least of a byte first. Bits after the last count for nothing.
	Valid []byte
	// Empty has a bit for each cell, set where it has a value of no bytes; of values of a fixed length such a cell is not set in Valid.
	Empty []byte
}

func bitOf(bits []byte, i int) bool { return bits[i/8]>>(i%8)&1 != 0 }

// IsValid says whether a cell has a value.
func (a *ColumnArray) IsValid(i int) bool { return bitOf(a.Valid, i) }

// IsEmpty says whether a cell has a value of no bytes.
func (a *ColumnArray) IsEmpty(i int) bool { return bitOf(a.Empty, i) }

// Bool is the value of a cell of booleans.
func (a *ColumnArray) Bool(i int) bool { return bitOf(a.Values, i) }

// Bytes is the value of a cell of UUIDs, or of values without a fixed length.
func (a *ColumnArray) Bytes(i int) []byte {
	if a.Offsets == nil {
		return a.Values[16*i : 16*i+16 : 16*i+16]
	}
	return a.Values[a.Offsets[i]:a.Offsets[i+1]:a.Offsets[i+1]]
}

// Int8s are the values of a column of tinyints, and nil of another kind.
func (a *ColumnArray) Int8s() []int8 {
	return numbers(a, func(b []byte) int8 { return int8(b[0]) }, KindTinyint)
}

// Int16s are the values of a column of smallints, and nil of another kind.
func (a *ColumnArray) Int16s() []int16 {
	return numbers(a, func(b []byte) int16 { return int16(binary.LittleEndian.Uint16(b)) }, KindSmallint)
}

// Int32s are the values of a column of ints, and nil of another kind.
func (a *ColumnArray) Int32s() []int32 {
	return numbers(a, func(b []byte) int32 { return int32(binary.LittleEndian.Uint32(b)) }, KindInt)
}

// Uint32s are the values of a column of dates, and nil of another kind.
func (a *ColumnArray) Uint32s() []uint32 { return numbers(a, binary.LittleEndian.Uint32, KindDate) }

// Int64s are the values of a column of bigints, counters, timestamps or times, and nil of another kind.
func (a *ColumnArray) Int64s() []int64 {
	get := func(b []byte) int64 { return int64(binary.LittleEndian.Uint64(b)) }
	return numbers(a, get, KindBigint, KindCounter, KindTimestamp, KindTime)
}

// Float32s are the values of a column of floats, and nil of another kind.
func (a *ColumnArray) Float32s() []float32 {
	return numbers(a, func(b []byte) float32 { return math.Float32frombits(binary.LittleEndian.Uint32(b)) }, KindFloat)
}

// Float64s are the values of a column of doubles, and nil of another kind.
func (a *ColumnArray) Float64s() []float64 {
	return numbers(a, func(b []byte) float64 { return math.Float64frombits(binary.LittleEndian.Uint64(b)) }, KindDouble)
}

// littleEndian says whether this machine has the lowest byte of a number first, as the arrays do.
var littleEndian = func() bool { n := uint16(1); return *(*byte)(unsafe.Pointer(&n)) == 1 }()

// numbers are the values of a column of one of these kinds: its memory where this machine reads them there, else copies.
func numbers[T any](a *ColumnArray, get func([]byte) T, kinds ...Kind) []T {
	is := false
	for _, kind := range kinds {
		is = is || kind == a.Kind
	}
	if !is {
		return nil
	}
	if a.Cells == 0 {
		return []T{}
	}
	var zero T
	size, first := unsafe.Sizeof(zero), unsafe.Pointer(&a.Values[0])
	if littleEndian && uintptr(first)%size == 0 {
		return unsafe.Slice((*T)(first), a.Cells)
	}
	found := make([]T, a.Cells)
	for i := range found {
		found[i] = get(a.Values[uintptr(i)*size:])
	}
	return found
}
