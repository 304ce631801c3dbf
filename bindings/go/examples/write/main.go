// Writes a page of this many rows to standard output: go run ./examples/write ROWS
package main

import (
	"bufio"
	"fmt"
	"log"
	"os"
	"strconv"

	"cqlp.example.org/cqlp"
)

// head has the events before the first cell.
func head(rows int) []cqlp.Event {
	return []cqlp.Event{
		{Tag: cqlp.TagFrame, Mark: cqlp.MarkResponse, Opcode: cqlp.OpcodeResult, Extra: 3},
		{Tag: cqlp.TagInt, Field: cqlp.FieldResultKind, Number: int64(cqlp.ResultRows)},
		{Tag: cqlp.TagInt, Field: cqlp.FieldMetaFlags, Number: 1}, // one table for all columns
		{Tag: cqlp.TagCount, Field: cqlp.FieldColumns, Number: 2},
		{Tag: cqlp.TagText, Field: cqlp.FieldKeyspace, Content: []byte("shop")},
		{Tag: cqlp.TagText, Field: cqlp.FieldTable, Content: []byte("orders")},
		{Tag: cqlp.TagText, Field: cqlp.FieldColumnName, Content: []byte("id")},
		{Tag: cqlp.TagTypeNode, Kind: cqlp.KindInt},
		{Tag: cqlp.TagText, Field: cqlp.FieldColumnName, Content: []byte("name")},
		{Tag: cqlp.TagTypeNode, Kind: cqlp.KindVarchar},
		{Tag: cqlp.TagCount, Field: cqlp.FieldRows, Number: int64(rows)},
	}
}

// cells has the cells of a row, of which the name of each third one is null.
func cells(row int) []cqlp.Event {
	id := cqlp.Event{Tag: cqlp.TagLeaf, Kind: cqlp.KindInt, Row: uint32(row), Number: int64(row)}
	name := cqlp.Event{Tag: cqlp.TagLeaf, Kind: cqlp.KindVarchar, Row: uint32(row), Column: 1, Content: []byte(fmt.Sprint("order ", row))}
	if row%3 == 2 {
		name = cqlp.Event{Tag: cqlp.TagNull, Row: uint32(row), Column: 1}
	}
	return []cqlp.Event{id, name}
}

// size is how many bytes the cells have: the header counts them, and is written first.
func size(rows int) (total uint64, err error) {
	for row := 0; row < rows; row++ {
		some, err := cqlp.CellsSize(cells(row)...)
		if err != nil {
			return 0, err
		}
		total += some
	}
	return total, nil
}

func write(out *bufio.Writer, rows int) (err error) {
	page := cqlp.NewPageWriter(out)
	if page.Size, err = size(rows); err != nil {
		return err
	}
	for _, event := range head(rows) {
		if err := page.Encode(event); err != nil {
			return err
		}
	}
	for row := 0; row < rows; row++ {
		for _, event := range cells(row) {
			if err := page.Encode(event); err != nil {
				return err
			}
		}
	}
	if err := page.Close(); err != nil {
		return err
	}
	return out.Flush()
}

func main() {
	rows, err := strconv.Atoi(os.Args[1])
	if err != nil {
		log.Fatal(err)
	}
	if err := write(bufio.NewWriter(os.Stdout), rows); err != nil {
		log.Fatal(err)
	}
}
