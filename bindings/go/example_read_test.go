//go:build cgo

package cqlp_test

import (
	"bytes"
	"fmt"
	"log"

	"cqlp.example.org/cqlp"
)

// An order is a row of the page, by its tags.
type order struct {
	ID    int32            `cqlp:"id"`
	Name  *string          `cqlp:"name"` // nil for null
	Items map[string]int64 `cqlp:"items"`
}

// ordersPage is a page of a server.
func ordersPage() []byte {
	text, number := cqlp.Type{Kind: cqlp.KindVarchar}, cqlp.Type{Kind: cqlp.KindInt}
	page := &cqlp.Rows{Rows: [][]any{{1, "Ann", map[string]int{"tea": 2}}, {2, nil, nil}}}
	page.Metadata.Columns = []cqlp.Column{{Name: "id", Type: number}, {Name: "name", Type: text}, {Name: "items", Type: cqlp.Type{Kind: cqlp.KindMap, Inner: []cqlp.Type{text, number}}}}
	message, err := cqlp.AppendMessage(nil, 1, page)
	if err != nil {
		log.Fatal(err)
	}
	return message
}

// Read a page: its rows go into structs.
func Example_readAPage() {
	rows, err := cqlp.NewRowReader(bytes.NewReader(ordersPage()), cqlp.DefaultLimits())
	if err != nil {
		log.Fatal(err)
	}
	defer rows.Close()
	for rows.Next() {
		var o order
		if err := rows.Scan(&o); err != nil {
			log.Fatal(err)
		}
		fmt.Println(o.ID, o.Name != nil, o.Items)
	}
	fmt.Println(rows.Err())
	// Output:
	// 1 true map[tea:2]
	// 2 false map[]
	// <nil>
}
