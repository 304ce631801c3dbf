// Sums the amounts of the orders in a file of pages: go run ./examples/scan FILE
package main

import (
	"fmt"
	"log"
	"os"

	"cqlp.example.org/cqlp"
)

// An order is a row, by the names of the columns.
type order struct {
	ID     int32   `cqlp:"column0"`
	Amount int64   `cqlp:"column1"`
	Name   *string `cqlp:"column2"` // nil for null
}

func main() {
	file, err := os.Open(os.Args[1])
	if err != nil {
		log.Fatal(err)
	}
	defer file.Close()
	rows, err := cqlp.NewRowReader(file, cqlp.DefaultLimits())
	if err != nil {
		log.Fatal(err)
	}
	defer rows.Close()
	sum := int64(0)
	for rows.Next() {
		var o order
		if err := rows.Scan(&o); err != nil {
			fmt.Println("left out:", err) // a *cqlp.ScanError
			continue
		}
		fmt.Println(o.ID, *o.Name)
		sum += o.Amount
	}
	if err := rows.Err(); err != nil {
		log.Fatal(err) // a *cqlp.Refusal, a *cqlp.Cut, or what the file answered
	}
	fmt.Println("the sum is", sum)
}
