// Prints the rows of the pages in a file: go run ./examples/page FILE
package main

import (
	"fmt"
	"log"
	"os"

	"cqlp.example.org/cqlp"
)

// printPage prints the columns of a page, and then its rows.
func printPage(rows *cqlp.RowReader) {
	for _, column := range rows.Columns() {
		fmt.Printf("%s %v, ", column.Name, column.Type)
	}
	fmt.Println(rows.Page().Count, "rows")
}

func main() {
	file, err := os.Open(os.Args[1])
	if err != nil {
		log.Fatal(err)
	}
	defer file.Close()
	rows, err := cqlp.NewRowReader(file, cqlp.DefaultLimits())
	if err != nil {
		log.Fatal(err)
	}
	defer rows.Close()
	for page := 0; rows.Next(); {
		if page != rows.Page().Number {
			page = rows.Page().Number
			printPage(rows)
		}
		fmt.Println(rows.Values()...)
	}
	if err := rows.Err(); err != nil {
		log.Fatal(err) // a *cqlp.Refusal, a *cqlp.Cut, or what the file answered
	}
}
