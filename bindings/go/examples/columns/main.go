// Sums the columns of bigints of the pages in a file, batch by batch: go run ./examples/columns FILE
package main

import (
	"fmt"
	"log"
	"os"

	"cqlp.example.org/cqlp"
)

// sum adds up the values of a column that has some.
func sum(column *cqlp.ColumnArray) (total int64) {
	for i, value := range column.Int64s() {
		if column.IsValid(i) {
			total += value
		}
	}
	return total
}

func main() {
	file, err := os.Open(os.Args[1])
	if err != nil {
		log.Fatal(err)
	}
	defer file.Close()
	columns, err := cqlp.NewColumnReader(file, cqlp.DefaultLimits(), cqlp.BatchLimits{Rows: 2, Memory: 1 << 20})
	if err != nil {
		log.Fatal(err)
	}
	defer columns.Close()
	for columns.Next() {
		for i := range columns.Columns() {
			if column := &columns.Columns()[i]; column.Kind == cqlp.KindBigint {
				fmt.Println(column.Column.Name, "from row", columns.First(), "on:", columns.Rows(), "rows, the sum is", sum(column))
			}
		}
	}
	fmt.Println("the end:", columns.Err())
}
