// Asks a server for the rows of a table by gocql as it comes: ask PORT TABLE. It looks for the version and for the nodes, and prepares each
// statement. The pages that it asks for have at most 1,000 rows.
package main

import (
	"fmt"
	"log"
	"os"
	"strconv"

	"github.com/gocql/gocql"
)

func main() {
	log.SetFlags(0)
	port, err := strconv.Atoi(os.Args[1])
	if err != nil {
		log.Fatal(err)
	}
	cluster := gocql.NewCluster("127.0.0.1")
	cluster.Port = port
	cluster.PageSize = 1000
	session, err := cluster.CreateSession()
	if err != nil {
		log.Fatal(err)
	}
	defer session.Close()
	rows, err := session.Query("SELECT * FROM " + os.Args[2]).Iter().SliceMap()
	if err != nil {
		log.Fatal(err)
	}
	fmt.Println(len(rows), "rows")
	if err := session.Query("SELECT * FROM shop.nothing").Exec(); err != nil {
		fmt.Println("refused")
	}
}
