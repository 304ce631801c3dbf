// Prints the rows of the pages in a file: go run ./examples/print_rows FILE
package main

import (
	"fmt"
	"io"
	"log"
	"os"

	"cqlp.example.org/cqlp"
)

// rows puts the cells of pages into lines.
type rows struct {
	// the kinds of the values around what comes next, and how many items each has had
	kinds []cqlp.Kind
	items []int
	line  string
}

var brackets = map[cqlp.Kind]string{
	cqlp.KindList: "[]", cqlp.KindSet: "{}", cqlp.KindMap: "{}", cqlp.KindTuple: "()", cqlp.KindUDT: "()",
}

func (r *rows) add(e *cqlp.Event) {
	switch e.Tag {
	case cqlp.TagText:
		if e.Field == cqlp.FieldColumnName {
			fmt.Println("column", string(e.Content))
		}
	case cqlp.TagLeaf:
		r.put(e, e.Text())
	case cqlp.TagNull:
		r.put(e, "null")
	case cqlp.TagEmpty:
		r.put(e, "empty")
	case cqlp.TagEnter:
		r.put(e, brackets[e.Kind][:1])
		r.kinds, r.items = append(r.kinds, e.Kind), append(r.items, 0)
	case cqlp.TagLeave:
		last := len(r.kinds) - 1
		r.line += brackets[r.kinds[last]][1:]
		r.kinds, r.items = r.kinds[:last], r.items[:last]
	case cqlp.TagEnd:
		r.end()
	}
}

// put adds the text of a value, or of its beginning, and what comes before it.
func (r *rows) put(e *cqlp.Event, text string) {
	last := len(r.kinds) - 1
	switch {
	case last < 0 && e.Column == 0:
		r.end()
	case last < 0:
		r.line += " | "
	case r.items[last]%2 == 1 && r.kinds[last] == cqlp.KindMap:
		r.line += ": "
	case r.items[last] > 0:
		r.line += ", "
	}
	if last >= 0 {
		r.items[last]++
	}
	r.line += text
}

func (r *rows) end() {
	if r.line != "" {
		fmt.Println(r.line)
	}
	r.line = ""
}

func main() {
	file, err := os.Open(os.Args[1])
	if err != nil {
		log.Fatal(err)
	}
	defer file.Close()
	reader, err := cqlp.NewReader(file, cqlp.DefaultLimits())
	if err != nil {
		log.Fatal(err)
	}
	defer reader.Close()
	var found rows
	for {
		event, err := reader.Next()
		if err == io.EOF {
			return
		}
		if err != nil {
			log.Fatal(err)
		}
		found.add(&event)
	}
}
