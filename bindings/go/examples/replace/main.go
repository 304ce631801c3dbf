// Passes requests on from standard input to standard output, with OLD replaced by NEW in the texts of queries: go run ./examples/replace OLD NEW
package main

import (
	"bytes"
	"io"
	"log"
	"os"

	"cqlp.example.org/cqlp"
)

// pass reads events, and writes each frame at its end.
func pass(in io.Reader, out io.Writer, old, new []byte) error {
	reader, err := cqlp.NewReader(in, cqlp.DefaultLimits())
	if err != nil {
		return err
	}
	defer reader.Close()
	encoder := cqlp.NewEncoder(out)
	for {
		event, err := reader.Next()
		if err != nil {
			return err
		}
		if event.Tag == cqlp.TagText && event.Field == cqlp.FieldQuery {
			event.Content = bytes.ReplaceAll(event.Content, old, new)
		}
		if err := encoder.Encode(event); err != nil {
			return err
		}
	}
}

func main() {
	log.SetFlags(0)
	if err := pass(os.Stdin, os.Stdout, []byte(os.Args[1]), []byte(os.Args[2])); err != io.EOF {
		log.Fatal(err)
	}
}
