// Passes pages on from standard input to standard output, with stars in place of their texts.
package main

import (
	"bytes"
	"io"
	"log"
	"os"

	"cqlp.example.org/cqlp"
)

// pass writes the cells of a page as they come. They keep their lengths, so their size is that of the body after the count of the rows.
func pass(in io.Reader, out io.Writer) error {
	reader, err := cqlp.NewReader(in, cqlp.DefaultLimits())
	if err != nil {
		return err
	}
	defer reader.Close()
	var page *cqlp.PageWriter
	for end := uint64(0); ; {
		event, err := reader.Next()
		if err != nil {
			return err
		}
		switch {
		case event.Tag == cqlp.TagFrame:
			page, end = cqlp.NewPageWriter(out), event.At+9+uint64(event.Number)
		case event.Field == cqlp.FieldRows:
			page.Size = end - event.At - 4
		case event.Tag == cqlp.TagLeaf && event.Kind == cqlp.KindVarchar:
			event.Content = bytes.Repeat([]byte("*"), len(event.Content))
		}
		if err := page.Encode(event); err != nil {
			return err
		}
	}
}

func main() {
	log.SetFlags(0)
	if err := pass(os.Stdin, os.Stdout); err != io.EOF {
		log.Fatal(err)
	}
}
