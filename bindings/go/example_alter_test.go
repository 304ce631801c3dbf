//go:build cgo

package cqlp_test

import (
	"bytes"
	"errors"
	"fmt"
	"io"
	"log"

	"cqlp.example.org/cqlp"
)

// pass reads events, and writes each frame at its end, with another text of its query.
func pass(in io.Reader, out io.Writer, text func([]byte) []byte) error {
	reader, err := cqlp.NewReader(in, cqlp.DefaultLimits())
	if err != nil {
		return err
	}
	defer reader.Close()
	encoder := cqlp.NewEncoder(out)
	for {
		event, err := reader.Next()
		if err != nil {
			return err
		}
		if event.Tag == cqlp.TagText && event.Field == cqlp.FieldQuery {
			event.Content = text(event.Content)
		}
		if err := encoder.Encode(event); err != nil {
			return err
		}
	}
}

// Alter what passes: the encoder makes lengths anew, and refuses what would be no frame.
func Example_alterWhatPasses() {
	request, err := cqlp.AppendMessage(nil, 1, &cqlp.Query{Query: "SELECT a FROM k.t", Parameters: cqlp.Parameters{Consistency: cqlp.ConsistencyOne}})
	if err != nil {
		log.Fatal(err)
	}
	var out bytes.Buffer
	err = pass(bytes.NewReader(request), &out, func(text []byte) []byte { return append(text, " LIMIT 10"...) })
	fmt.Println(err, len(request), out.Len())
	frames, err := cqlp.NewFrames(&out, cqlp.DefaultLimits())
	if err != nil {
		log.Fatal(err)
	}
	defer frames.Close()
	frame, err := frames.Next()
	fmt.Println(frame.Message.(*cqlp.Query).Query, err)

	err = pass(bytes.NewReader(request), io.Discard, func([]byte) []byte { return []byte("\xff") })
	var bad *cqlp.EventError
	fmt.Println(err, errors.As(err, &bad) && bad.Index == 1, errors.Is(err, cqlp.CodeNoEvent))
	err = pass(bytes.NewReader(request[:20]), io.Discard, bytes.ToUpper)
	fmt.Println(err, errors.Is(err, io.ErrUnexpectedEOF))
	// Output:
	// EOF 33 42
	// SELECT a FROM k.t LIMIT 10 <nil>
	// cqlp: event 1, Text Query: NoEvent true true
	// cqlp: cut 0 20 true
}
