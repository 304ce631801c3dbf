// Reads a page whose only cell is a list that says 2,147,483,647 elements, and has two.
package main

import (
	"errors"
	"fmt"
	"log"

	"cqlp.example.org/cqlp"
)

const frame = "\x84\x00\x00\x00\x08\x00\x00\x00\x31\x00\x00\x00\x02\x00\x00\x00\x01\x00\x00\x00\x01\x00\x01k\x00\x01t\x00\x01c" +
	"\x00\x20\x00\x09\x00\x00\x00\x01\x00\x00\x00\x10\x7f\xff\xff\xff\x00\x00\x00\x04\x00\x00\x00\x01\xff\xff\xff\xff"

func main() {
	decoder, err := cqlp.NewDecoder(cqlp.DefaultLimits())
	if err != nil {
		log.Fatal(err)
	}
	defer decoder.Close()
	for piece := []byte(frame); ; {
		event, n, err := decoder.Next(piece)
		piece = piece[n:]
		var refusal *cqlp.Refusal
		if errors.As(err, &refusal) {
			fmt.Println(refusal)
			break
		}
		if err != nil {
			log.Fatal(err)
		}
		fmt.Println(event.String())
	}
	held, err := decoder.Held()
	fmt.Printf("%+v %v\n", held, err)
}
