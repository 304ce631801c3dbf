// Prints the frames in a file, and why bad ones are passed over: go run ./examples/frames FILE
package main

import (
	"fmt"
	"io"
	"log"
	"os"

	"cqlp.example.org/cqlp"
)

// show prints a message.
func show(frame *cqlp.Frame) {
	switch message := frame.Message.(type) {
	case *cqlp.Query:
		fmt.Println(frame.Stream, "asks:", message.Query, "with", message.Parameters.Consistency)
	case *cqlp.Rows:
		fmt.Println(frame.Stream, "has", len(message.Rows), "rows:", message.Rows)
	case error: // an ERROR of any kind
		fmt.Println(frame.Stream, "failed:", message)
	default:
		fmt.Printf("%d is of %T\n", frame.Stream, message)
	}
}

func main() {
	file, err := os.Open(os.Args[1])
	if err != nil {
		log.Fatal(err)
	}
	defer file.Close()
	frames, err := cqlp.NewFrames(file, cqlp.DefaultLimits())
	if err != nil {
		log.Fatal(err)
	}
	defer frames.Close()
	frames.Longest = 1 << 20
	frames.Skip = func(skipped cqlp.Skipped) { fmt.Println(skipped.Frame.Extra, "is bad:", skipped) }
	for {
		frame, err := frames.Next()
		if err == io.EOF {
			return
		}
		if err != nil {
			log.Fatal(err)
		}
		show(frame)
	}
}
