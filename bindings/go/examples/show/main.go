// Writes a line for each event of a file, and the verdict to standard error, as `cqlp show` does: go run ./examples/show FILE
package main

import (
	"bufio"
	"fmt"
	"io"
	"log"
	"os"

	"cqlp.example.org/cqlp"
)

// show writes the lines of what is read, and gives the verdict.
func show(lines io.Writer, source io.Reader) (cqlp.Verdict, error) {
	decoder, err := cqlp.NewDecoder(cqlp.DefaultLimits())
	if err != nil {
		return cqlp.Verdict{}, err
	}
	defer decoder.Close()
	buffer := make([]byte, 4096)
	for {
		count, err := source.Read(buffer)
		for piece := buffer[:count]; ; {
			event, used, err := decoder.Next(piece)
			if err != nil {
				break // more bytes are wanted, or the stream is refused, as the verdict reports
			}
			piece = piece[used:]
			fmt.Fprintln(lines, &event)
		}
		if err == io.EOF {
			return decoder.Finish()
		}
		if err != nil {
			return cqlp.Verdict{}, err
		}
	}
}

func main() {
	file, err := os.Open(os.Args[1])
	if err != nil {
		log.Fatal(err)
	}
	defer file.Close()
	lines := bufio.NewWriter(os.Stdout)
	verdict, err := show(lines, file)
	if err != nil {
		log.Fatal(err)
	}
	if err := lines.Flush(); err != nil {
		log.Fatal(err)
	}
	fmt.Fprintln(os.Stderr, verdict)
}
