// Passes requests on from standard input to standard output, with LOCAL_QUORUM in place of the consistency ONE.
package main

import (
	"errors"
	"io"
	"log"
	"os"

	"cqlp.example.org/cqlp"
)

// alter decodes a piece, which lies after this many kept bytes, and alters its consistencies. The first byte of the buffer is at the
// offset base of the stream.
func alter(decoder *cqlp.Decoder, buffer []byte, kept int, base uint64) error {
	for rest := buffer[kept:]; ; {
		event, n, err := decoder.Next(rest)
		rest = rest[n:]
		if errors.Is(err, cqlp.ErrMore) {
			return nil
		}
		if err != nil {
			return err
		}
		if event.Field == cqlp.FieldConsistency && cqlp.Consistency(event.Number) == cqlp.ConsistencyOne {
			buffer[event.At-base+1] = byte(cqlp.ConsistencyLocalQuorum)
		}
	}
}

// pass writes all but the last byte of a piece, which waits for the next one: it may be the first of the two bytes of a consistency.
func pass(decoder *cqlp.Decoder, in io.Reader, out io.Writer) error {
	buffer, kept, base := make([]byte, 1+4096), 0, uint64(0)
	for {
		n, failed := in.Read(buffer[kept:])
		if n > 0 {
			if err := alter(decoder, buffer[:kept+n], kept, base); err != nil {
				return err
			}
			last := kept + n - 1
			if _, err := out.Write(buffer[:last]); err != nil {
				return err
			}
			base += uint64(last)
			buffer[0], kept = buffer[last], 1
		}
		if failed == io.EOF {
			_, err := out.Write(buffer[:kept])
			return err
		}
		if failed != nil {
			return failed
		}
	}
}

func main() {
	decoder, err := cqlp.NewDecoder(cqlp.DefaultLimits())
	if err != nil {
		log.Fatal(err)
	}
	defer decoder.Close()
	if err := pass(decoder, os.Stdin, os.Stdout); err != nil {
		log.Fatal(err)
	}
}
