// A server with one table in memory, for drivers. go run ./examples/serve ADDRESS listens there; without an address it reads requests
// on standard input, and writes the replies to standard output.
package main

import (
	"bytes"
	"errors"
	"fmt"
	"io"
	"log"
	"net"
	"os"
	"strings"

	"cqlp.example.org/cqlp"
)

var (
	integer, text, uuid = cqlp.Type{Kind: cqlp.KindInt}, cqlp.Type{Kind: cqlp.KindVarchar}, cqlp.Type{Kind: cqlp.KindUUID}
	items               = cqlp.Type{Kind: cqlp.KindMap, Inner: []cqlp.Type{text, integer}}
	tables              = map[string]*cqlp.Rows{
		"shop.orders": {
			Metadata: cqlp.Metadata{Columns: []cqlp.Column{{Name: "id", Type: integer}, {Name: "items", Type: items}}},
			Rows:     [][]any{{1, map[string]int{"tea": 2}}, {2, map[string]int{"salt": 1}}, {3, nil}, {4, map[string]int{"bread": 1}}, {5, nil}},
		},
		// drivers ask for it first
		"system.local": {
			Metadata: cqlp.Metadata{Columns: []cqlp.Column{{Name: "cluster_name", Type: text}, {Name: "data_center", Type: text},
				{Name: "rack", Type: text}, {Name: "release_version", Type: text}, {Name: "partitioner", Type: text},
				{Name: "host_id", Type: uuid}, {Name: "schema_version", Type: uuid}}},
			Rows: [][]any{{"one", "dc1", "r1", "3.11.4", "org.apache.cassandra.dht.Murmur3Partitioner", cqlp.UUID{1}, cqlp.UUID{2}}},
		},
	}
)

// find returns the table of a statement, or nil. The other tables of the system are empty.
func find(statement string) *cqlp.Rows {
	for name, table := range tables {
		if strings.Contains(statement, name) {
			return table
		}
	}
	if strings.Contains(statement, "system") {
		return &cqlp.Rows{Metadata: tables["system.local"].Metadata}
	}
	return nil
}

// page returns the rows of a table from the paging state on, up to the page size.
func page(table *cqlp.Rows, parameters *cqlp.Parameters) cqlp.Message {
	if table == nil {
		return &cqlp.ServerError{Code: cqlp.ErrorInvalid, Message: "no such table"}
	}
	first, state := 0, bytes.TrimPrefix(parameters.PagingState, []byte("from "))
	if _, err := fmt.Sscan(string(state), &first); parameters.PagingState != nil && err != nil || first < 0 || first > len(table.Rows) {
		return &cqlp.ServerError{Code: cqlp.ErrorInvalid, Message: "no paging state of ours"}
	}
	found := &cqlp.Rows{Metadata: table.Metadata, Rows: table.Rows[first:]}
	found.Metadata.Width = int32(len(found.Metadata.Columns))
	if size := parameters.PageSize; size != nil && *size > 0 && int(*size) < len(found.Rows) {
		found.Rows = found.Rows[:*size]
		found.Metadata.PagingState = []byte(fmt.Sprint("from ", first+int(*size)))
	}
	if parameters.SkipMetadata {
		found.Metadata.Flags = 4
	}
	return found
}

// answer returns the reply to a request. The id of a prepared statement is its text.
func answer(request cqlp.Message) cqlp.Message {
	switch request := request.(type) {
	case *cqlp.Options:
		return &cqlp.Supported{Options: []cqlp.SupportedOption{{Key: "COMPRESSION"}, {Key: "CQL_VERSION", Values: []string{"3.4.4"}}}}
	case *cqlp.Startup, *cqlp.Register:
		return &cqlp.Ready{}
	case *cqlp.Query:
		return page(find(request.Query), &request.Parameters)
	case *cqlp.Prepare:
		if table := find(request.Query); table != nil {
			return &cqlp.Prepared{ID: []byte(request.Query), Result: table.Metadata}
		}
	case *cqlp.Execute:
		return page(find(string(request.ID)), &request.Parameters)
	}
	return &cqlp.ServerError{Code: cqlp.ErrorInvalid, Message: fmt.Sprintf("%v is not served", request.Opcode())}
}

// serve answers the requests of one connection, up to its end or the first bad one.
func serve(in io.Reader, out io.Writer) error {
	frames, err := cqlp.NewFrames(in, cqlp.DefaultLimits())
	if err != nil {
		return err
	}
	defer frames.Close()
	frames.Longest = 1 << 20
	open, err := cqlp.NewServer(32768)
	if err != nil {
		return err
	}
	defer open.Close()
	for {
		frame, err := frames.Next()
		if errors.Is(err, cqlp.ReasonBadVersion) {
			out.Write(cqlp.VersionError(frames.Header())) // drivers try version 4 after this reply
		}
		if err != nil {
			return err
		}
		if err := open.Accept(frame.Event(), 0); err != nil {
			return fmt.Errorf("%v: %w", frame.Opcode, err)
		}
		reply := answer(frame.Message)
		if _, err := open.Answer(frame.Stream, reply.Opcode()); err != nil {
			return err
		}
		message, err := cqlp.AppendMessage(nil, frame.Stream, reply)
		if err != nil {
			return err
		}
		if _, err := out.Write(message); err != nil {
			return err
		}
	}
}

func main() {
	if len(os.Args) == 1 {
		if err := serve(os.Stdin, os.Stdout); err != io.EOF {
			log.Fatal(err)
		}
		return
	}
	listener, err := net.Listen("tcp", os.Args[1])
	if err != nil {
		log.Fatal(err)
	}
	fmt.Println(listener.Addr())
	for {
		connection, err := listener.Accept()
		if err != nil {
			log.Fatal(err)
		}
		go func() {
			defer connection.Close()
			if err := serve(connection, connection); err != io.EOF {
				log.Print(err)
			}
		}()
	}
}
