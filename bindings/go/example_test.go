//go:build cgo

package cqlp_test

import (
	"bytes"
	"errors"
	"fmt"
	"io"
	"log"
	"os"

	"cqlp.example.org/cqlp"
)

// pages are two pages of bench/pages.py.
func pages() io.Reader {
	stream, err := os.ReadFile("../pages.bin")
	if err != nil {
		log.Fatal(err)
	}
	return bytes.NewReader(stream)
}

func ExampleRowReader() {
	rows, err := cqlp.NewRowReader(pages(), cqlp.DefaultLimits())
	if err != nil {
		log.Fatal(err)
	}
	defer rows.Close()
	for rows.Next() {
		fmt.Println(rows.Page().Number, rows.Values())
	}
	fmt.Println(rows.Err())
	// Output:
	// 1 [0 0 0000000000000000 false]
	// 1 [1 1000003 0000000000000001 true]
	// 1 [2 2000006 0000000000000002 false]
	// 2 [[0 1 2 3 4 5 6 7] [{0000000000000000 0} {0000000000000001 1} {0000000000000002 2}]]
	// 2 [[1 2 3 4 5 6 7 8] [{0000000000000001 0} {0000000000000002 1} {0000000000000003 2}]]
	// <nil>
}

func ExampleRowReader_Scan() {
	rows, err := cqlp.NewRowReader(pages(), cqlp.DefaultLimits())
	if err != nil {
		log.Fatal(err)
	}
	defer rows.Close()
	var id int32
	var odd *bool // nil where it is null
	for rows.Next() && rows.Page().Number == 1 {
		if err := rows.Scan(&id, nil, nil, &odd); err != nil {
			log.Fatal(err)
		}
		fmt.Println(id, *odd)
	}
	var list []int64
	var pairs map[string]int
	err = rows.Scan(&list, &pairs)
	fmt.Println(list, pairs, err)
	err = rows.Scan(&list, new(string))
	fmt.Println(err)
	// Output:
	// 0 false
	// 1 true
	// 2 false
	// [0 1 2 3 4 5 6 7] map[0000000000000000:0 0000000000000001:1 0000000000000002:2] <nil>
	// cqlp: row 0, column 1 (column1 map<varchar, int>) into string: map does not go into string
}

func ExampleColumnReader() {
	columns, err := cqlp.NewColumnReader(pages(), cqlp.DefaultLimits(), cqlp.BatchLimits{Rows: 2, Memory: 1 << 20})
	if err != nil {
		log.Fatal(err)
	}
	defer columns.Close()
	for columns.Next() {
		fmt.Println(columns.Page().Number, columns.First(), columns.Rows())
		for _, column := range columns.Columns() {
			switch column.Kind {
			case cqlp.KindInt:
				fmt.Println(column.Column.Name, column.Int32s())
			case cqlp.KindBigint:
				fmt.Println(column.Column.Name, column.Int64s())
			case cqlp.KindVarchar:
				fmt.Printf("%s %s %d\n", column.Column.Name, column.Values, column.Offsets)
			}
		}
	}
	fmt.Println(columns.Err()) // of the page with lists and maps
	// Output:
	// 1 0 2
	// column0 [0 1]
	// column1 [0 1000003]
	// column2 00000000000000000000000000000001 [0 16 32]
	// 1 2 1
	// column0 [2]
	// column1 [2000006]
	// column2 0000000000000002 [0 16]
	// cqlp: Unsupported
}

func ExampleFrames() {
	stream, err := cqlp.AppendMessage(nil, 3, &cqlp.Query{Query: "SELECT a FROM k.t", Parameters: cqlp.Parameters{Consistency: cqlp.ConsistencyQuorum}})
	if err != nil {
		log.Fatal(err)
	}
	stream, err = cqlp.AppendMessage(stream, 3, &cqlp.ServerError{Code: cqlp.ErrorSyntaxError, Message: "no such column"})
	if err != nil {
		log.Fatal(err)
	}
	frames, err := cqlp.NewFrames(bytes.NewReader(stream[:len(stream)-1]), cqlp.DefaultLimits())
	if err != nil {
		log.Fatal(err)
	}
	defer frames.Close()
	for {
		frame, err := frames.Next()
		if err != nil {
			fmt.Println(err, errors.Is(err, io.ErrUnexpectedEOF))
			return
		}
		if query, is := frame.Message.(*cqlp.Query); is {
			fmt.Println(frame.Stream, query.Query, query.Parameters.Consistency)
		}
	}
	// Output:
	// 3 SELECT a FROM k.t QUORUM
	// cqlp: cut 33 61 true
}

func ExampleReader() {
	reader, err := cqlp.NewReader(bytes.NewReader([]byte("\x04\x00\x00\x01\x05\x00\x00\x00\x00\x03\x00\x00\x01\x05\x00\x00\x00\x00")), cqlp.DefaultLimits())
	if err != nil {
		log.Fatal(err)
	}
	defer reader.Close()
	for {
		event, err := reader.Next()
		if err != nil {
			fmt.Println(err, errors.Is(err, cqlp.ReasonBadVersion))
			return
		}
		fmt.Println(&event)
	}
	// Output:
	// 0 Frame request 00 1 OPTIONS 0
	// 9 End 0
	// cqlp: refused 9 BadVersion true
}

func ExampleDecoder_Decode() {
	decoder, err := cqlp.NewDecoder(cqlp.DefaultLimits())
	if err != nil {
		log.Fatal(err)
	}
	defer decoder.Close()
	events := make([]cqlp.Event, 256)
	for piece := []byte("\x04\x00\x00\x01\x09\x00\x00\x00\x05\x00\x00\x00\x01a"); ; {
		count, n, err := decoder.Decode(events, piece)
		piece = piece[n:]
		for i := range events[:count] {
			fmt.Println(&events[i])
		}
		if err != nil {
			fmt.Println(err)
			return
		}
	}
	// Output:
	// 0 Frame request 00 1 PREPARE 5
	// 9 Text Query "a"
	// 14 End 0
	// cqlp: more bytes are wanted
}

func ExampleClient() {
	client, err := cqlp.NewClient(1024)
	if err != nil {
		log.Fatal(err)
	}
	defer client.Close()
	_, err = client.Begin(cqlp.OpcodeQuery, 7)
	fmt.Println(err, errors.Is(err, cqlp.CodeBadPhase))
	ticket, err := client.Begin(cqlp.OpcodeStartup, 7)
	fmt.Println(ticket, err)
	reply, err := client.Reply(cqlp.Event{Tag: cqlp.TagFrame, Mark: cqlp.MarkResponse, Opcode: cqlp.OpcodeReady, Extra: int32(ticket.ID)})
	fmt.Println(reply.What, reply.Ticket, reply.Request, reply.Carried, err)
	// Output:
	// cqlp: BadPhase true
	// {1 0} <nil>
	// Answer {1 0} STARTUP 7 <nil>
}

func ExampleServer() {
	server, err := cqlp.NewServer(128)
	if err != nil {
		log.Fatal(err)
	}
	defer server.Close()
	fmt.Println(server.Accept(cqlp.Event{Tag: cqlp.TagFrame, Opcode: cqlp.OpcodeStartup, Extra: 5}, 7))
	_, err = server.Answer(5, cqlp.OpcodeResult)
	fmt.Println(err)
	answered, err := server.Answer(5, cqlp.OpcodeReady)
	fmt.Println(answered, err)
	// Output:
	// <nil>
	// cqlp: WrongOpcode
	// {STARTUP 7} <nil>
}

func ExampleEncodeEvents() {
	events := []cqlp.Event{
		{Tag: cqlp.TagFrame, Opcode: cqlp.OpcodeQuery, Extra: 3},
		{Tag: cqlp.TagText, Field: cqlp.FieldQuery, Content: []byte("SELECT")},
		{Tag: cqlp.TagShort, Field: cqlp.FieldConsistency, Number: int64(cqlp.ConsistencyOne)},
		{Tag: cqlp.TagByte, Field: cqlp.FieldQueryFlags},
	}
	frame, err := cqlp.EncodeEvents(events)
	fmt.Printf("% x %v\n", frame, err)
	events[2].Number = 1 << 16
	_, err = cqlp.EncodeEvents(events)
	var bad *cqlp.EventError
	fmt.Println(err, errors.Is(err, cqlp.CodeNoEvent), errors.As(err, &bad) && bad.Index == 2)
	_, err = cqlp.EncodeEvents(events[:2])
	fmt.Println(err)
	// Output:
	// 04 00 00 03 07 00 00 00 0d 00 00 00 06 53 45 4c 45 43 54 00 01 00 <nil>
	// cqlp: event 2, Short Consistency: NoEvent true true
	// cqlp: the events together: NoSuchFrame
}

func ExampleEncoder() {
	reader, err := cqlp.NewReader(bytes.NewReader([]byte("\x04\x00\x00\x01\x09\x00\x00\x00\x05\x00\x00\x00\x01a")), cqlp.DefaultLimits())
	if err != nil {
		log.Fatal(err)
	}
	defer reader.Close()
	var target bytes.Buffer
	encoder := cqlp.NewEncoder(&target)
	for {
		event, err := reader.Next()
		if err == io.EOF {
			break
		}
		if err != nil {
			log.Fatal(err)
		}
		if event.Field == cqlp.FieldQuery {
			event.Content = append([]byte("SELECT "), event.Content...)
		}
		if err := encoder.Encode(event); err != nil {
			log.Fatal(err)
		}
	}
	fmt.Printf("%q\n", target.Bytes())
	// Output: "\x04\x00\x00\x01\t\x00\x00\x00\f\x00\x00\x00\bSELECT a"
}

func ExampleAppendHeader() {
	header, err := cqlp.AppendHeader(nil, cqlp.Header{Opcode: cqlp.OpcodeQuery, Stream: 3, Length: 7})
	fmt.Printf("% x %v\n", header, err)
	_, err = cqlp.AppendHeader(nil, cqlp.Header{Opcode: cqlp.OpcodeQuery, Response: true})
	fmt.Println(err)
	// Output:
	// 04 00 00 03 07 00 00 00 07 <nil>
	// cqlp: BadDirection
}

func ExampleBind() {
	pairs := cqlp.Type{Kind: cqlp.KindMap, Inner: []cqlp.Type{{Kind: cqlp.KindVarchar}, {Kind: cqlp.KindSmallint}}}
	value, err := cqlp.Bind(pairs, map[string]int{"a": 7})
	fmt.Printf("% x %v\n", value.Bytes, err)
	_, err = cqlp.Bind(pairs, map[string]int{"a": 1 << 15})
	fmt.Println(err)
	// Output:
	// 00 00 00 01 00 00 00 01 61 00 00 00 02 00 07 <nil>
	// cqlp: int does not go into smallint
}

func ExampleCheck() {
	verdict, err := cqlp.Check(cqlp.DefaultLimits(), []byte("\x04\x00\x00\x01\x05\x00\x00\x00"))
	fmt.Println(verdict, err)
	// Output: cut 0 8 <nil>
}

func ExampleName() {
	fmt.Println(cqlp.Name(cqlp.GroupError, 0x1000))
	// Output: Unavailable true
}

func ExampleVersionError() {
	frames, err := cqlp.NewFrames(bytes.NewReader(cqlp.VersionError([]byte("\x05\x00\x00\x01\x05\x00\x00\x00\x00"))), cqlp.DefaultLimits())
	if err != nil {
		log.Fatal(err)
	}
	defer frames.Close()
	frame, err := frames.Next()
	fmt.Println(frame.Stream, frame.Message, err)
	// Output: 1 cqlp: ProtocolError: Invalid or unsupported protocol version (5); the lowest supported version is 4 and the greatest is 4 <nil>
}
