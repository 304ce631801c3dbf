// Asks a server for all orders, page by page, and then for those of a prepared statement: go run ./examples/ask ADDRESS
package main

import (
	"fmt"
	"io"
	"log"
	"net"
	"os"

	"cqlp.example.org/cqlp"
)

// A connection has one open request at a time; the core allows more.
type connection struct {
	net.Conn
	open   *cqlp.Client
	frames *cqlp.Frames
	types  *cqlp.Types // of the prepared statement
}

func connect(address string) (*connection, error) {
	conn, err := net.Dial("tcp", address)
	if err != nil {
		return nil, err
	}
	c := &connection{Conn: conn}
	if c.open, err = cqlp.NewClient(1024); err != nil {
		return nil, err
	}
	if c.frames, err = cqlp.NewFrames(conn, cqlp.DefaultLimits()); err != nil {
		return nil, err
	}
	c.frames.Types = func(cqlp.Event) *cqlp.Types { return c.types }
	return c, nil
}

// ask sends a request, and waits for its reply.
func (c *connection) ask(request cqlp.Message) (cqlp.Message, error) {
	ticket, err := c.open.Begin(request.Opcode(), 0)
	if err != nil {
		return nil, err
	}
	message, err := cqlp.AppendMessage(nil, ticket.ID, request)
	if err != nil {
		return nil, err
	}
	if _, err := c.Write(message); err != nil {
		return nil, err
	}
	for {
		frame, err := c.frames.Next()
		if err == io.EOF {
			err = io.ErrUnexpectedEOF
		}
		if err != nil {
			return nil, err
		}
		reply, err := c.open.Reply(frame.Event())
		if err != nil {
			return nil, err
		}
		if reply.What == cqlp.ReplyEvent {
			continue
		}
		if failed, is := frame.Message.(error); is {
			return nil, failed
		}
		return frame.Message, nil
	}
}

// pages asks for page after page, and prints their rows.
func (c *connection) pages(request cqlp.Message, parameters *cqlp.Parameters) error {
	size := int32(2)
	for parameters.PageSize = &size; ; {
		reply, err := c.ask(request)
		if err != nil {
			return err
		}
		page, is := reply.(*cqlp.Rows)
		if !is {
			return fmt.Errorf("a page was expected, not %T", reply)
		}
		for _, row := range page.Rows {
			fmt.Println(row...)
		}
		if parameters.PagingState = page.Metadata.PagingState; parameters.PagingState == nil {
			return nil
		}
	}
}

// prepared prints the pages of a prepared statement, which have no metadata: their types are those of the PREPARED.
func (c *connection) prepared(statement string) error {
	reply, err := c.ask(&cqlp.Prepare{Query: statement})
	if err != nil {
		return err
	}
	made, is := reply.(*cqlp.Prepared)
	if !is {
		return fmt.Errorf("a statement was expected, not %T", reply)
	}
	if c.types, err = c.frames.TypesOf(); err != nil {
		return err
	}
	execute := &cqlp.Execute{ID: made.ID, Parameters: cqlp.Parameters{SkipMetadata: true}}
	return c.pages(execute, &execute.Parameters)
}

func run(address string) error {
	c, err := connect(address)
	if err != nil {
		return err
	}
	defer c.Close()
	if _, err := c.ask(&cqlp.Startup{Options: []cqlp.Option{{Key: "CQL_VERSION", Value: "3.0.0"}}}); err != nil {
		return err
	}
	query := &cqlp.Query{Query: "SELECT * FROM shop.orders", Parameters: cqlp.Parameters{Consistency: cqlp.ConsistencyOne}}
	if err := c.pages(query, &query.Parameters); err != nil {
		return err
	}
	if err := c.prepared("SELECT * FROM shop.orders"); err != nil {
		return err
	}
	_, err = c.ask(&cqlp.Batch{})
	fmt.Println(err)
	return nil
}

func main() {
	if err := run(os.Args[1]); err != nil {
		log.Fatal(err)
	}
}
