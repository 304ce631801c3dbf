//go:build cgo

package cqlp_test

import (
	"context"
	"errors"
	"fmt"
	"io"
	"log"
	"net"
	"time"

	"cqlp.example.org/cqlp"
)

// answer returns the reply to a request.
func answer(request cqlp.Message) cqlp.Message {
	switch request := request.(type) {
	case *cqlp.Startup:
		return &cqlp.Ready{}
	case *cqlp.Query:
		return &cqlp.Rows{
			Metadata: cqlp.Metadata{Columns: []cqlp.Column{{Name: "asked", Type: cqlp.Type{Kind: cqlp.KindVarchar}}}},
			Rows:     [][]any{{request.Query}},
		}
	}
	return &cqlp.ServerError{Code: cqlp.ErrorInvalid, Message: fmt.Sprintf("%v is not served", request.Opcode())}
}

// serve answers the requests of a connection, up to its end or that of the context.
func serve(ctx context.Context, connection io.ReadWriter) error {
	frames, err := cqlp.NewFrames(connection, cqlp.DefaultLimits())
	if err != nil {
		return err
	}
	defer frames.Close()
	open, err := cqlp.NewServer(128)
	if err != nil {
		return err
	}
	defer open.Close()
	for {
		frame, err := frames.NextContext(ctx)
		if err != nil {
			return err
		}
		if err := open.Accept(frame.Event(), 0); err != nil {
			return err
		}
		reply := answer(frame.Message)
		if _, err := open.Answer(frame.Stream, reply.Opcode()); err != nil {
			return err
		}
		message, err := cqlp.AppendMessage(nil, frame.Stream, reply)
		if err != nil {
			return err
		}
		if _, err := connection.Write(message); err != nil {
			return err
		}
	}
}

// A client has one open request at a time.
type client struct {
	net.Conn
	open   *cqlp.Client
	frames *cqlp.Frames
}

// ask sends a request, and waits for its reply until the context is done.
func (c *client) ask(ctx context.Context, request cqlp.Message) (cqlp.Message, error) {
	ticket, err := c.open.Begin(request.Opcode(), 0)
	if err != nil {
		return nil, err
	}
	message, err := cqlp.AppendMessage(nil, ticket.ID, request)
	if err != nil {
		return nil, err
	}
	if _, err := c.Write(message); err != nil {
		return nil, err
	}
	frame, err := c.frames.NextContext(ctx)
	if err != nil {
		return nil, err
	}
	if _, err := c.open.Reply(frame.Event()); err != nil {
		return nil, err
	}
	if failed, is := frame.Message.(error); is {
		return nil, failed
	}
	return frame.Message, nil
}

// talk asks over a connection for a page.
func talk(ctx context.Context, connection net.Conn) error {
	open, err := cqlp.NewClient(128)
	if err != nil {
		return err
	}
	defer open.Close()
	frames, err := cqlp.NewFrames(connection, cqlp.DefaultLimits())
	if err != nil {
		return err
	}
	defer frames.Close()
	c := &client{connection, open, frames}
	if _, err := c.ask(ctx, &cqlp.Startup{Options: []cqlp.Option{{Key: "CQL_VERSION", Value: "3.0.0"}}}); err != nil {
		return err
	}
	reply, err := c.ask(ctx, &cqlp.Query{Query: "SELECT a FROM k.t", Parameters: cqlp.Parameters{Consistency: cqlp.ConsistencyOne}})
	if err != nil {
		return err
	}
	fmt.Println(reply.(*cqlp.Rows).Rows)
	_, err = c.ask(ctx, &cqlp.Batch{})
	return err
}

// Be a client: a Client gives each request its stream id, and finds the request of a response. A context bounds how long a reply is waited for.
func Example_beAClient() {
	here, there := net.Pipe()
	go serve(context.Background(), there)
	ctx, cancel := context.WithTimeout(context.Background(), 10*time.Second)
	defer cancel()
	err := talk(ctx, here)
	var failed *cqlp.ServerError
	fmt.Println(err, errors.As(err, &failed) && failed.Code == cqlp.ErrorInvalid)
	there.Close()
	// Output:
	// [[SELECT a FROM k.t]]
	// cqlp: Invalid: BATCH is not served true
}

// Answer a driver: a Server knows the open requests. A context that is done ends the server's wait for the next request.
func Example_answerADriver() {
	here, there := net.Pipe()
	ctx, stop := context.WithCancel(context.Background())
	served := make(chan error)
	go func() { served <- serve(ctx, there) }()
	frames, err := cqlp.NewFrames(here, cqlp.DefaultLimits())
	if err != nil {
		log.Fatal(err)
	}
	defer frames.Close()
	here.Write([]byte("\x04\x00\x00\x07\x01\x00\x00\x00\x02\x00\x00")) // STARTUP under 7
	frame, err := frames.Next()
	fmt.Println(frame.Stream, frame.Opcode, err)
	stop()
	fmt.Println(<-served)
	// Output:
	// 7 READY <nil>
	// context canceled
}
