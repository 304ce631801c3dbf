//go:build !cgo

package cqlp

import (
	"context"
	"io"
	"math"
)

// What the package has without cgo, by which alone libcqlp is linked: it compiles, and each call of the library answers ErrNoLibrary.

// ---- the decoder

const (
	room      = 256
	space     = 1 << 16
	inDecoder = math.MaxUint
)

// A Decoder reads nothing: NewDecoder answers ErrNoLibrary.
type Decoder struct {
	next, count int
	piece       []byte
	events      *[room]placed
}

// NewDecoder answers ErrNoLibrary.
func NewDecoder(Limits) (*Decoder, error) { return nil, ErrNoLibrary }

// NewLenientDecoder answers ErrNoLibrary.
func NewLenientDecoder(Limits) (*Decoder, error) { return nil, ErrNoLibrary }

func (d *Decoder) enter() bool                      { return false }
func (d *Decoder) leave()                           {}
func (d *Decoder) closed() bool                     { return true }
func (d *Decoder) full() bool                       { return false }
func (d *Decoder) ended(int) error                  { return ErrNoLibrary }
func (d *Decoder) take([]byte, int) int             { return 0 }
func (d *Decoder) put(*Event)                       {}
func (d *Decoder) appendContent([]byte, int) []byte { return nil }

// Decode answers ErrNoLibrary.
func (d *Decoder) Decode([]Event, []byte) (count, n int, err error) { return 0, 0, ErrNoLibrary }

// Next answers ErrNoLibrary.
func (d *Decoder) Next([]byte) (Event, int, error) { return Event{}, 0, ErrNoLibrary }

// Skip answers ErrNoLibrary.
func (d *Decoder) Skip() (Skipped, error) { return Skipped{}, ErrNoLibrary }

// Finish answers ErrNoLibrary.
func (d *Decoder) Finish() (Verdict, error) { return Verdict{}, ErrNoLibrary }

// Held answers ErrNoLibrary.
func (d *Decoder) Held() (Held, error) { return Held{}, ErrNoLibrary }

// TypesOf answers ErrNoLibrary.
func (d *Decoder) TypesOf() (*Types, error) { return nil, ErrNoLibrary }

// Give answers ErrNoLibrary.
func (d *Decoder) Give(*Types) error { return ErrNoLibrary }

// TakeGiven answers ErrNoLibrary.
func (d *Decoder) TakeGiven(*Types) error { return ErrNoLibrary }

// Close does nothing.
func (d *Decoder) Close() error { return nil }

// Check answers ErrNoLibrary.
func Check(Limits, []byte) (Verdict, error) { return Verdict{}, ErrNoLibrary }

// Types is a table of types, of which there is none.
type Types struct{ Columns []Column }

// Close does nothing.
func (t *Types) Close() error { return nil }

// ---- columns

// A ColumnReader reads nothing: NewColumnReader answers ErrNoLibrary.
type ColumnReader struct{ Reader }

// NewColumnReader answers ErrNoLibrary.
func NewColumnReader(io.Reader, Limits, BatchLimits) (*ColumnReader, error) { return nil, ErrNoLibrary }

// Next answers false.
func (r *ColumnReader) Next() bool { return false }

// NextContext answers false.
func (r *ColumnReader) NextContext(context.Context) bool { return false }

// Columns are none.
func (r *ColumnReader) Columns() []ColumnArray { return nil }

// Rows is 0.
func (r *ColumnReader) Rows() int { return 0 }

// First is 0.
func (r *ColumnReader) First() int { return 0 }

// Page is empty.
func (r *ColumnReader) Page() Page { return Page{} }

// Err is ErrNoLibrary.
func (r *ColumnReader) Err() error { return ErrNoLibrary }

// ---- open requests

// AppendHeader answers ErrNoLibrary.
func AppendHeader(b []byte, _ Header) ([]byte, error) { return b, ErrNoLibrary }

// AppendEventHeader answers ErrNoLibrary.
func AppendEventHeader(b []byte, _ uint32, _ uint8) ([]byte, error) { return b, ErrNoLibrary }

// VersionError answers nothing.
func VersionError([]byte) []byte { return nil }

// A Client knows no request: NewClient answers ErrNoLibrary.
type Client struct{}

// NewClient answers ErrNoLibrary.
func NewClient(int) (*Client, error) { return nil, ErrNoLibrary }

// Begin answers ErrNoLibrary.
func (c *Client) Begin(Opcode, uint64) (Ticket, error) { return Ticket{}, ErrNoLibrary }

// Reply answers ErrNoLibrary.
func (c *Client) Reply(Event) (Reply, error) { return Reply{}, ErrNoLibrary }

// Cancel answers ErrNoLibrary.
func (c *Client) Cancel(Ticket) error { return ErrNoLibrary }

// Phase answers ErrNoLibrary.
func (c *Client) Phase() (Phase, error) { return 0, ErrNoLibrary }

// Close does nothing.
func (c *Client) Close() error { return nil }

// A Server knows no request: NewServer answers ErrNoLibrary.
type Server struct{}

// NewServer answers ErrNoLibrary.
func NewServer(int) (*Server, error) { return nil, ErrNoLibrary }

// Accept answers ErrNoLibrary.
func (s *Server) Accept(Event, uint64) error { return ErrNoLibrary }

// Answer answers ErrNoLibrary.
func (s *Server) Answer(int16, Opcode) (Answered, error) { return Answered{}, ErrNoLibrary }

// Phase answers ErrNoLibrary.
func (s *Server) Phase() (Phase, error) { return 0, ErrNoLibrary }

// Close does nothing.
func (s *Server) Close() error { return nil }

// ---- writing

// EncodeEvents answers ErrNoLibrary.
func EncodeEvents([]Event) ([]byte, error) { return nil, ErrNoLibrary }

// An Encoder writes nothing.
type Encoder struct{}

// NewEncoder makes one that answers ErrNoLibrary.
func NewEncoder(io.Writer) *Encoder { return &Encoder{} }

// Encode answers ErrNoLibrary.
func (e *Encoder) Encode(Event) error { return ErrNoLibrary }

// CellsSize answers ErrNoLibrary.
func CellsSize(...Event) (uint64, error) { return 0, ErrNoLibrary }

// A PageWriter writes nothing.
type PageWriter struct{ Size uint64 }

// NewPageWriter makes one that answers ErrNoLibrary.
func NewPageWriter(io.Writer) *PageWriter { return &PageWriter{} }

// Encode answers ErrNoLibrary.
func (p *PageWriter) Encode(Event) error { return ErrNoLibrary }

// Flush answers ErrNoLibrary.
func (p *PageWriter) Flush() error { return ErrNoLibrary }

// Close answers ErrNoLibrary.
func (p *PageWriter) Close() error { return ErrNoLibrary }

// ---- names

// Name knows none.
func Name(Group, int64) (string, bool) { return "", false }

// Version is empty.
func Version() string { return "" }

// VersionNumber is 0.
func VersionNumber() uint32 { return 0 }
