package cqlp

import (
	"context"
	"errors"
	"io"
	"os"
	"sync"
	"time"
)

// A source is an io.Reader whose Read another goroutine may end, if it has read deadlines as a net.Conn has.
type source struct {
	reader io.Reader
	// deadline is the reader too, or nil
	deadline interface{ SetReadDeadline(time.Time) error }

	mu sync.Mutex
	// whether a Read is under way, whether its deadline was set to end it, and whether no other one may begin
	reads, woken, closed bool
}

// interrupted is why a Read was ended. Another Read may follow.
type interrupted struct{ error }

func newSource(reader io.Reader) *source {
	s := &source{reader: reader}
	s.deadline, _ = reader.(interface{ SetReadDeadline(time.Time) error })
	return s
}

// read calls Read. It ends with the error of ctx once ctx is done, and with ErrClosed after close, as interrupted.
func (s *source) read(ctx context.Context, p []byte) (int, error) {
	if err := ctx.Err(); err != nil {
		return 0, interrupted{err}
	}
	if s.deadline == nil {
		return s.reader.Read(p)
	}
	if !s.begin() {
		return 0, interrupted{ErrClosed}
	}
	stop := s.watch(ctx)
	n, err := s.reader.Read(p)
	stop()
	if s.end() && n == 0 && errors.Is(err, os.ErrDeadlineExceeded) {
		if err = ctx.Err(); err == nil {
			err = ErrClosed
		}
		return 0, interrupted{err}
	}
	return n, err
}

// begin says whether a Read may begin.
func (s *source) begin() bool {
	s.mu.Lock()
	defer s.mu.Unlock()
	s.reads = !s.closed
	return s.reads
}

// end ends a Read, and says whether its deadline was set. It removes that deadline.
func (s *source) end() (woken bool) {
	s.mu.Lock()
	defer s.mu.Unlock()
	if s.woken {
		_ = s.deadline.SetReadDeadline(time.Time{})
	}
	woken, s.reads, s.woken = s.woken, false, false
	return woken
}

// wake ends the Read that is under way, if one is, by a deadline in the past.
func (s *source) wake() {
	s.mu.Lock()
	defer s.mu.Unlock()
	if s.reads && s.deadline.SetReadDeadline(time.Unix(1, 0)) == nil {
		s.woken = true
	}
}

// watch has a goroutine end the Read once ctx is done. That goroutine has ended when stop returns.
func (s *source) watch(ctx context.Context) (stop func()) {
	if ctx.Done() == nil {
		return func() {}
	}
	read, left := make(chan struct{}), make(chan struct{})
	go func() {
		defer close(left)
		select {
		case <-ctx.Done():
			s.wake()
		case <-read:
		}
	}()
	return func() {
		close(read)
		<-left
	}
}

// close ends the Read that is under way, and lets no other begin.
func (s *source) close() {
	s.mu.Lock()
	s.closed = true
	s.mu.Unlock()
	s.wake()
}
