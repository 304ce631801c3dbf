//go:build !cgo

package cqlp

import (
	"bytes"
	"errors"
	"strings"
	"testing"
)

// Without cgo each call says what is missing.
func TestWithoutCgo(t *testing.T) {
	source := strings.NewReader("")
	for name, call := range map[string]func() error{
		"NewDecoder":        func() error { _, err := NewDecoder(DefaultLimits()); return err },
		"NewReader":         func() error { _, err := NewReader(source, DefaultLimits()); return err },
		"NewRowReader":      func() error { _, err := NewLenientRowReader(source, DefaultLimits()); return err },
		"NewFrames":         func() error { _, err := NewFrames(source, DefaultLimits()); return err },
		"NewColumnReader":   func() error { _, err := NewColumnReader(source, DefaultLimits(), DefaultBatchLimits()); return err },
		"Check":             func() error { _, err := Check(DefaultLimits(), nil); return err },
		"NewClient":         func() error { _, err := NewClient(1); return err },
		"NewServer":         func() error { _, err := NewServer(1); return err },
		"AppendHeader":      func() error { _, err := AppendHeader(nil, Header{}); return err },
		"AppendMessage":     func() error { _, err := AppendMessage(nil, 0, &Options{}); return err },
		"EncodeEvents":      func() error { _, err := EncodeEvents(nil); return err },
		"Encoder.Encode":    func() error { return NewEncoder(new(bytes.Buffer)).Encode(Event{}) },
		"PageWriter.Encode": func() error { return NewPageWriter(new(bytes.Buffer)).Encode(Event{}) },
		"CellsSize":         func() error { _, err := CellsSize(); return err },
	} {
		if err := call(); !errors.Is(err, ErrNoLibrary) || !strings.Contains(err.Error(), "CGO_ENABLED=1") {
			t.Error(name, err)
		}
	}
	if OpcodeQuery.String() == "" || CodeFull.Error() == "" {
		t.Error("a number has no text")
	}
}
