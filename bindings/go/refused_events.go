package cqlp

import "fmt"

// An EventError says that no frame has the events that were given, and that nothing was written; of a PageWriter, that nothing more is.
type EventError struct {
	// Index is which event is refused, from 0, or -1 where no one is, but all together.
	Index int
	// Tag and Field are the event's.
	Tag   Tag
	Field Field
	// Code says why, as include/cqlp.h does of cqlp_encode: of one event it is CodeNoEvent, CodeMisplaced or CodeUnbuilt, or CodeNoSuchFrame where it is
	// the first that is of another field than is due, or does not agree with what comes before it. Of all together it is CodeNoSuchFrame where some
	// are missing; of the head of a page also where one does not fit.
	Code Code
}

func (e *EventError) Error() string {
	switch {
	case e.Index < 0:
		return fmt.Sprint("cqlp: the events together: ", wordOf(GroupCode, int64(e.Code)))
	case e.Field == 0:
		return fmt.Sprintf("cqlp: event %d, %v: %s", e.Index, e.Tag, wordOf(GroupCode, int64(e.Code)))
	}
	return fmt.Sprintf("cqlp: event %d, %v %v: %s", e.Index, e.Tag, e.Field, wordOf(GroupCode, int64(e.Code)))
}

// Unwrap makes it the Code, for errors.Is.
func (e *EventError) Unwrap() error { return e.Code }
