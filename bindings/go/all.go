package cqlp

import "io"

// What All of a reader answers, and RowsOf, is an iterator, an iter.Seq2 of Go 1.23, which ranges over it. It takes what Next would, so it begins where the
// reader is, may be left by break and gone on with, and is not to be used by several goroutines at a time. The error of the last step says what ended the
// stream; where it is whole there is no such step.

// All are the events that are still to come, each with a content that lives until the next step.
//
//	for event, err := range reader.All() {
func (r *Reader) All() func(yield func(Event, error) bool) { return allOf(r.Next) }

// All are the frames that are still to come, each of which lives on.
//
//	for frame, err := range frames.All() {
func (f *Frames) All() func(yield func(*Frame, error) bool) { return allOf(f.Next) }

// All are the rows that are still to come, as Values gives them.
//
//	for row, err := range rows.All() {
func (r *RowReader) All() func(yield func([]any, error) bool) {
	return allOf(func() ([]any, error) {
		if r.Next() {
			return r.Values(), nil
		}
		return nil, endOf(r.Err())
	})
}

// RowsOf are the rows that are still to come, each put into a T as Scan does, as into a struct by its tags. Where a row does not fit, the error is a
// *ScanError, and the next step has the next row.
//
//	for order, err := range cqlp.RowsOf[order](rows) {
func RowsOf[T any](r *RowReader) func(yield func(T, error) bool) {
	return func(yield func(T, error) bool) {
		for r.Next() {
			var row T
			if err := r.Scan(&row); !yield(row, err) {
				return
			}
		}
		if err := r.Err(); err != nil {
			var none T
			yield(none, err)
		}
	}
}

// All are the batches that are still to come, as Columns gives them: the next step overwrites the arrays.
//
//	for columns, err := range reader.All() {
func (r *ColumnReader) All() func(yield func([]ColumnArray, error) bool) {
	return allOf(func() ([]ColumnArray, error) {
		if r.Next() {
			return r.Columns(), nil
		}
		return nil, endOf(r.Err())
	})
}

// endOf is the error after the last step of a reader that says none at the end of a stream that is whole.
func endOf(err error) error {
	if err == nil {
		return io.EOF
	}
	return err
}

// allOf are the steps that next gives, up to its error.
func allOf[T any](next func() (T, error)) func(yield func(T, error) bool) {
	return func(yield func(T, error) bool) {
		for {
			step, err := next()
			if err == io.EOF || !yield(step, err) || err != nil {
				return
			}
		}
	}
}
