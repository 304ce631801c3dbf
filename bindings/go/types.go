package cqlp

// #include "box.h"
import "C"

import "runtime"

// Types is a table of types, one for each column of a page, for pages that come without metadata, as EXECUTE asks for them. It is not to be
// used by several goroutines at a time.
type Types struct {
	native C.cqlp_types
	// Columns are those of the page, if the program knows them: a RowReader has them for the pages that the table types, with the
	// names of a UDT's fields. TypesOf leaves them empty; those of a Prepared are in its Result.
	Columns []Column
}

// TypesOf copies the types of the metadata that was read last: after the End of a RESULT of the kind PREPARED those of the result's columns,
// after that of a page those of its columns. Events that were not given out yet may be past that place, so give no more bytes than those of
// the frame; those of a Reader never are.
func (d *Decoder) TypesOf() (*Types, error) {
	if !d.enter() {
		return nil, ErrClosed
	}
	defer d.leave()
	t := new(Types)
	if err := done(C.cqlp_types_of(&d.box.decoder, &t.native)); err != nil {
		return nil, err
	}
	runtime.SetFinalizer(t, (*Types).Close)
	return t, nil
}

// Give gives a table away to the decoder: the cells of the first page without metadata that has as many columns are read by its types, and no
// other page after it, unless the table is given again. Without one such cells are raw scalars. t has from then on what was given
// before, if something was. Where the error is CodeNoTypes, t has no table; else it is CodeEnded, CodeOff, CodeBusy, CodeTooMany or
// CodeTooDeep, and nothing changes.
func (d *Decoder) Give(t *Types) error {
	defer runtime.KeepAlive(t)
	if !d.enter() {
		return ErrClosed
	}
	defer d.leave()
	return done(C.cqlp_give(&d.box.decoder, &t.native))
}

// TakeGiven takes the table back that the decoder was given, used or not, into t, which has none: it was given away, or is a new(Types),
// which has to be closed. The error is CodeInUse where it has one, and CodeNoTypes where the decoder has none or its table types the frame
// under way.
func (d *Decoder) TakeGiven(t *Types) error {
	defer runtime.KeepAlive(t)
	if !d.enter() {
		return ErrClosed
	}
	defer d.leave()
	return done(C.cqlp_take_given(&d.box.decoder, &t.native))
}

// Close frees the table; a second time does nothing.
func (t *Types) Close() error {
	C.cqlp_types_free(&t.native)
	runtime.SetFinalizer(t, nil)
	return nil
}
