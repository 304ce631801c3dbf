package cqlp

// #include "cqlp.h"
import "C"

// Name is the word of a number of a group, as cqlp show and cqlp check write it where they write one: of GroupError and 0x1000 it is
// Unavailable. False where the group, or the number in it, is not known.
func Name(group Group, number int64) (string, bool) {
	word := C.cqlp_name(C.uint32_t(group), C.int64_t(number))
	if word == nil {
		return "", false
	}
	return C.GoString(word), true
}

// Version is the version of the library, as 0.1.0.
func Version() string { return C.GoString(C.cqlp_version()) }

// VersionNumber is the same as a number: 1,000,000 for each of its first part, 1,000 of its second, 1 of its third.
func VersionNumber() uint32 { return uint32(C.cqlp_version_number()) }
