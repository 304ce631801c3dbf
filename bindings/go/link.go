//go:build !cqlp_installed && !cqlp_pkgconfig

package cqlp

// The library that bindings/build made last, beside this package.

// #cgo CFLAGS: -I${SRCDIR}/../../include
// #cgo LDFLAGS: ${SRCDIR}/../out/libcqlp.a
import "C"
