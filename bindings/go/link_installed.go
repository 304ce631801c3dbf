//go:build cqlp_installed

package cqlp

// The library that bindings/install put where cc looks, or where CGO_CFLAGS and CGO_LDFLAGS say.

// #cgo LDFLAGS: -lcqlp
import "C"
