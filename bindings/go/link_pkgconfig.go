//go:build cqlp_pkgconfig

package cqlp

// The library that bindings/install put where pkg-config finds it.

// #cgo pkg-config: cqlp
import "C"
