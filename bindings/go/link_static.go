//go:build vinjakwe_static

package vinjakwe

// #cgo pkg-config: vinjakwe-static
import "C"
