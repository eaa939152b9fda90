//go:build !swimtab_static

package swimtab

// #cgo pkg-config: swimtab
import "C"
