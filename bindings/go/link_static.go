//go:build swimtab_static

package swimtab

// With the tag swimtab_static, pkg-config is not used: the header and the archive are those of this repository.
// CGO_CFLAGS and CGO_LDFLAGS come first, and may name other folders.

// #cgo CFLAGS: -I${SRCDIR}/../../include
// #cgo LDFLAGS: -L${SRCDIR}/../../build -l:libswimtab.a
import "C"
