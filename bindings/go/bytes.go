package swimtab

// #include <swimtab.h>
// #if !defined(SWIMTAB_VERSION_NUMBER) || SWIMTAB_VERSION_NUMBER < 300
// #error "this package needs libswimtab 0.3 or later"
// #endif
import "C"

import "unsafe"

// cgo checks all of the memory that an argument points to, and panics if it holds a Go pointer. For an argument of
// the form unsafe.Pointer(&b[0]) it checks the bytes of b alone, even if they are part of a struct. So each call
// passes its arguments in this form, and no function returns such a pointer.

// none is passed for no bytes, which have no first byte.
var none [1]byte

// filled returns the bytes, or none if they are empty, so that there is a first byte.
func filled(bytes []byte) []byte {
	if len(bytes) == 0 {
		return none[:]
	}
	return bytes
}

// textOf returns the bytes of a string without copying them, so nobody may write to them. If there are none, it
// returns what filled does.
func textOf(text string) []byte {
	return filled(unsafe.Slice(*(**byte)(unsafe.Pointer(&text)), len(text)))
}

// viewOf returns bytes in C memory without copying them.
func viewOf(first *C.uint8_t, size C.size_t) []byte {
	return unsafe.Slice((*byte)(unsafe.Pointer(first)), int(size))
}

// size returns how many bytes there are.
func size[B []byte | string](bytes B) C.size_t {
	return C.size_t(len(bytes))
}

// copied returns a copy of what a call wrote to out.
func copied(out []byte, made C.swimtab_written) ([]byte, error) {
	if err := done(made.status); err != nil {
		return nil, err
	}
	return append([]byte(nil), out[:made.len]...), nil
}

// written makes a call that writes bytes, and repeats it with a larger buffer if it needs one.
func written(guess int, call func(out []byte) C.swimtab_written) ([]byte, error) {
	for out := make([]byte, guess); ; {
		made := call(out)
		if made.status != C.SWIMTAB_TOO_SMALL {
			return out[:made.len], done(made.status)
		}
		out = make([]byte, made.len)
	}
}
