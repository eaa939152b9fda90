package swimtab

// #include <swimtab.h>
import "C"

import (
	"crypto/rand"
	"crypto/subtle"
	"runtime"
	"sync"
	"unsafe"
)

// nonceSize is the length of a nonce.
const nonceSize = C.SWIMTAB_NONCE_LEN

// Keyring holds a cluster's keys. The first key encrypts; to decrypt, all are tried in order. Its methods may be
// called from any goroutine; a lock lets one call run at a time. A nil Keyring, an empty one and a closed one have no
// keys: they read and write what is not encrypted. One with keys refuses to read that, as memberlist does by default,
// unless AcceptClear was called.
type Keyring struct {
	lock   sync.Mutex
	handle C.swimtab_keyring
}

// NewKeyring makes a keyring with these keys. Close overwrites and frees them; so does the garbage collector, at some
// later time.
//
// Errors: ErrBadKey, ErrMemory.
func NewKeyring(keys ...[]byte) (*Keyring, error) {
	k := new(Keyring)
	runtime.SetFinalizer(k, func(k *Keyring) { k.Close() })
	for _, key := range keys {
		if err := k.Add(key); err != nil {
			k.Close()
			return nil, err
		}
	}
	return k, nil
}

// Add adds a key of 16, 24 or 32 bytes after those that are there.
//
// Errors: ErrBadKey, ErrMemory.
func (k *Keyring) Add(key []byte) error {
	first := filled(key)
	k.lock.Lock()
	defer k.lock.Unlock()
	return done(C.swimtab_keyring_add(&k.handle, unsafe.Pointer(&first[0]), size(key)))
}

// Keys returns copies of the keys. The first one encrypts.
func (k *Keyring) Keys() [][]byte {
	k = k.held()
	defer k.lock.Unlock()
	keys := make([][]byte, C.swimtab_keyring_count(&k.handle))
	for i := range keys {
		keys[i] = make([]byte, longestKey)
		keys[i] = keys[i][:k.read(C.size_t(i), keys[i])]
	}
	return keys
}

// Use makes a key that is there the first one, which encrypts. So a cluster changes its key: all members Add the new
// one, then all Use it, then all Remove the old one.
//
// Errors: ErrNoItem if the key is not there.
func (k *Keyring) Use(key []byte) error {
	k = k.held()
	defer k.lock.Unlock()
	return done(C.swimtab_keyring_use(&k.handle, k.index(key)))
}

// Rotate adds the key if it is not there, and makes it the first one, which encrypts. The others still decrypt.
//
// Errors: ErrBadKey, ErrMemory.
func (k *Keyring) Rotate(key []byte) error {
	first := filled(key)
	k.lock.Lock()
	defer k.lock.Unlock()
	i := k.index(key)
	if i == C.swimtab_keyring_count(&k.handle) {
		if err := done(C.swimtab_keyring_add(&k.handle, unsafe.Pointer(&first[0]), size(key))); err != nil {
			return err
		}
	}
	return done(C.swimtab_keyring_use(&k.handle, i))
}

// Remove removes a key, however often it was added, and overwrites it. The first key encrypts and is not removed.
//
// Errors: ErrNoItem if the key is not there; ErrKeyInUse if it is the first one.
func (k *Keyring) Remove(key []byte) error {
	k = k.held()
	defer k.lock.Unlock()
	err := done(C.swimtab_keyring_remove(&k.handle, k.index(key)))
	for again := err; again == nil; {
		again = done(C.swimtab_keyring_remove(&k.handle, k.index(key)))
	}
	return err
}

// longestKey is the length of the longest key.
const longestKey = 32

// read copies the key at index i, under the lock, and returns its length.
func (k *Keyring) read(i C.size_t, out []byte) int {
	return int(C.swimtab_keyring_key(&k.handle, i, unsafe.Pointer(&out[0]), size(out)).len)
}

// index returns the index of a key, under the lock, or how many keys there are if it is not there.
func (k *Keyring) index(key []byte) C.size_t {
	count := C.swimtab_keyring_count(&k.handle)
	held := make([]byte, longestKey)
	for i := C.size_t(0); i < count; i++ {
		same := subtle.ConstantTimeCompare(held[:k.read(i, held)], key) == 1
		copy(held, make([]byte, longestKey))
		if same {
			return i
		}
	}
	return count
}

// AcceptClear makes the keyring also read packets and streams in the clear, while a cluster begins or ends to encrypt.
// Close ends it.
//
// Errors: ErrNoNode if there is no key.
func (k *Keyring) AcceptClear() error {
	k.lock.Lock()
	defer k.lock.Unlock()
	return done(C.swimtab_keyring_accept_clear(&k.handle))
}

// Close overwrites the keys and frees them. Closing it again does nothing.
func (k *Keyring) Close() error {
	k.lock.Lock()
	defer k.lock.Unlock()
	C.swimtab_keyring_close(&k.handle)
	return nil
}

// Unwrap returns the message in a packet, one UDP payload as a member sends it: it removes the label, checksum and
// compression, and decrypts the message. EachPart finds the parts of a compound one, Node.Take takes in those that
// make claims, and ReadProbe reads pings and their answers. Neither the message, nor what is compressed or encrypted,
// may have more than 1,048,576 bytes. Without a key an encrypted packet is returned as it is, and looks like a ping
// that ReadProbe refuses.
//
// Errors: ErrWrongType if it begins like no message; ErrEnded if it is empty; ErrWrapperEnded to ErrTooDeep if its
// wrappers are invalid; ErrWrongTag if there are keys, and none decrypts it; ErrUnencrypted if it is in the clear,
// there are keys, and that is not accepted; ErrMemory.
func (k *Keyring) Unwrap(packet []byte) (Message, error) {
	first := filled(packet)
	k = k.held()
	defer k.lock.Unlock()
	var buffer C.swimtab_buffer
	made := C.swimtab_unwrap_new(&k.handle, unsafe.Pointer(&first[0]), size(packet), &buffer)
	return owned(&buffer, made.status)
}

// UnwrapStream returns the message in the bytes of one direction of a TCP connection, without its wrappers: a stream,
// which Progress.Whole, Node.Answer and Node.Finish read, a ping or its ack, a user message, or an error. Neither it,
// nor what is compressed or encrypted, may have more than 268,435,456 bytes. The label is that of the cluster, or
// empty. A stream that does not begin with a label is read as if it began with this one, since the side that answers
// writes none.
//
// Errors: ErrEnded if the bytes end too soon, so that more may help; ErrWrongType if it begins like no message, and
// without a key also if it is encrypted; ErrWrapperTrailing to ErrTooDeep if its wrappers are invalid;
// ErrCipherTooLong to ErrCipherTrailing, the fault of the last key, if it is encrypted and no key decrypts it;
// ErrCipherTooLong also if the label has more than 255 bytes; ErrUnencrypted if it is in the clear, there are keys,
// and that is not accepted; ErrMemory.
func (k *Keyring) UnwrapStream(label string, stream []byte) (Message, error) {
	text, first := textOf(label), filled(stream)
	k = k.held()
	defer k.lock.Unlock()
	var buffer C.swimtab_buffer
	made := C.swimtab_unwrap_stream_new(&k.handle, unsafe.Pointer(&text[0]), size(label), unsafe.Pointer(&first[0]),
		size(stream), &buffer)
	return owned(&buffer, made.status)
}

// Seal returns a packet with this message, as memberlist sends it: the label, if it is not empty, and then the
// message, encrypted with the first key and a random nonce, which authenticates the label too. Without a key the
// message is not encrypted.
//
// Errors: ErrCipherTooLong if the label has more than 255 bytes, or the message is too long; ErrMemory; any error of
// crypto/rand.
func (k *Keyring) Seal(label string, message []byte) ([]byte, error) {
	nonce, err := draw()
	if err != nil {
		return nil, err
	}
	return k.seal(nonce, label, message)
}

// SealStream returns a stream with this message in the same way. reply is false on the side that opened the
// connection, for what Offer wrote, and true on the other side, for what Answer wrote. No label is written before a
// reply; if the reply is encrypted it authenticates the label all the same.
//
// Errors: those of Seal; a message to be encrypted has at most 268,435,427 bytes.
func (k *Keyring) SealStream(label string, reply bool, message []byte) ([]byte, error) {
	nonce, err := draw()
	if err != nil {
		return nil, err
	}
	return k.sealStream(nonce, label, reply, message)
}

// overhead is the greatest length that sealing adds to the label and the message.
const overhead = 2 + 5 + 1 + nonceSize + 16

func (k *Keyring) seal(nonce []byte, label string, message []byte) ([]byte, error) {
	text, first := textOf(label), filled(message)
	k = k.held()
	defer k.lock.Unlock()
	return written(len(label)+len(message)+overhead, func(out []byte) C.swimtab_written {
		return C.swimtab_seal(&k.handle, unsafe.Pointer(&nonce[0]), unsafe.Pointer(&text[0]), size(label),
			unsafe.Pointer(&first[0]), size(message), unsafe.Pointer(&out[0]), size(out))
	})
}

func (k *Keyring) sealStream(nonce []byte, label string, reply bool, message []byte) ([]byte, error) {
	text, first := textOf(label), filled(message)
	k = k.held()
	defer k.lock.Unlock()
	return written(len(label)+len(message)+overhead, func(out []byte) C.swimtab_written {
		return C.swimtab_seal_stream(&k.handle, unsafe.Pointer(&nonce[0]), unsafe.Pointer(&text[0]), size(label),
			C.bool(reply), unsafe.Pointer(&first[0]), size(message), unsafe.Pointer(&out[0]), size(out))
	})
}

// draw returns a random nonce. A nonce must never be used twice with one key.
func draw() ([]byte, error) {
	nonce := make([]byte, nonceSize)
	_, err := rand.Read(nonce)
	return nonce, err
}

// held returns the keyring, or an empty one if it is nil, and locks it.
func (k *Keyring) held() *Keyring {
	if k == nil {
		k = new(Keyring)
	}
	k.lock.Lock()
	return k
}
