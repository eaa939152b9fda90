package swimtab

// #include <swimtab.h>
import "C"

import "unsafe"

// Message is a message of a cluster, without wrappers.
type Message []byte

// Kind returns the kind of the message, or KindNone if it has no bytes.
func (m Message) Kind() Kind {
	if len(m) == 0 {
		return KindNone
	}
	return Kind(m[0])
}

// Kind is the kind of a message: its first byte, as in memberlist's net.go.
type Kind uint8

const (
	KindPing         Kind = C.SWIMTAB_KIND_PING      // ReadProbe reads it
	KindIndirectPing Kind = C.SWIMTAB_KIND_INDIRECT  // asks a member to ping another one; ReadProbe reads it
	KindAck          Kind = C.SWIMTAB_KIND_ACK       // ReadProbe reads it
	KindSuspect      Kind = C.SWIMTAB_KIND_SUSPECT   // Node.Take takes it in
	KindAlive        Kind = C.SWIMTAB_KIND_ALIVE     // Node.Take takes it in
	KindDead         Kind = C.SWIMTAB_KIND_DEAD      // a death or a leave; Node.Take takes it in
	KindPushPull     Kind = C.SWIMTAB_KIND_PUSH_PULL // a stream; Node.Answer and Node.Finish take it in
	KindCompound     Kind = C.SWIMTAB_KIND_COMPOUND  // EachPart and Parts find its parts
	KindUser         Kind = C.SWIMTAB_KIND_USER      // the bytes behind the first are the program's
	KindNack         Kind = C.SWIMTAB_KIND_NACK      // ReadProbe reads it
	KindError        Kind = C.SWIMTAB_KIND_ERROR     // why the other side of a stream refused it
	KindNone         Kind = 255                      // of no bytes
)

// String returns the kind in words: "indirect ping".
func (k Kind) String() string {
	switch k {
	case KindPing:
		return "ping"
	case KindIndirectPing:
		return "indirect ping"
	case KindAck:
		return "ack"
	case KindSuspect:
		return "suspect"
	case KindAlive:
		return "alive"
	case KindDead:
		return "dead"
	case KindPushPull:
		return "push/pull"
	case KindCompound:
		return "compound"
	case KindUser:
		return "user"
	case KindNack:
		return "nack"
	case KindError:
		return "error"
	case KindNone:
		return "none"
	}
	return "unknown"
}

// EachPart calls f for each part of a message until f returns false. A compound packet has up to 255 parts, and none
// after the first that is cut off; any other message is its own part. So a program reads the parts one by one, and a
// bad part refuses only itself. A part may be a compound packet again, which memberlist never writes: limit how deep
// you look. The parts share the memory of the message.
func EachPart(message []byte, f func(Message) bool) {
	first := filled(message)
	for i := C.size_t(0); ; i++ {
		place := C.swimtab_part(unsafe.Pointer(&first[0]), size(message), i)
		if place.status != C.SWIMTAB_DONE {
			return
		}
		end := place.at + place.len
		if !f(message[place.at:end:end]) {
			return
		}
	}
}

// User returns a user message with these bytes, for the program that uses memberlist at the other end.
//
// Errors: ErrMemory.
func User(bytes []byte) ([]byte, error) {
	first := filled(bytes)
	return written(len(bytes)+1, func(out []byte) C.swimtab_written {
		return C.swimtab_user_of(unsafe.Pointer(&first[0]), size(bytes), unsafe.Pointer(&out[0]), size(out))
	})
}
