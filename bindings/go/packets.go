package swimtab

// #include <swimtab.h>
import "C"

import "unsafe"

// longest is the length of Node.packet.
const longest = C.SWIMTAB_MAX_PACKET_LEN

// Alive returns the packet that says that the member is alive at this incarnation. Pass the incarnation of Open at
// first, and later those that Refute and Update return.
//
// Errors: ErrMemory, ErrNoNode.
func (n *Node) Alive(incarnation uint32) ([]byte, error) {
	n.lock.Lock()
	defer n.lock.Unlock()
	made := C.swimtab_alive(&n.handle, C.uint32_t(incarnation), unsafe.Pointer(&n.packet[0]), longest)
	return copied(n.packet[:], made)
}

// Suspect returns the packet by which the member suspects another one. The incarnation is that of the Alive that it no
// longer believes. The table does not change: pass the packet to Take to add the claim to it.
//
// Errors: ErrNameEmpty, ErrNameTooLong, ErrMemory, ErrNoNode.
func (n *Node) Suspect(name string, incarnation uint32) ([]byte, error) {
	text := textOf(name)
	n.lock.Lock()
	defer n.lock.Unlock()
	made := C.swimtab_suspect(&n.handle, unsafe.Pointer(&text[0]), size(name), C.uint32_t(incarnation),
		unsafe.Pointer(&n.packet[0]), longest)
	return copied(n.packet[:], made)
}

// Confirm returns the packet by which the member declares another one dead. The table does not change.
//
// Errors: ErrOwnName, ErrNameEmpty, ErrNameTooLong, ErrMemory, ErrNoNode.
func (n *Node) Confirm(name string, incarnation uint32) ([]byte, error) {
	text := textOf(name)
	n.lock.Lock()
	defer n.lock.Unlock()
	made := C.swimtab_confirm(&n.handle, unsafe.Pointer(&text[0]), size(name), C.uint32_t(incarnation),
		unsafe.Pointer(&n.packet[0]), longest)
	return copied(n.packet[:], made)
}

// Leave returns the packet by which the member itself leaves, at this incarnation. The table does not change.
//
// Errors: ErrMemory, ErrNoNode.
func (n *Node) Leave(incarnation uint32) ([]byte, error) {
	n.lock.Lock()
	defer n.lock.Unlock()
	made := C.swimtab_leave(&n.handle, C.uint32_t(incarnation), unsafe.Pointer(&n.packet[0]), longest)
	return copied(n.packet[:], made)
}

// SuspectOf returns the packet by which the member of the name from suspects another one, as a member passes it on.
// It may be empty.
//
// Errors: ErrNameEmpty, ErrNameTooLong, ErrMemory.
func SuspectOf(from, name string, incarnation uint32) ([]byte, error) {
	origin, text := textOf(from), textOf(name)
	return written(longest, func(out []byte) C.swimtab_written {
		return C.swimtab_suspect_of(unsafe.Pointer(&origin[0]), size(from), unsafe.Pointer(&text[0]), size(name),
			C.uint32_t(incarnation), unsafe.Pointer(&out[0]), size(out))
	})
}

// DeadOf returns the packet by which the member of the name from declares another one dead or, with its own name,
// leaves. It may be empty.
//
// Errors: ErrNameEmpty, ErrNameTooLong, ErrMemory.
func DeadOf(from, name string, incarnation uint32) ([]byte, error) {
	origin, text := textOf(from), textOf(name)
	return written(longest, func(out []byte) C.swimtab_written {
		return C.swimtab_dead_of(unsafe.Pointer(&origin[0]), size(from), unsafe.Pointer(&text[0]), size(name),
			C.uint32_t(incarnation), unsafe.Pointer(&out[0]), size(out))
	})
}

// Compound returns one compound packet made from up to 255 packets.
//
// Errors: ErrTooManyPackets, ErrMemory, and, if one is not a packet, the fault of the first such one; a compound
// packet is ErrWrongType.
func Compound(packets ...[]byte) ([]byte, error) {
	var all []byte
	lens := make([]C.size_t, len(packets)+1)
	for i, packet := range packets {
		all = append(all, packet...)
		lens[i] = size(packet)
	}
	first := filled(all)
	return written(len(all)+2*len(packets)+2, func(out []byte) C.swimtab_written {
		return C.swimtab_compound(unsafe.Pointer(&first[0]), size(all), &lens[0], C.size_t(len(packets)),
			unsafe.Pointer(&out[0]), size(out))
	})
}
