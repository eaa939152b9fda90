package swimtab

// #include <swimtab.h>
import "C"

import "unsafe"

// Form is the form of a stream to write.
type Form uint32

const (
	// Canonical is all that the table keeps, in canonical bytes, and no user state.
	Canonical Form = C.SWIMTAB_CANONICAL
	// MemberlistForm is a stream that memberlist merges, with one record for each member: its state, or its newest
	// Alive if it came back, with the newest address, port, metadata and versions. memberlist refuses a whole stream
	// if one of its records has no versions, or unsound ones, so members of which no sound ones are known are left
	// out; Node.LeftOut returns how many.
	MemberlistForm Form = C.SWIMTAB_MEMBERLIST
)

// Taken is the result of taking in a stream.
type Taken struct {
	Join bool // the join flag of the stream
	News bool // whether the table changed
	Used int  // the length of the stream; bytes after it were not read
}

// Offer returns the node's table as a push/pull stream, which begins an exchange. memberlist sets join when a member
// joins. user is the user state at the end of a stream for memberlist, which its delegates read, or nil.
//
// Errors: ErrTooManyRecords, ErrUserTooLong, ErrBadForm (also if there is user state in the canonical form),
// ErrMemory, ErrNoNode.
func (n *Node) Offer(join bool, form Form, user []byte) ([]byte, error) {
	state := filled(user)
	n.lock.Lock()
	defer n.lock.Unlock()
	var buffer C.swimtab_buffer
	status := C.swimtab_offer_new(&n.handle, C.bool(join), C.uint32_t(form), unsafe.Pointer(&state[0]), size(user),
		&buffer)
	return owned(&buffer, status)
}

// Dump returns the bytes that `swimtab merge` prints for the table: the canonical form without the join flag.
//
// Errors: ErrTooManyRecords, ErrMemory, ErrNoNode.
func (n *Node) Dump() ([]byte, error) {
	return n.Offer(false, Canonical, nil)
}

// Answer answers an offer: it takes the stream in, and returns the table as it was before, in this form, with the same
// join flag and with this user state, or nil. A suspicion may have come with the stream, so call Refute afterwards.
// After an error, nothing was taken in.
//
// Errors: those of Offer, and the fault at which reading the stream stops. After ErrEnded, and only then, more bytes
// may help.
func (n *Node) Answer(stream []byte, form Form, user []byte) (reply []byte, taken Taken, err error) {
	first, state := filled(stream), filled(user)
	n.lock.Lock()
	defer n.lock.Unlock()
	var buffer C.swimtab_buffer
	made := C.swimtab_answer_new(&n.handle, unsafe.Pointer(&first[0]), size(stream), C.uint32_t(form),
		unsafe.Pointer(&state[0]), size(user), &buffer)
	n.changed(bool(made.news))
	reply, err = owned(&buffer, made.status)
	return reply, takenOf(made), err
}

// LeftOut returns how many members an offer in MemberlistForm leaves out, because no Alive of them with sound versions
// is known; 0 after Close.
func (n *Node) LeftOut() int {
	n.lock.Lock()
	defer n.lock.Unlock()
	return int(C.swimtab_left_out(&n.handle))
}

// Finish takes in a stream: the reply to an offer, or a dump. A suspicion may have come with it, so call Refute
// afterwards. After an error, nothing was taken in.
//
// Errors: ErrMemory, ErrNoNode, and the fault at which reading the stream stops.
func (n *Node) Finish(stream []byte) (Taken, error) {
	first := filled(stream)
	n.lock.Lock()
	defer n.lock.Unlock()
	made := C.swimtab_finish(&n.handle, unsafe.Pointer(&first[0]), size(stream))
	n.changed(bool(made.news))
	return takenOf(made), done(made.status)
}

// List returns the listing of the table, as `swimtab list` prints it.
//
// Errors: ErrMemory, ErrNoNode.
func (n *Node) List() (string, error) {
	n.lock.Lock()
	defer n.lock.Unlock()
	var buffer C.swimtab_buffer
	if err := done(C.swimtab_list_new(&n.handle, &buffer)); err != nil {
		return "", err
	}
	defer C.swimtab_free(&buffer)
	return string(held(&buffer)), nil
}

func takenOf(made C.swimtab_exchanged) Taken {
	return Taken{Join: bool(made.join), News: bool(made.news), Used: int(made.used)}
}

// owned returns a copy of bytes in memory of the library, and frees them.
func owned(buffer *C.swimtab_buffer, status C.swimtab_status) ([]byte, error) {
	if err := done(status); err != nil {
		return nil, err
	}
	defer C.swimtab_free(buffer)
	return append([]byte(nil), held(buffer)...), nil
}

// held returns the bytes of a buffer without copying them. The pointer of an empty buffer may be one that Go does not
// allow, so it is not used.
func held(buffer *C.swimtab_buffer) []byte {
	if buffer.len == 0 {
		return nil
	}
	return viewOf(buffer.at, buffer.len)
}

// Progress is how far a stream that comes in pieces has been read. The zero Progress is ready to use; each stream
// needs its own.
type Progress struct {
	read C.swimtab_progress
}

// Whole returns whether the bytes that came so far begin with a whole stream, and the length of that stream. The bytes
// of each later call begin with those of the last call. Each record is read once, however many pieces there are.
//
// Errors: ErrMemory, after which the same call may be repeated, and otherwise the fault at which reading stops: the
// bytes do not begin with a stream, whatever follows.
func (p *Progress) Whole(bytes []byte) (used int, whole bool, err error) {
	first := filled(bytes)
	switch status := C.swimtab_whole(&p.read, unsafe.Pointer(&first[0]), size(bytes)); status {
	case C.SWIMTAB_DONE:
		return int(p.read.at) + int(p.read.user_len), true, nil
	case C.SWIMTAB_ENDED:
		return 0, false, nil
	default:
		return 0, false, Error(status)
	}
}

// User returns the user state at the end of the whole stream with which the bytes begin, after Whole said that there
// is one. It shares the memory of the bytes, and is nil if the stream has none.
func (p *Progress) User(bytes []byte) []byte {
	from, to := uint64(p.read.at), uint64(p.read.at)+uint64(p.read.user_len)
	if !p.read.has_header || p.read.left > 0 || from == to || to > uint64(len(bytes)) {
		return nil
	}
	return bytes[from:to:to]
}
