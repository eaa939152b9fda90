package swimtab

// #include <swimtab.h>
import "C"

import (
	"net/netip"
	"unsafe"
)

// State is a member's state.
type State uint32

const (
	Alive   State = C.SWIMTAB_ALIVE
	Suspect State = C.SWIMTAB_SUSPECT
	Confirm State = C.SWIMTAB_CONFIRM // declared dead by other members
	Leave   State = C.SWIMTAB_LEAVE   // left by itself
	Noted   State = C.SWIMTAB_NOTED   // of views alone: an Alive at incarnation 0 gave an address, and is not believed
)

func (s State) String() string {
	if names := [...]string{"alive", "suspect", "confirm", "leave", "noted"}; int(s) < len(names) {
		return names[s]
	}
	return "unknown"
}

// Address is the newest address of a member: that of the Alive with the greatest incarnation, and then the greatest
// address, port, metadata and versions. It need not be the Alive that came last.
type Address struct {
	Incarnation uint32
	Details
}

// Member is what a node knows about a member.
type Member struct {
	Name        string
	State       State
	Incarnation uint32 // the incarnation of that state
	// CameBack tells whether the newest address has a greater incarnation than the state: the member was declared
	// dead or left, and has been heard of again.
	CameBack bool
	Address  *Address // nil if no Alive was seen
}

// Len returns how many members the node knows of, itself included unless it forgot itself, and 0 after Close.
func (n *Node) Len() int {
	n.lock.Lock()
	defer n.lock.Unlock()
	return n.counted()
}

// counted returns how many members there are, under the lock, and counts them if the table changed.
func (n *Node) counted() int {
	if n.count < 0 {
		n.count = int(C.swimtab_count(&n.handle))
	}
	return n.count
}

// At returns the member at index i, from 0, in the byte order of the names.
//
// Errors: ErrNoMember, ErrNoNode.
func (n *Node) At(i int) (Member, error) {
	n.lock.Lock()
	defer n.lock.Unlock()
	if err := done(C.swimtab_member(&n.handle, C.size_t(i), &n.member)); err != nil {
		return Member{}, err
	}
	return n.seen(n.name()), nil
}

// Find returns the member of this name.
//
// Errors: ErrNoMember, ErrNoNode.
func (n *Node) Find(name string) (Member, error) {
	text := textOf(name)
	n.lock.Lock()
	defer n.lock.Unlock()
	if err := done(C.swimtab_find(&n.handle, unsafe.Pointer(&text[0]), size(name), &n.member)); err != nil {
		return Member{}, err
	}
	return n.seen(name), nil
}

// Members returns all members as they are at one moment, in the byte order of their names.
func (n *Node) Members() []Member {
	n.lock.Lock()
	defer n.lock.Unlock()
	members := make([]Member, 0, n.counted())
	n.member.name_len = 0
	for done(C.swimtab_after(&n.handle, unsafe.Pointer(&n.member.name[0]), C.size_t(n.member.name_len), &n.member)) == nil {
		members = append(members, n.seen(n.name()))
	}
	return members
}

// After returns the first member whose name is above this one in byte order. So a walk over all members goes on where
// it was, whatever changes in between; it begins with an empty name. Each and All walk in this way.
//
// Errors: ErrNoMember, ErrNoNode.
func (n *Node) After(name string) (Member, error) {
	text := textOf(name)
	n.lock.Lock()
	defer n.lock.Unlock()
	if err := done(C.swimtab_after(&n.handle, unsafe.Pointer(&text[0]), size(name), &n.member)); err != nil {
		return Member{}, err
	}
	return n.seen(n.name()), nil
}

// Each calls f for each member, in the byte order of their names, until f returns false. The node is not locked
// while f runs, so f may call its methods. f may or may not be called for a name that is added or forgotten
// meanwhile; for each other name it is called once.
func (n *Node) Each(f func(Member) bool) {
	for member, err := n.After(""); err == nil && f(member); {
		member, err = n.After(member.Name)
	}
}

// Watch starts to note the names of the members whose entries change, with none noted yet, or stops and drops the
// noted names. While names are noted, any packet or stream may take memory.
//
// Errors: ErrNoNode.
func (n *Node) Watch(on bool) error {
	n.lock.Lock()
	defer n.lock.Unlock()
	return done(C.swimtab_watch(&n.handle, C.bool(on)))
}

// NextChange returns the member of the first noted name, as it is now, and no longer notes that name. ok is false if
// no name is noted.
//
//	for member, ok := node.NextChange(); ok; member, ok = node.NextChange() {
func (n *Node) NextChange() (member Member, ok bool) {
	n.lock.Lock()
	defer n.lock.Unlock()
	if C.swimtab_next_change(&n.handle, &n.member) != C.SWIMTAB_DONE {
		return Member{}, false
	}
	return n.seen(n.name()), true
}

// name returns the name of the member that was just copied.
func (n *Node) name() string {
	return string(viewOf(&n.member.name[0], C.size_t(n.member.name_len)))
}

// seen returns the member that was just copied.
func (n *Node) seen(name string) Member {
	raw := &n.member
	member := Member{
		Name:        name,
		State:       State(raw.state),
		Incarnation: uint32(raw.inc),
		CameBack:    bool(raw.came_back),
	}
	if raw.has_address {
		addr, _ := netip.AddrFromSlice(viewOf(&raw.addr[0], C.size_t(raw.addr_len)))
		member.Address = &Address{Incarnation: uint32(raw.address_inc), Details: Details{
			Addr:     addr,
			Port:     uint16(raw.port),
			Meta:     append([]byte(nil), viewOf(&raw.meta[0], C.size_t(raw.meta_len))...),
			Versions: append([]byte(nil), viewOf(&raw.vsn[0], C.size_t(raw.vsn_len))...),
		}}
	}
	return member
}
