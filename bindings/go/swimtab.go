// Package swimtab is the membership table of a SWIM cluster, over memberlist's messages: a thin wrapper around
// libswimtab. A Node has no sockets or timers: the program passes in the packets and streams that it received, and
// sends those that a call writes. A View is what a member of memberlist shows, by memberlist's own rules. The
// repository's docs/EMBEDDING.md is the guide; docs/messages.md has the rules.
package swimtab

// #include <swimtab.h>
import "C"

import (
	"fmt"
	"sync"
	"unsafe"
)

// Node is what one member of a cluster knows. Its methods may be called from any goroutine; a lock lets one call
// run at a time. The calls of a closed Node return ErrNoNode. Open makes a Node; do not copy it.
type Node struct {
	lock   sync.Mutex
	handle C.swimtab_node
	// what calls write to, under the lock, so that no call needs memory for it
	member C.swimtab_member_data
	packet [C.SWIMTAB_MAX_PACKET_LEN]byte
	count  int // how many members there are, or -1 if the table changed since they were counted
}

// Version returns the version of the linked library, as "0.3.0".
func Version() string {
	number := uint32(C.swimtab_version())
	return fmt.Sprintf("%d.%d.%d", number/10000, number/100%100, number%100)
}

// Close frees the node. Closing it again does nothing.
func (n *Node) Close() error {
	n.lock.Lock()
	defer n.lock.Unlock()
	C.swimtab_close(&n.handle)
	n.changed(true)
	return nil
}

// changed notes that the table changed, if there is news.
func (n *Node) changed(news bool) {
	if news {
		n.count = -1
	}
}

// Take takes in the claim of a packet, or all claims of a compound packet, without wrappers. It returns whether the
// table changed: a program that gossips passes on the packets that have news. After an error, none of the claims
// was taken in.
//
// Errors: ErrMemory, ErrNoNode, and the fault at which reading the packet stops.
func (n *Node) Take(packet []byte) (news bool, err error) {
	first := filled(packet)
	n.lock.Lock()
	defer n.lock.Unlock()
	taken := C.swimtab_take(&n.handle, unsafe.Pointer(&first[0]), size(packet))
	n.changed(bool(taken.news))
	return bool(taken.news), done(taken.status)
}

// Refute refutes what others say about the member, if there is something to refute (due), and returns the
// incarnation at which the member is alive again.
//
// Errors: ErrExhausted, ErrGone, ErrMemory, ErrNoNode.
func (n *Node) Refute() (incarnation uint32, due bool, err error) {
	n.lock.Lock()
	defer n.lock.Unlock()
	refuted := C.swimtab_refute(&n.handle)
	n.changed(bool(refuted.due))
	return uint32(refuted.inc), bool(refuted.due), done(refuted.status)
}

// Forget forgets a name: the table is then that of all claims taken in that are not about this name. Whatever comes
// about the name later is taken in as about a new one, even an old death; so forget a name only when the other
// members have forgotten it.
//
// Errors: ErrNoMember, ErrNoNode.
func (n *Node) Forget(name string) error {
	text := textOf(name)
	n.lock.Lock()
	defer n.lock.Unlock()
	status := C.swimtab_forget(&n.handle, unsafe.Pointer(&text[0]), size(name))
	n.changed(status == C.SWIMTAB_DONE)
	return done(status)
}

// Readmit believes a member that came back, as memberlist does: of all that was said about it only its newest Alive
// is left, which is newer than its death or its leave. Member.CameBack tells of which members this holds. Members that
// use only this library need it not, and then differ from those that call it.
//
// Errors: ErrNotBack, ErrNoMember, ErrMemory, ErrNoNode.
func (n *Node) Readmit(name string) error {
	text := textOf(name)
	n.lock.Lock()
	defer n.lock.Unlock()
	status := C.swimtab_readmit(&n.handle, unsafe.Pointer(&text[0]), size(name))
	n.changed(status == C.SWIMTAB_DONE)
	return done(status)
}

// comparing prevents two comparisons from locking the same two nodes in different orders.
var comparing sync.Mutex

// Relation returns how the node's table relates to that of the other node.
//
// Errors: ErrNoNode.
func (n *Node) Relation(other *Node) (Relation, error) {
	comparing.Lock()
	defer comparing.Unlock()
	n.lock.Lock()
	defer n.lock.Unlock()
	if n != other {
		other.lock.Lock()
		defer other.lock.Unlock()
	}
	related := C.swimtab_relate(&n.handle, &other.handle)
	return Relation(related.relation), done(related.status)
}

// Relation is how a table relates to another.
type Relation uint32

const (
	Equal  Relation = C.SWIMTAB_EQUAL
	Behind Relation = C.SWIMTAB_BEHIND // the other one has more
	Ahead  Relation = C.SWIMTAB_AHEAD  // this one has more
	Apart  Relation = C.SWIMTAB_APART  // each has something that the other one does not have
)

func (r Relation) String() string {
	if names := [...]string{"equal", "behind", "ahead", "apart"}; int(r) < len(names) {
		return names[r]
	}
	return "unknown"
}
