package swimtab

// #include <swimtab.h>
import "C"

import (
	"net/netip"
	"time"
)

// Event is what changed for a member of a view.
type Event uint32

const (
	EventNone          Event = C.SWIMTAB_NO_EVENT
	EventJoined        Event = C.SWIMTAB_JOINED         // a new member: its Alive came in a message
	EventKnown         Event = C.SWIMTAB_KNOWN          // a new member: its record came in a stream, or only its address
	EventBack          Event = C.SWIMTAB_BACK           // it was dead or had left, and is alive
	EventUpdated       Event = C.SWIMTAB_UPDATED        // alive at a greater incarnation, with other metadata or versions
	EventRenewed       Event = C.SWIMTAB_RENEWED        // alive at a greater incarnation, and nothing else changed
	EventRefuted       Event = C.SWIMTAB_REFUTED        // it was suspected, and is alive at a greater incarnation
	EventSuspected     Event = C.SWIMTAB_SUSPECTED      // it was alive, and is suspected
	EventAlsoSuspected Event = C.SWIMTAB_ALSO_SUSPECTED // one more member suspects it
	EventDead          Event = C.SWIMTAB_DEAD           // another member declared it dead
	EventLeft          Event = C.SWIMTAB_LEFT           // it left
	EventConflict      Event = C.SWIMTAB_CONFLICT       // another member uses its name elsewhere, and is not believed
)

// String returns the event in words: "also suspected".
func (e Event) String() string {
	names := [...]string{"none", "joined", "known", "back", "updated", "renewed", "refuted", "suspected",
		"also suspected", "dead", "left", "conflict"}
	if int(e) < len(names) {
		return names[e]
	}
	return "unknown"
}

// Shown is a member as a view shows it.
type Shown struct {
	Name        string
	State       State
	Since       time.Duration // the time at which the state began
	Incarnation uint32        // the incarnation of that state
	Details                   // of the newest Alive that was believed
	By          string        // the last of its accusers, or who declared it dead; empty if nobody is named
	Accusers    int           // how many members that are named suspect it, up to 255: View.Accusers
	Rivals      int           // how many other addresses claimed its name since, up to 255
}

// Change is what changed, and the member as the view now shows it.
type Change struct {
	Event  Event
	Member Shown
}

// shown returns the member that was just copied.
func (v *View) shown() Shown {
	raw := &v.member
	addr, _ := netip.AddrFromSlice(viewOf(&raw.addr[0], C.size_t(raw.addr_len)))
	return Shown{
		Name:        string(viewOf(&raw.name[0], C.size_t(raw.name_len))),
		State:       State(raw.state),
		Since:       time.Duration(raw.since) * time.Microsecond,
		Incarnation: uint32(raw.inc),
		Details: Details{
			Addr:     addr,
			Port:     uint16(raw.port),
			Meta:     append([]byte(nil), viewOf(&raw.meta[0], C.size_t(raw.meta_len))...),
			Versions: append([]byte(nil), viewOf(&raw.vsn[0], C.size_t(raw.vsn_len))...),
		},
		By:       string(viewOf(&raw.by[0], C.size_t(raw.by_len))),
		Accusers: int(raw.accusers),
		Rivals:   int(raw.rivals),
	}
}
