package memberlist

import (
	"bytes"
	"fmt"
	"io"
	"math/rand"
	"sync/atomic"
	"testing"
	"time"
)

const (
	steps = 200_000
	// names are unknown again after so many events
	round = 40
	local = "observer"
)

// Not compared, since an observer knows more here than a member (Rules.antt marks these rules with "own"):
//   - a Suspect, a Dead or a Left of a name of which no Alive above incarnation 0 was heard, also in a record: a member
//     drops it;
//   - a message that names no accuser;
//   - what packets show of a name without an Alive (Seen);
//   - the end of the wait, after which one that is gone is forgotten: resetNodes is not called;
//   - refutation: the member's own name is none of those that are heard about;
//   - more than 255 accusers or rivals.

// conflicts counts how often memberlist reports a conflict.
type conflicts struct{ count int }

func (c *conflicts) NotifyConflict(existing, other *Node) { c.count++ }

// observer returns a member that sends nothing, and declares nobody dead by its own timer.
func observer(t *testing.T, c *conflicts) *Memberlist {
	config := DefaultLANConfig()
	config.Name = local
	config.BindAddr = "127.0.0.1"
	config.BindPort = 0
	config.LogOutput = io.Discard
	config.Conflict = c
	config.ProbeInterval = time.Hour
	config.SuspicionMult = 257
	m, err := newMemberlist(config)
	if err != nil {
		t.Fatal(err)
	}
	return m
}

// forget makes all names unknown. So many members are known that each of 255 accusers counts.
func forget(m *Memberlist) {
	for _, timer := range m.nodeTimers {
		timer.timer.Stop()
	}
	m.nodes = nil
	m.nodeMap = map[string]*nodeState{}
	m.nodeTimers = map[string]*suspicion{}
	atomic.StoreUint32(&m.numNodes, 300)
}

// anything returns what is heard next, and whether it comes in a record of a push/pull.
func anything(r *rand.Rand) (said, bool) {
	s := said{
		saying: saying(r.Intn(4)),
		name:   fmt.Sprintf("f%d", r.Intn(3)),
		inc:    uint32(r.Intn(5)),
		from:   fmt.Sprintf("accuser%d", r.Intn(4)),
		place: place{
			addr: []byte{127, 0, 0, byte(1 + r.Intn(2))},
			port: uint16(7946 + r.Intn(2)*r.Intn(2)),
			meta: []byte{byte(r.Intn(2))},
		},
	}
	if r.Intn(3) > 0 {
		s.saying = saysAlive
	}
	record := r.Intn(3) == 0
	if s.saying == saysLeft {
		s.from = s.name
	}
	if !record && s.saying == saysLeft {
		s.saying = saysDead
	}
	if record && (s.saying == saysSuspect || s.saying == saysDead) {
		s.from = ""
	}
	switch r.Intn(6) {
	case 0, 1:
	case 2:
		s.place.vsn = [][]byte{{0, 5, 2, 0, 0, 0}, {1, 0, 2, 0, 0, 0}, {5, 1, 2, 0, 0, 0}}[r.Intn(3)]
	default:
		s.place.vsn = []byte{1, byte(2 + r.Intn(4)), 2, 0, byte(r.Intn(2)), 0}
	}
	return s, record
}

// recordOf returns the record of a push/pull that says it.
func recordOf(s said) pushNodeState {
	states := map[saying]NodeStateType{saysAlive: StateAlive, saysSuspect: StateSuspect, saysDead: StateDead,
		saysLeft: StateLeft}
	return pushNodeState{Name: s.name, Incarnation: s.inc, Addr: s.place.addr, Port: s.place.port,
		Meta: s.place.meta, Vsn: s.place.vsn, State: states[s.saying]}
}

// hear gives it to the member, as its handlers do.
func hear(m *Memberlist, s said, record bool) {
	if record {
		m.mergeState([]pushNodeState{recordOf(s)})
		return
	}
	switch s.saying {
	case saysAlive:
		m.aliveNode(&alive{Incarnation: s.inc, Node: s.name, Addr: s.place.addr, Port: s.place.port,
			Meta: s.place.meta, Vsn: s.place.vsn}, nil, false)
	case saysSuspect:
		m.suspectNode(&suspect{Incarnation: s.inc, Node: s.name, From: s.from})
	default:
		m.deadNode(&dead{Incarnation: s.inc, Node: s.name, From: s.from})
	}
}

// difference tells on what the member and the rules differ, or nothing.
func difference(m *Memberlist, name string, e *entry) string {
	node, known := m.nodeMap[name]
	if !known || e == nil {
		if known != (e != nil) {
			return "is known"
		}
		return ""
	}
	states := map[shown]NodeStateType{shownNoted: StateDead, shownAlive: StateAlive, shownSuspect: StateSuspect,
		shownDead: StateDead, shownLeft: StateLeft}
	var vsn [6]byte
	copy(vsn[:], e.details.vsn)
	switch {
	case node.State != states[e.state]:
		return "state"
	case node.Incarnation != e.inc:
		return "incarnation"
	case !bytes.Equal(node.Addr, e.details.addr) || node.Port != e.details.port:
		return "address"
	case !bytes.Equal(node.Meta, e.details.meta):
		return "metadata"
	case vsn != [6]byte{node.PMin, node.PMax, node.PCur, node.DMin, node.DMax, node.DCur}:
		return "versions"
	}
	timer, suspects := m.nodeTimers[name]
	if suspects != (e.state == shownSuspect) {
		return "suspicion"
	}
	if !suspects {
		return ""
	}
	count := len(timer.confirmations)
	if _, own := timer.confirmations[local]; own {
		count--
	}
	for _, by := range e.by {
		if _, ok := timer.confirmations[by]; !ok {
			return "accusers"
		}
	}
	if count != len(e.by) {
		return "number of accusers"
	}
	return ""
}

// isConflict tells whether this is an Alive of a rival, new or not.
func isConflict(e *entry, s said) bool {
	return s.saying == saysAlive && areSoundVersions(s.place.vsn) && !isSamePlace(*e.details, s.place) &&
		hasPlace(e.rivals, s.place)
}

func TestRules(t *testing.T) {
	c := &conflicts{}
	m := observer(t, c)
	defer m.Shutdown()
	r := rand.New(rand.NewSource(1))
	entries := map[string]*entry{}
	compared := 0
	for step := 0; compared < steps; step++ {
		if step%round == 0 {
			forget(m)
			entries = map[string]*entry{}
		}
		s, record := anything(r)
		old := entries[s.name]
		if s.saying != saysAlive && (old == nil || old.state == shownNoted) {
			continue
		}
		compared++
		before := entry{since: step}
		if old != nil {
			before = *old
		}
		var changed time.Time
		if node, ok := m.nodeMap[s.name]; ok {
			changed = node.StateChange
		}
		reported := c.count
		hear(m, s, record)
		after := changeOfEntry(step, before, s)
		if after != nil {
			entries[s.name] = after
		}
		for _, name := range []string{"f0", "f1", "f2"} {
			if what := difference(m, name, entries[name]); what != "" {
				t.Fatalf("step %d, %+v, record %v: %s differs: %+v, %+v", step, s, record, what, m.nodeMap[name], entries[name])
			}
		}
		now := entries[s.name]
		if (c.count > reported) != isConflict(now, s) {
			t.Fatalf("step %d, %+v: a conflict differs: %+v", step, s, now)
		}
		if old != nil && (m.nodeMap[s.name].StateChange != changed) != (now.since != before.since) {
			t.Fatalf("step %d, %+v: the time of the change differs: %+v, %+v", step, s, before, now)
		}
	}
}
