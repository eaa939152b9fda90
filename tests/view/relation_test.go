package memberlist

import (
	"fmt"
	"math/rand"
	"net"
	"testing"
	"time"
)

const (
	relationSteps = 200_000
	// how long a member is dead before resetNodes forgets it
	deadWait = 150 * time.Microsecond
)

// Not compared:
//   - events about the member's own name, so refuting: State.antt leaves it out, with broadcasts, delegates, and
//     DeadNodeReclaimTime;
//   - an Alive with fewer than six versions;
//   - that resetNodes forgets one that left: this memberlist keeps it, and newer ones do not.

// watcher sees that what a member knows of these names changes as the relation allows.
type watcher struct {
	t     *testing.T
	m     *Memberlist
	names []string
	start time.Time
	// how often each case was the one that applied
	cases map[string]int
}

func newWatcher(t *testing.T, names int) *watcher {
	w := &watcher{t: t, m: observer(t, &conflicts{}), start: time.Now().Add(-time.Second), cases: map[string]int{}}
	w.m.config.GossipToTheDeadTime = deadWait
	for i := 0; i < names; i++ {
		w.names = append(w.names, fmt.Sprintf("f%d", i))
	}
	return w
}

// at returns a time as the relation has it.
func (w *watcher) at(t time.Time) int64 {
	if t.IsZero() {
		return zeroTime
	}
	return int64(t.Sub(w.start))
}

func (w *watcher) known(name string) *member {
	w.m.nodeLock.RLock()
	defer w.m.nodeLock.RUnlock()
	node, ok := w.m.nodeMap[name]
	if !ok {
		return nil
	}
	known := place{addr: node.Addr, port: node.Port, meta: node.Meta}
	if vsn := [6]byte{node.PMin, node.PMax, node.PCur, node.DMin, node.DMax, node.DCur}; vsn != [6]byte{} {
		known.vsn = vsn[:]
	}
	return &member{node.State, node.Incarnation, known, w.at(node.StateChange)}
}

func (w *watcher) all() map[string]*member {
	all := map[string]*member{}
	for _, name := range w.names {
		all[name] = w.known(name)
	}
	return all
}

// only returns what the cases that apply make of a member, which is one thing.
func (w *watcher) only(all answers) *member {
	w.t.Helper()
	if len(all) == 0 {
		w.t.Fatal("no case applies")
	}
	for _, it := range all {
		w.cases[it.by]++
		if !isSameMember(it.now, all[0].now) {
			w.t.Fatalf("two answers: %s: %+v; %s: %+v", it.by, it.now, all[0].by, all[0].now)
		}
	}
	return all[0].now
}

// step lets something happen. Each name has to be what becomes makes of it, at some time meanwhile.
func (w *watcher) step(what interface{}, happens func(), becomes func(name string, time int64, old *member) *member) {
	w.t.Helper()
	begin := w.at(time.Now())
	before := w.all()
	happens()
	end := w.at(time.Now())
	for name, old := range before {
		want, got := becomes(name, begin, old), w.known(name)
		is := got
		if got != nil && want != nil && want.changed == begin && begin <= got.changed && got.changed <= end {
			is = &member{got.state, got.inc, got.details, begin}
		}
		if !isSameMember(want, is) {
			w.t.Fatalf("%+v: %s was %+v, and should be %+v from %d to %d; it is %+v", what, name, old, want, begin, end, got)
		}
	}
}

// hears lets the member handle this, one after the other.
func (w *watcher) hears(happens func(), heard ...said) {
	w.t.Helper()
	w.step(heard, happens, func(name string, time int64, old *member) *member {
		for _, s := range heard {
			if s.name == name {
				old = w.only(handles(time, s, old))
			}
		}
		return old
	})
}

// handle gives a message to memberlist's handler.
func (w *watcher) handle(s said) {
	from := &net.UDPAddr{IP: s.place.addr, Port: int(s.place.port)}
	pack := func(kind messageType, in interface{}) []byte {
		packed, err := encode(kind, in)
		if err != nil {
			w.t.Fatal(err)
		}
		return packed.Bytes()[1:]
	}
	switch s.saying {
	case saysAlive:
		w.m.handleAlive(pack(aliveMsg, &alive{Incarnation: s.inc, Node: s.name, Addr: s.place.addr, Port: s.place.port,
			Meta: s.place.meta, Vsn: s.place.vsn}), from)
	case saysSuspect:
		w.m.handleSuspect(pack(suspectMsg, &suspect{Incarnation: s.inc, Node: s.name, From: s.from}), from)
	case saysSeen:
		w.m.handleAck(pack(ackRespMsg, &ackResp{SeqNo: s.inc}), from, time.Now())
	default:
		w.m.handleDead(pack(deadMsg, &dead{Incarnation: s.inc, Node: s.name, From: s.from}), from)
	}
}

// message hears a message, sometimes in the member's own name, or an ack.
func (w *watcher) message(r *rand.Rand) {
	w.t.Helper()
	s, record := anything(r)
	for ; record; s, record = anything(r) {
	}
	if s.saying != saysAlive && s.from != s.name && r.Intn(4) == 0 {
		s.from = local
	}
	if r.Intn(16) == 0 {
		s.saying = saysSeen
	}
	w.hears(func() { w.handle(s) }, s)
}

// merge hears up to four records of a push/pull.
func (w *watcher) merge(r *rand.Rand) {
	w.t.Helper()
	var heard []said
	var records []pushNodeState
	for len(heard) == 0 || r.Intn(2) == 0 && len(heard) < 4 {
		if s, record := anything(r); record {
			heard, records = append(heard, s), append(records, recordOf(s))
		}
	}
	w.hears(func() { w.m.mergeState(records) }, heard...)
}

// pass returns after the wait; to sleep would take longer.
func pass() {
	for begin := time.Now(); time.Since(begin) <= deadWait; {
	}
}

// reset calls resetNodes. It forgets whom it may forget, except one that left, and nobody else.
func (w *watcher) reset() {
	w.t.Helper()
	wait, before, begin := int64(deadWait), w.all(), w.at(time.Now())
	w.m.resetNodes()
	end := w.at(time.Now())
	for name, old := range before {
		got, by := w.known(name), ""
		for _, it := range resets(wait, end, old) {
			if isSameMember(it.now, got) {
				by = it.by
			}
		}
		w.cases[by]++
		early := resets(wait, begin, old)[0]
		if by == "" || early.by == "forgotten" && old.state != StateLeft && got != nil {
			w.t.Fatalf("resetNodes at %d to %d: %s was %+v, and is %+v", begin, end, name, old, got)
		}
	}
}

// timer ends a timer. If it is no more that of the name's suspicion, nothing happens.
func (w *watcher) timer(name string, timer *suspicion) {
	w.t.Helper()
	is := w.m.nodeTimers[name] == timer
	w.step("a timer of "+name, timer.timeoutFn, func(other string, time int64, old *member) *member {
		if other != name || !is {
			return old
		}
		dead, own := w.only(timesOut(time, old)), said{saying: saysDead, name: name, inc: old.inc, from: local}
		if !isSameMember(dead, w.only(handles(time, own, old))) {
			w.t.Fatalf("the end of a timer is no death in the member's own name: %+v", old)
		}
		return dead
	})
}

// saw tells whether all cases of the relation applied often.
func (w *watcher) saw() {
	w.t.Helper()
	wanted := []string{"only_seen", "failed: ended", "forgotten", "kept"}
	of := func(said []string, cases ...string) {
		for _, it := range said {
			for _, one := range cases {
				wanted = append(wanted, it+": "+one)
			}
		}
	}
	of([]string{"said_alive"}, "wrong", "stored", "joined", "moved", "conflict", "older", "newer")
	of([]string{"said_suspect", "said_dead_in_record"}, "unknown", "older", "confirmed", "gone", "suspected")
	of([]string{"said_dead", "said_dead_itself", "said_left"}, "unknown", "older", "gone", "ended")
	for _, it := range wanted {
		if w.cases[it] < 50 {
			w.t.Errorf("%s applied %d times", it, w.cases[it])
		}
	}
	if len(w.cases) != len(wanted) {
		w.t.Errorf("other cases applied: %v", w.cases)
	}
}

// TestRelation lets a member hear random things, and ends timers by hand.
func TestRelation(t *testing.T) {
	w := newWatcher(t, 3)
	defer w.m.Shutdown()
	r := rand.New(rand.NewSource(2))
	type started struct {
		name  string
		timer *suspicion
	}
	timers := []started{}
	for step := 0; step < relationSteps; step++ {
		if step%round == 0 {
			forget(w.m)
			timers = nil
		}
		switch one := r.Intn(16); {
		case one == 0:
			w.reset()
		case one == 1 && r.Intn(4) == 0:
			w.step("time passes", pass, func(_ string, _ int64, old *member) *member { return old })
		case one < 5 && len(timers) > 0:
			it := timers[r.Intn(len(timers))]
			w.timer(it.name, it.timer)
		case one < 9:
			w.merge(r)
		default:
			w.message(r)
		}
		for name, timer := range w.m.nodeTimers {
			timers = append(timers, started{name, timer})
		}
	}
	w.saw()
}

// TestTimers waits for timers. Some end late, when their suspicions are over.
func TestTimers(t *testing.T) {
	w := newWatcher(t, 300)
	defer w.m.Shutdown()
	w.m.config.ProbeInterval = 5 * time.Millisecond
	w.m.config.SuspicionMult = 4
	r := rand.New(rand.NewSource(3))
	for i := 0; i < 5; i++ {
		forget(w.m)
		for _, name := range w.names {
			for _, s := range []saying{saysAlive, saysSuspect, saying(r.Intn(3)), saying(r.Intn(3))} {
				from := []string{"accuser0", "accuser1", local, name}[r.Intn(4)]
				w.handle(said{s, name, uint32(1 + r.Intn(2)), from, place{addr: []byte{127, 0, 0, 1}, port: 7946}})
			}
		}
		suspected := func() (count int) {
			for _, it := range w.all() {
				if it.state == StateSuspect {
					count++
				}
			}
			return count
		}
		w.step("timers", func() {
			for end := time.Now().Add(20 * time.Second); suspected() > 0 && time.Now().Before(end); {
				time.Sleep(10 * time.Millisecond)
			}
			time.Sleep(100 * time.Millisecond)
		}, func(_ string, time int64, old *member) *member {
			if old.state != StateSuspect {
				return old
			}
			return w.only(timesOut(time, old))
		})
	}
	if w.cases["failed: ended"] < 50 {
		t.Fatalf("%d timers ended", w.cases["failed: ended"])
	}
}
