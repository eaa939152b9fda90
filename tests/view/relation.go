// The relation of crates/swim_laws/specs/State.antt for one name, by the same words: each of its cases whose premises
// hold allows a node. tests/state compiles this file as a part of memberlist, and runs it beside state.go.
package memberlist

import "bytes"

// zeroTime is the zero time; all others are greater.
const zeroTime = 0

// saysSeen is what a packet shows of its sender.
const saysSeen = saysLeft + 1

// member is a Node: what is known of another member. An unknown one is nil.
type member struct {
	state   NodeStateType
	inc     uint32
	details place
	changed int64
}

// answer is what a case of the relation makes of a member.
type answer struct {
	by  string
	now *member
}

type answers []answer

// allow has an answer if the premises of its case hold.
func (a *answers) allow(premises bool, by string, now *member) {
	if premises {
		*a = append(*a, answer{by, now})
	}
}

// allowAll has the answers of another relation if the premises of this case hold.
func (a *answers) allowAll(premises bool, by string, all answers) {
	for _, it := range all {
		a.allow(premises, by+": "+it.by, it.now)
	}
}

func isDeadOrLeft(s NodeStateType) bool { return s == StateDead || s == StateLeft }

func areWrong(vsn []byte) bool {
	return 2 <= len(vsn) && (vsn[0] == 0 || vsn[1] == 0 || vsn[1] < vsn[0])
}

func versionsAfter(known, said []byte) []byte {
	if len(said) == 0 {
		return known
	}
	return said
}

func changedAfter(s NodeStateType, changed, time int64) int64 {
	if s == StateAlive {
		return changed
	}
	return time
}

func updated(time int64, inc uint32, said place, m member) *member {
	said.vsn = versionsAfter(m.details.vsn, said.vsn)
	return &member{StateAlive, inc, said, changedAfter(m.state, m.changed, time)}
}

func aliveNode(time int64, inc uint32, said place, old *member) (all answers) {
	wrong := areWrong(said.vsn)
	all.allow(wrong, "wrong", old)
	if old == nil {
		all.allow(!wrong && inc == 0, "stored", &member{StateDead, 0, said, zeroTime})
		all.allow(!wrong && 0 < inc, "joined", &member{StateAlive, inc, said, time})
		return all
	}
	same := isSamePlace(old.details, said)
	all.allow(!wrong && !same && old.state == StateLeft, "moved", updated(time, inc, said, *old))
	all.allow(!wrong && !same && old.state != StateLeft, "conflict", old)
	all.allow(!wrong && same && inc <= old.inc, "older", old)
	all.allow(!wrong && same && old.inc < inc, "newer", updated(time, inc, said, *old))
	return all
}

func suspectNode(time int64, inc uint32, old *member) (all answers) {
	if old == nil {
		all.allow(true, "unknown", nil)
		return all
	}
	all.allow(inc < old.inc, "older", old)
	all.allow(old.inc <= inc && old.state == StateSuspect, "confirmed", old)
	all.allow(old.inc <= inc && isDeadOrLeft(old.state), "gone", old)
	all.allow(old.inc <= inc && old.state == StateAlive, "suspected", &member{StateSuspect, inc, old.details, time})
	return all
}

func deadNode(end NodeStateType, time int64, inc uint32, old *member) (all answers) {
	if old == nil {
		all.allow(true, "unknown", nil)
		return all
	}
	all.allow(inc < old.inc, "older", old)
	all.allow(old.inc <= inc && isDeadOrLeft(old.state), "gone", old)
	all.allow(old.inc <= inc && !isDeadOrLeft(old.state), "ended", &member{end, inc, old.details, time})
	return all
}

// handles allows what is made of a member by what was said about its name.
func handles(time int64, s said, old *member) (all answers) {
	dies, named := s.saying == saysDead, s.from != ""
	all.allowAll(s.saying == saysAlive, "said_alive", aliveNode(time, s.inc, s.place, old))
	all.allowAll(s.saying == saysSuspect, "said_suspect", suspectNode(time, s.inc, old))
	all.allowAll(dies && !named, "said_dead_in_record", suspectNode(time, s.inc, old))
	all.allowAll(dies && named && s.from != s.name, "said_dead", deadNode(StateDead, time, s.inc, old))
	all.allowAll(dies && s.from == s.name, "said_dead_itself", deadNode(StateLeft, time, s.inc, old))
	all.allowAll(s.saying == saysLeft, "said_left", deadNode(StateLeft, time, s.inc, old))
	all.allow(s.saying == saysSeen, "only_seen", old)
	return all
}

func isOver(wait, time, changed int64) bool { return changed == zeroTime || wait < time-changed }

// resets allows what resetNodes may make of a member.
func resets(wait, time int64, old *member) (all answers) {
	if old != nil {
		all.allow(isDeadOrLeft(old.state) && isOver(wait, time, old.changed), "forgotten", nil)
	}
	all.allow(true, "kept", old)
	return all
}

// timesOut allows what the end of a suspicion's timer makes of a member.
func timesOut(time int64, old *member) (all answers) {
	if old != nil {
		all.allowAll(old.state == StateSuspect, "failed", deadNode(StateDead, time, old.inc, old))
	}
	return all
}

func isSameMember(a, b *member) bool {
	if a == nil || b == nil {
		return a == b
	}
	return a.state == b.state && a.inc == b.inc && a.changed == b.changed && isSamePlace(a.details, b.details) &&
		bytes.Equal(a.details.meta, b.details.meta) && bytes.Equal(a.details.vsn, b.details.vsn)
}
