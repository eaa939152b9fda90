// The rules of crates/memberlist_view/specs/Rules.antt for one name, by the same words. tests/state compiles this
// file as a part of memberlist, and runs it beside state.go.
package memberlist

import "bytes"

type shown int

const (
	shownNoted shown = iota
	shownAlive
	shownSuspect
	shownDead
	shownLeft
)

type place struct {
	addr []byte
	port uint16
	meta []byte
	vsn  []byte
}

type entry struct {
	state   shown
	inc     uint32
	details *place
	since   int
	by      []string
	rivals  []place
}

type saying int

const (
	saysAlive saying = iota
	saysSuspect
	saysDead
	saysLeft
)

// said is something that was heard. A record that says suspect or dead names no accuser.
type said struct {
	saying saying
	name   string
	inc    uint32
	from   string
	place  place
}

func areSoundVersions(vsn []byte) bool {
	return len(vsn) < 2 || vsn[0] > 0 && vsn[1] > 0 && vsn[0] <= vsn[1]
}

func isSamePlace(d, e place) bool { return bytes.Equal(d.addr, e.addr) && d.port == e.port }

func hasPlace(places []place, d place) bool {
	for _, e := range places {
		if isSamePlace(e, d) {
			return true
		}
	}
	return false
}

func withVersions(known *place, d place) place {
	if known != nil && len(d.vsn) == 0 {
		d.vsn = known.vsn
	}
	return d
}

func isGone(s shown) bool { return s == shownDead || s == shownLeft }

func aliveSince(since int, inc uint32, d place) *entry {
	return &entry{state: shownAlive, inc: inc, details: &d, since: since}
}

func aliveElsewhere(time int, e entry, inc uint32, d place) *entry {
	if e.state == shownLeft {
		return aliveSince(time, inc, withVersions(e.details, d))
	}
	if hasPlace(e.rivals, d) || len(e.rivals) >= 255 {
		return nil
	}
	e.rivals = append(append([]place{}, e.rivals...), d)
	return &e
}

func believed(time int, e entry, inc uint32, d place) *entry {
	if e.state == shownAlive {
		time = e.since
	}
	return aliveSince(time, inc, withVersions(e.details, d))
}

func aliveAt(time int, e entry, inc uint32, d place) *entry {
	switch {
	case e.details == nil && inc <= e.inc:
		e.details = &d
		return &e
	case e.details == nil:
		return believed(time, e, inc, d)
	case !isSamePlace(*e.details, d):
		return aliveElsewhere(time, e, inc, d)
	case inc <= e.inc:
		return nil
	}
	return believed(time, e, inc, d)
}

func suspected(time int, e entry, inc uint32, from string) *entry {
	switch {
	case isGone(e.state):
		return nil
	case e.state != shownSuspect:
		e.state, e.inc, e.since, e.by = shownSuspect, inc, time, nil
		if from != "" {
			e.by = []string{from}
		}
		return &e
	case from == "" || len(e.by) >= 255:
		return nil
	}
	for _, accuser := range e.by {
		if accuser == from {
			return nil
		}
	}
	e.by = append(append([]string{}, e.by...), from)
	return &e
}

func ended(end shown, time int, e entry, inc uint32) *entry {
	if isGone(e.state) {
		return nil
	}
	e.state, e.inc, e.since, e.by = end, inc, time, nil
	return &e
}

func endedInRecord(time int, e entry, inc uint32) *entry {
	if e.details == nil {
		return ended(shownDead, time, e, inc)
	}
	return suspected(time, e, inc, "")
}

func endedBy(time int, e entry, s said) *entry {
	switch s.from {
	case "":
		return endedInRecord(time, e, s.inc)
	case s.name:
		return ended(shownLeft, time, e, s.inc)
	}
	return ended(shownDead, time, e, s.inc)
}

// changeOfEntry returns the entry after what was said, or nil if nothing changes.
func changeOfEntry(time int, e entry, s said) *entry {
	switch {
	case s.saying == saysAlive && areSoundVersions(s.place.vsn):
		return aliveAt(time, e, s.inc, s.place)
	case s.saying == saysAlive || s.inc < e.inc:
		return nil
	case s.saying == saysSuspect:
		return suspected(time, e, s.inc, s.from)
	case s.saying == saysDead:
		return endedBy(time, e, s)
	}
	return ended(shownLeft, time, e, s.inc)
}
