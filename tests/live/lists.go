package main

import (
	"bufio"
	"fmt"
	"io"
	"sort"
	"strings"
	"sync"
	"time"
)

// storm is a cluster of members of ours and theirs, and what is known of it. Each second each member that runs is asked
// for its list: a round. All that they answer, tell and log is in the file storm.KIND.log, with the seconds.
type storm struct {
	kind, agent string
	key         []byte
	nodes       []*process
	began       time.Time
	next        time.Time                   // when the next round is
	shown       map[string]map[string]entry // the lists of the last round
	cutAt       time.Time                   // when the network was cut; zero once all agree again
	isCut       bool                        // it is cut now
	isParted    bool                        // all agree that the other side is gone
	forgets     bool                        // nobody lists dead members any more
	isLost      bool                        // they did not agree in time, so that nothing more can be said
	isStirred   bool                        // a stopped member went on, or the network is whole again, since all agreed
	asked       int                         // how many lists were answered
	excused     int                         // how much that was shown was the fault of a busy machine
	slow        int                         // how many times agreement came later than gossip brings it
	times       []string                    // how long agreement took
	said        map[string]bool             // the failures that were printed
	lock        sync.Mutex                  // of what follows
	log         *bufio.Writer
	events      []event
	accusers    map[string]bool // whose accusations one of ours heard that is not itself
	lines       []line
	lateness    []lag
}

// event is what a member told when it happened.
type event struct {
	by    *process
	words []string
}

// line is what a member wrote to its log.
type line struct {
	at   time.Time
	by   *process
	text string
}

// notes keeps a line in the log.
func (s *storm) notes(format string, args ...any) {
	s.lock.Lock()
	defer s.lock.Unlock()
	fmt.Fprintf(s.log, "%8.3f %s\n", time.Since(s.began).Seconds(), fmt.Sprintf(format, args...))
}

// happens keeps an event of a member, and whose accusations it heard.
func (s *storm) happens(by *process, words []string) {
	s.notes("%s: %s", by.name, strings.Join(words, " "))
	s.lock.Lock()
	defer s.lock.Unlock()
	s.events = append(s.events, event{by, words})
	if len(words) == 6 && words[5] != by.name && words[2] == "suspect" {
		s.accusers[words[5]] = true
	}
}

// hears keeps what a member logs.
func (s *storm) hears(by *process, said io.Reader) {
	for lines := bufio.NewScanner(said); lines.Scan(); {
		s.notes("%s says: %s", by.name, lines.Text())
		s.lock.Lock()
		s.lines = append(s.lines, line{time.Now(), by, lines.Text()})
		s.lock.Unlock()
	}
}

// check prints a failure, each once. What is well is counted by lists and by phases.
func (s *storm) check(what string, ok bool) {
	if ok {
		return
	}
	s.notes("failed: %s", what)
	s.lock.Lock()
	again := s.said[what]
	s.said[what] = true
	s.lock.Unlock()
	if !again {
		check(fmt.Sprintf("%s, after %.1f s: %s", s.kind, time.Since(s.began).Seconds(), what), false)
	}
}

// named returns a member by its name.
func (s *storm) named(name string) *process {
	for _, n := range s.nodes {
		if n.name == name {
			return n
		}
	}
	return nil
}

// round asks each member that runs for its list, and checks that none shows what never was.
func (s *storm) round() {
	time.Sleep(time.Until(s.next))
	if s.next = s.next.Add(tick); time.Now().After(s.next) {
		s.next = time.Now()
	}
	asked := time.Now()
	for _, n := range s.nodes {
		if n.runs() {
			for len(n.answers) > 0 {
				<-n.answers // one that came too late
			}
			n.does("list")
		}
	}
	s.shown = make(map[string]map[string]entry)
	for _, n := range s.nodes {
		if !n.runs() {
			continue
		}
		select {
		case list := <-n.answers:
			s.shown[n.name] = list
			s.asked++
			s.notes("%s lists after %v: %s", n.name, time.Since(asked).Round(time.Millisecond), written(list))
		case err := <-n.ended:
			s.check(fmt.Sprintf("%s ends: %v", n.name, err), false)
			n.command, n.since = nil, time.Now()
		case <-time.After(time.Until(asked.Add(lateness))):
			s.check(n.name+" answers", false)
		}
	}
	for _, n := range s.nodes {
		if list := s.shown[n.name]; list != nil {
			check("a list", true)
			s.judges(n, list)
		}
	}
	s.lock.Lock()
	events := s.events
	s.events = nil
	s.lock.Unlock()
	for _, each := range events {
		s.judgesEvent(each)
	}
	s.lock.Lock()
	defer s.lock.Unlock()
	s.log.Flush()
}

// written returns a list as one line.
func written(list map[string]entry) string {
	var found []string
	for name, entry := range list {
		found = append(found, fmt.Sprintf("%s=%s/%d", name, entry.state, entry.inc))
	}
	sort.Strings(found)
	return strings.Join(found, " ")
}

// judges checks that a list shows nothing that never was.
func (s *storm) judges(by *process, list map[string]entry) {
	for name, entry := range list {
		of := s.named(name)
		if of == nil {
			s.check(fmt.Sprintf("%s lists %s, which there never was", by.name, name), false)
			continue
		}
		// a table of theirs tells no address of who is not alive
		s.check(fmt.Sprintf("%s lists %s at %s", by.name, name, entry.place),
			entry.place == of.place() || entry.place == "-" && entry.state != "alive")
		s.judgesIncarnation(by, of, entry)
	}
	for _, of := range s.nodes {
		state := list[of.name].state
		if of.command == nil && !of.isBuried && of.since.IsZero() && state == "" {
			continue // it has not begun yet
		}
		s.check(fmt.Sprintf("%s lists %s as %q", by.name, of.name, state), s.mayShow(by, of, state))
	}
}

// judgesIncarnation checks that a member is shown at an incarnation that it has by its next list, and never goes back.
func (s *storm) judgesIncarnation(by, of *process, entry entry) {
	if by == of {
		s.check(fmt.Sprintf("%s goes back from %d to %d", of.name, of.inc, entry.inc), of.isNew || entry.inc >= of.inc)
		if of.risen > of.inc {
			s.check(fmt.Sprintf("%s lists %s at %d, which has only %d", of.shownBy.name, of.name, of.risen, entry.inc),
				of.risen <= entry.inc)
		}
		of.risen = 0
		if entry.inc > of.inc {
			of.inc = entry.inc
		}
	} else if entry.inc > of.inc && entry.inc > of.risen {
		of.risen, of.shownBy = entry.inc, by
	}
}

// judgesEvent checks that a member does not tell of a suspicion, a death, a leave or a conflict that never was.
func (s *storm) judgesEvent(each event) {
	of, state := s.named(each.words[0]), each.words[2]
	what := fmt.Sprintf("%s tells: %s", each.by.name, strings.Join(each.words, " "))
	s.check(what, of != nil && each.words[1] != "conflict")
	if of == nil || of == each.by {
		return
	}
	if each.words[1] == "gone" && of.hasLeft {
		state = "left" // memberlist's event does not tell a leave from a death
	}
	if state != "alive" {
		s.check(what, s.mayShow(each.by, of, state))
	}
}

// areApart returns whether two members were cut from each other, and do not agree yet that they are not.
func (s *storm) areApart(a, b *process) bool { return !s.cutAt.IsZero() && a.side != b.side }

// mayShow returns whether a member may list another in this state, "" if it does not list it. Of what was done to the
// cluster all shows until all agree; what was not done is never shown.
//   - A member is suspected if it was killed, stopped or cut off, also by members that hear of it by others; and for a
//     moment also another, by one that stood still while it waited for its answer, or that was told of a death on the other
//     side.
//   - It is dead if it was killed, stopped or cut off four seconds ago, since one that lives refutes before a suspicion
//     ends; or if it left, and the member has not heard of that and suspected it for 24 seconds.
//   - It is left if it left, and not listed if it began just now, or was dead or left for 30 seconds.
func (s *storm) mayShow(by, of *process, state string) bool {
	if by == of {
		return state == "alive"
	}
	lasts := func(since time.Time, long time.Duration) bool { return !since.IsZero() && time.Since(since) > long }
	isTroubled := !of.since.IsZero()
	switch state {
	case "alive":
		return !of.isBuried && !(s.isParted && s.areApart(by, of))
	case "suspect":
		if of.isBuried || s.isParted && s.areApart(by, of) {
			return false
		}
		return isTroubled || s.areApart(by, of) || s.isStirred || s.excuses(time.Now(), busy)
	case "dead":
		if of.leaves {
			return lasts(of.since, longest)
		}
		return lasts(of.since, shortest) || s.areApart(by, of) && lasts(s.cutAt, shortest) ||
			s.excuses(time.Now(), shortest/2)
	case "left":
		return of.hasLeft
	case "":
		return by.isNew || of.isNew || of.leaves && lasts(of.since, memory) ||
			lasts(of.since, shortest+memory) || s.areApart(by, of) && lasts(s.cutAt, shortest+memory)
	}
	return false
}

// difference returns how the lists of the last round differ from what is.
func (s *storm) difference() string {
	var found []string
	for _, by := range s.nodes {
		if !by.runs() {
			continue
		}
		list, answered := s.shown[by.name]
		if !answered {
			found = append(found, by.name+" has not answered")
			continue
		}
		for _, of := range s.nodes {
			entry, own := list[of.name], s.shown[of.name][of.name]
			what := fmt.Sprintf("%s lists %s as %q at %d", by.name, of.name, entry.state, entry.inc)
			isHere := of.runs() && !(s.isCut && by.side != of.side)
			isGone := entry.state == "" || !s.forgets && (entry.state == "dead" || entry.state == "left")
			if isHere && entry.state == "alive" && entry.inc == own.inc || !isHere && isGone {
				continue
			}
			if isHere {
				what += fmt.Sprintf(" of %d", own.inc)
			}
			found = append(found, what)
		}
	}
	return strings.Join(found, "; ")
}

// settles waits until all lists agree with what is in so many rounds, one after another, and checks that the first of
// these came in time; it is to come soon.
func (s *storm) settles(what string, soon, within time.Duration, rounds int) {
	if s.isLost {
		return
	}
	begin := time.Now()
	var first time.Time
	for agreed := 0; agreed < rounds; {
		s.round()
		difference := s.difference()
		if difference == "" {
			if agreed++; agreed == 1 {
				first = time.Now()
			}
			continue
		}
		agreed = 0
		if time.Since(begin) > within+lateness {
			s.check(fmt.Sprintf("%s: after %v %s", what, time.Since(begin).Round(tick), difference), false)
			s.isLost = true
			return
		}
	}
	took := first.Sub(begin)
	s.notes("%s: agreed after %v", what, took)
	s.times = append(s.times, fmt.Sprintf("%s %.0f s", what, took.Seconds()))
	check(what, true)
	if took > soon+lateness {
		s.slow++
	}
	s.isParted = s.isCut
	for _, n := range s.nodes {
		n.isNew = false
		n.isBuried = !n.runs() && !n.since.IsZero()
		if n.runs() {
			n.since, n.hasLeft = time.Time{}, false
		}
	}
	if !s.isCut {
		s.cutAt, s.isStirred = time.Time{}, false
	}
}

// calm checks for so long that all lists agree with what is, and that no incarnation rises.
func (s *storm) calm(long time.Duration) {
	incs := make(map[string]uint32)
	for _, n := range s.nodes {
		incs[n.name] = n.inc
	}
	for end := time.Now().Add(long); time.Now().Before(end) && !s.isLost; {
		s.round()
		difference := s.difference()
		for _, n := range s.nodes {
			if n.runs() && n.inc != incs[n.name] {
				difference += fmt.Sprintf("; %s rises from %d to %d", n.name, incs[n.name], n.inc)
				incs[n.name] = n.inc
			}
		}
		s.check("in a calm time: "+strings.TrimPrefix(difference, "; "), difference == "" || s.excuses(time.Now(), busy))
	}
}
