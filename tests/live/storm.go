package main

import (
	"bufio"
	"fmt"
	"os"
	"regexp"
	"strings"
	"time"
)

// A storm is a cluster of three members of memberlist and three agents of ours, each in a process and a network namespace
// of its own, with the times of DefaultLANConfig:
//
//	live storm clear|key AGENT
//
// Members of both are killed and come back, stand still and go on, reach only those of the other kind, are cut off from
// each other and are found again, leave and return. All must agree within the times that the rules give:
const (
	tick = time.Second // between two probes by a member, and between two rounds of this test
	// Each turn a member probes all others in a new order, so each other one of six after nine others at most, and it
	// accuses it after a second. While it misses nacks its probes last longer: up to three seconds, twice, with two of six
	// dead.
	accusing = 10*tick + 5*tick
	// A suspicion lasts 4 s times the logarithm of six members, at least 1, once two more accuse, and six times that at most.
	shortest, longest = 4 * tick, 24 * tick
	// News is told by each that hears it four times, to up to three others each 200 ms. One in 60 misses a member so, or one
	// in ten while two of six are dead. The member has it by a table then, which it exchanges each 30 s.
	spreading, exchanging = 2 * tick, 30 * tick
	memory                = 30 * tick              // GossipToTheDeadTime: then a death is forgotten, by theirs once their turn ends
	redialling            = 30 * tick              // so often ours dial one that was lost
	lateness              = 5 * tick               // of a busy machine, and of the rounds
	busy                  = 250 * time.Millisecond // lateness that excuses suspicions
	// how many rounds agree before it is calm: a probe of a member that is not well lasts eight seconds at most
	steady = 8
)

// starts makes the cluster, in which members join by one of theirs and of ours.
func (s *storm) starts() {
	s.began = time.Now()
	s.next = s.began
	t1, o1 := s.named("t1"), s.named("o1")
	t1.begins()
	s.round()
	o1.begins(t1)
	s.round()
	for _, name := range []string{"o2", "t2", "o3", "t3"} {
		s.named(name).begins(o1, t1)
		s.round()
	}
	s.settles("joined", spreading, spreading+exchanging, steady)
	s.calm(exchanging + lateness)
}

// kills ends two members at once, which come back: if they do so at once, to members that still wait for them.
func (s *storm) kills(atOnce bool) {
	t2, o2 := s.named("t2"), s.named("o2")
	t2.kills()
	o2.kills()
	if atOnce {
		s.rounds(3)
	} else {
		s.settles("died", accusing+shortest+spreading, accusing+longest+spreading, 3)
	}
	t2.begins(s.named("t1"), s.named("o3"))
	o2.begins(s.named("o3"), s.named("t1"))
	s.settles("back", spreading, spreading+exchanging, steady)
	s.calm(6 * tick)
}

func (s *storm) rounds(count int) {
	for ; count > 0; count-- {
		s.round()
	}
}

// stops lets two members stand still for eight seconds.
func (s *storm) stops() {
	t3, o3 := s.named("t3"), s.named("o3")
	t3.stops()
	o3.stops()
	s.rounds(8)
	t3.goesOn()
	o3.goesOn()
	s.isStirred = true
	s.settles("went on", spreading, spreading+exchanging, steady)
	s.calm(6 * tick)
}

// hides lets each reach only those of the other kind for a while. Nobody is suspected, since one of theirs reaches another
// by one of ours, which it asks to ping it, and one of ours another by one of theirs.
func (s *storm) hides() {
	pairs := func(hidden bool) {
		for i, a := range s.nodes {
			for _, b := range s.nodes[i+1:] {
				if a.isOurs == b.isOurs {
					hides(a, b, hidden)
				}
			}
		}
	}
	s.notes("members of one kind do not reach each other")
	pairs(true)
	s.calm(15 * tick)
	s.notes("they do")
	pairs(false)
	s.calm(3 * tick)
}

// parts cuts the network for a minute at least, until all on each side have forgotten the other one.
func (s *storm) parts() {
	s.notes("the network is cut")
	cuts(true)
	s.cutAt, s.isCut = time.Now(), true
	// Each of three has to accuse, and waits up to eight times longer for answers while most are dead. Then each forgets,
	// theirs at the end of a turn.
	s.forgets = true
	s.settles("parted", 3*accusing+longest+memory, 3*accusing+longest+memory+accusing, 3)
	s.calm(time.Until(s.cutAt.Add(time.Minute)))
	s.forgets = false
	s.notes("the network is whole")
	cuts(false)
	s.isCut, s.isParted, s.isStirred = false, false, true
	s.settles("whole", redialling+spreading, redialling+spreading+exchanging, steady)
	s.calm(6 * tick)
}

// leaves lets two members leave, and come back.
func (s *storm) leaves() {
	t1, o1 := s.named("t1"), s.named("o1")
	t1.goes()
	o1.goes()
	s.settles("left", spreading, spreading+exchanging, steady)
	t1.ends(lateness)
	o1.ends(lateness)
	s.calm(6 * tick)
	t1.begins(s.named("t2"), s.named("o2"))
	o1.begins(s.named("o2"), s.named("t2"))
	s.settles("returned", spreading, spreading+exchanging, steady)
	s.calm(6 * tick)
}

// Members of memberlist log errors of the network about those that they do not reach. What else they log as an error, and
// these warnings, are of messages that they do not understand, or do not believe.
var (
	isOfNetwork = regexp.MustCompile(`timeout|refused|reset by peer|broken pipe|EOF|no route|unreachable|closed|deadline|misconfigured`)
	isSevere    = regexp.MustCompile(`\[ERR\]|\[WARN\].*(gnoring|efuting an alive|Rejected|misconfigured)|panic`)
)

// trouble is a time in which errors of the network about these members, or logged by them, are to be expected.
type trouble struct {
	from, to time.Time
	names    string
}

// judgesLines checks what the members logged: errors of the network about members that were in trouble, which a line names
// by name or address, or of a busy machine, and no others. Ours log nothing.
func (s *storm) judgesLines(troubles []trouble) {
	s.lock.Lock()
	lines := s.lines
	s.lock.Unlock()
	for _, each := range lines {
		if !each.by.isOurs && !isSevere.MatchString(each.text) {
			continue
		}
		expected := false
		for _, trouble := range troubles {
			if each.at.Before(trouble.from) || each.at.After(trouble.to) {
				continue
			}
			for _, name := range strings.Fields(trouble.names) {
				of := s.named(name)
				names := of == each.by || strings.Contains(each.text, of.addr+":") || strings.Contains(each.text, of.name+" ")
				expected = expected || names && isOfNetwork.MatchString(each.text)
				// one that came back is told of what it was before
				expected = expected || of == each.by && strings.Contains(each.text, "Refuting an alive")
			}
		}
		expected = expected || isOfNetwork.MatchString(each.text) && s.excuses(each.at, busy)
		s.check(each.by.name+" logs: "+each.text, expected && !each.by.isOurs)
	}
}

// storms runs a storm. In the clear those that were killed come back when all agree that they are dead, and the cut is
// between theirs and ours; with a key they come back at once, and both are on both sides.
func storms(kind, agent string) {
	s := &storm{kind: "a storm in the clear", agent: agent, began: time.Now(), said: make(map[string]bool),
		accusers: make(map[string]bool)}
	sides := map[string]int{"t1": 0, "t2": 0, "t3": 0, "o1": 1, "o2": 1, "o3": 1}
	if kind == "key" {
		s.kind, s.key = "a storm with a key", []byte("0123456789abcdef")
		sides["t3"], sides["o1"] = 1, 0
	}
	file, err := os.Create("storm." + kind + ".log")
	must(err)
	s.log = bufio.NewWriter(file)
	for i, name := range []string{"t1", "t2", "t3", "o1", "o2", "o3"} {
		s.nodes = append(s.nodes, &process{name: name, addr: fmt.Sprintf("10.99.0.%d", i+1), side: sides[name],
			isOurs: name[0] == 'o', storm: s})
	}
	time.AfterFunc(10*time.Minute, func() { must(fmt.Errorf("%s takes too long", s.kind)) })
	connects(s.nodes)
	go s.clocks()
	var troubles []trouble
	does := func(names string, what func()) {
		if s.isLost {
			return
		}
		from := time.Now()
		what()
		// what was begun then may fail for the time of a connection, ten seconds
		troubles = append(troubles, trouble{from, time.Now().Add(10 * tick), names})
	}
	s.starts()
	does("t2 o2", func() { s.kills(kind == "key") })
	does("t3 o3", s.stops)
	does("t1 t2 t3 o1 o2 o3", s.hides)
	does("t1 t2 t3 o1 o2 o3", s.parts)
	does("t1 o1", s.leaves)
	for _, n := range s.nodes {
		s.check(n.name+" runs at the end", n.runs() || s.isLost)
	}
	// o1 may be the only one of ours that its accusations reach
	for _, name := range []string{"o2", "o3"} {
		s.check("nobody heard whom "+name+" accused", s.accusers[name] || s.isLost)
	}
	s.judgesLines(troubles)
	s.check(fmt.Sprintf("gossip did not bring agreement in %d of %d cases", s.slow, len(s.times)), s.slow <= 2)
	late := s.latest(time.Now(), time.Since(s.began))
	fmt.Printf("%s: %s; %d lists; %d times excused by a machine late by up to %v\n", s.kind, strings.Join(s.times, ", "),
		s.asked, s.excused, late.Round(time.Millisecond))
}
