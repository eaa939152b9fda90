package main

import (
	"bufio"
	"encoding/hex"
	"fmt"
	"io"
	"net"
	"net/netip"
	"os"
	"os/exec"
	"sort"
	"strconv"
	"strings"
	"sync"
	"syscall"
	"time"

	"github.com/hashicorp/memberlist"

	"swimtab.invalid/swimtab"
)

// The agent of examples/c/agent.c, with the commands of commanded.c, lives among members of memberlist. It is compiled
// with -DSECOND=500000, so that its times are those of memberlist's DefaultLANConfig, twice as short, and scaled gives
// the others the same. From when it has joined until it leaves, except while it stands still, its list is compared with
// those of all living members.
const (
	second    = 500 * time.Millisecond
	suspicion = 4 * second  // for how long a member is suspected, at least
	dead      = 30 * second // for how long a death is remembered
	pause     = 4 * second  // in which each member probes all others, and gossips
	look      = second / 2  // how often the lists are compared
	// for how long the lists may differ, and how long after a change they may begin to
	tolerance = 2 * time.Second
	// how many suspicions of living members are the fault of a busy machine
	mistakes = 2
)

// scaled gives a member of memberlist the times of the agent.
func scaled(config *memberlist.Config) {
	config.ProbeInterval, config.ProbeTimeout = second, second/2
	config.GossipInterval = second / 5
	config.PushPullInterval = 10 * second
	config.RetransmitMult = 4
	config.GossipToTheDeadTime = dead
}

// agent is a process of the agent.
type agent struct {
	process *os.Process
	in      io.Writer
	asking  sync.Mutex // held while it lists
	lists   chan []string
	changes func() // what to do at each event
	lock    sync.Mutex
	told    []string // its events, as it prints them
}

// start runs the agent, which first reads this.
func start(path, addr string, port int, seed, first string, changes func()) *agent {
	command := exec.Command(path, "agent", addr, strconv.Itoa(port), seed, strconv.Itoa(port))
	command.SysProcAttr = &syscall.SysProcAttr{Pdeathsig: syscall.SIGKILL}
	command.Stderr = os.Stdout
	in, err := command.StdinPipe()
	must(err)
	out, err := command.StdoutPipe()
	must(err)
	_, err = io.WriteString(in, first)
	must(err)
	must(command.Start())
	a := &agent{process: command.Process, in: in, lists: make(chan []string), changes: changes}
	go a.reads(out)
	return a
}

// reads tells lines of a list, whose third word is an incarnation, from events.
func (a *agent) reads(out io.Reader) {
	var list []string
	for lines := bufio.NewScanner(out); lines.Scan(); {
		words := strings.Fields(lines.Text())
		if len(words) == 1 {
			a.lists <- list
			list = nil
		} else if _, err := strconv.Atoi(words[2]); err == nil {
			list = append(list, lines.Text())
		} else {
			a.changes()
			a.lock.Lock()
			a.told = append(a.told, lines.Text())
			a.lock.Unlock()
		}
	}
	close(a.lists)
}

// does gives the agent a command.
func (a *agent) does(line string) {
	_, err := io.WriteString(a.in, line+"\n")
	must(err)
}

// entry is a line of the agent's list.
type entry struct {
	state string
	inc   uint32
	place string
}

// list returns the members that the agent lists, in any state.
func (a *agent) list() map[string]entry {
	a.asking.Lock()
	defer a.asking.Unlock()
	a.does("list")
	list := make(map[string]entry)
	select {
	case lines := <-a.lists:
		for _, line := range lines {
			words := strings.Fields(line)
			inc, err := strconv.Atoi(words[2])
			must(err)
			list[words[0]] = entry{words[1], uint32(inc), words[3]}
		}
	case <-time.After(patience):
		must(fmt.Errorf("the agent lists nothing"))
	}
	return list
}

// there returns those of them that are alive or suspected.
func (a *agent) there() map[string]entry {
	list := a.list()
	for name, entry := range list {
		if entry.state != "alive" && entry.state != "suspect" {
			delete(list, name)
		}
	}
	return list
}

// of returns which of these events the agent told of a member, in their order. It makes no difference whether a
// newcomer's Alive or its record came first.
func (a *agent) of(name string, events ...string) string {
	a.lock.Lock()
	defer a.lock.Unlock()
	var found []string
	for _, line := range a.told {
		words := strings.Fields(line)
		for _, event := range events {
			if words[0] == name && words[1] == event {
				found = append(found, strings.Replace(event, "known", "joined", 1))
			}
		}
	}
	return strings.Join(found, ", ")
}

// accuses returns what the agent itself says against these members.
func (a *agent) accuses(names ...string) []string {
	a.lock.Lock()
	defer a.lock.Unlock()
	var found []string
	for _, line := range a.told {
		words := strings.Fields(line)
		for _, name := range names {
			if len(words) > 5 && words[0] == name && words[5] == "agent" {
				found = append(found, line)
			}
		}
	}
	return found
}

// ends waits for the end of the agent.
func (a *agent) ends(kind string) {
	select {
	case _, more := <-a.lists:
		check(kind+": the agent ends", !more)
	case <-time.After(patience):
		check(kind+": the agent ends", false)
		a.process.Kill()
	}
	state, err := a.process.Wait()
	check(fmt.Sprintf("%s: the agent ends well: %v, %v", kind, state, err), err == nil && state.Success())
}

// life is a cluster with the agent.
type life struct {
	kind   string
	port   int
	agent  *agent
	reader *member // reads the tables of members of memberlist, and is in nobody's table
	rings  []*memberlist.Keyring
	looks  int
	told   map[string]*heard
	lock   sync.Mutex
	living map[string]*memberlist.Memberlist
	// held while the lists are compared, so that the agent does not come to stand still meanwhile
	standing sync.Mutex
	stopped  bool
	// memberlist tells events while its members are locked, so this has a lock of its own
	changing sync.Mutex
	changed  time.Time // when the test did something, or a member of memberlist or the agent told an event
}

func (l *life) changes() {
	l.changing.Lock()
	defer l.changing.Unlock()
	l.changed = time.Now()
}

func (l *life) at(last int) string { return fmt.Sprintf("127.0.11.%d:%d", last, l.port) }

// heard are the events of a member of memberlist until it is killed: its timers go on after that, and tell of deaths.
type heard struct {
	events
	life *life
	over bool
}

func (h *heard) tells(tell func(*memberlist.Node), node *memberlist.Node) {
	h.life.changing.Lock()
	defer h.life.changing.Unlock()
	if !h.over {
		h.life.changed = time.Now()
		tell(node)
	}
}

func (h *heard) NotifyJoin(node *memberlist.Node)   { h.tells(h.events.NotifyJoin, node) }
func (h *heard) NotifyLeave(node *memberlist.Node)  { h.tells(h.events.NotifyLeave, node) }
func (h *heard) NotifyUpdate(node *memberlist.Node) { h.tells(h.events.NotifyUpdate, node) }

// soonAre waits for the events about a member.
func (h *heard) soonAre(what, name, wanted string) {
	if wanted != "" {
		wanted = strings.ReplaceAll(wanted, ",", " "+name+",") + " " + name
	}
	for end := time.Now().Add(patience); h.of(name) != wanted && time.Now().Before(end); {
		time.Sleep(20 * time.Millisecond)
	}
	h.are(what, wanted, name)
}

// role is a delegate with metadata.
type role struct {
	state
	meta string
}

func (r *role) NodeMeta(int) []byte { return []byte(r.meta) }

// begins adds a member of memberlist, which joins the one at this address.
func (l *life) begins(name string, last int, key []byte, join string) (*memberlist.Memberlist, *heard, *role) {
	l.changes()
	told, role := &heard{life: l}, &role{meta: "role=" + name}
	list := cluster(name, fmt.Sprintf("127.0.11.%d", last), l.port, nil, scaled, func(config *memberlist.Config) {
		config.Events, config.Delegate = told, role
		if key != nil {
			ring, err := memberlist.NewKeyring(nil, key)
			must(err)
			config.Keyring = ring
			l.rings = append(l.rings, ring)
		}
	})
	if join != "" {
		_, err := list.Join([]string{join})
		must(err)
	}
	l.lock.Lock()
	defer l.lock.Unlock()
	l.living[name], l.told[name] = list, told
	return list, told, role
}

// kills closes the sockets of a member of memberlist.
func (l *life) kills(name string) {
	l.changing.Lock()
	l.changed, l.told[name].over = time.Now(), true
	l.changing.Unlock()
	l.lock.Lock()
	list := l.living[name]
	delete(l.living, name)
	l.lock.Unlock()
	must(list.Shutdown())
}

// stops lets the agent stand still, or go on.
func (l *life) stops(stopped bool) {
	signal := syscall.SIGCONT
	if stopped {
		signal = syscall.SIGSTOP
	}
	l.standing.Lock()
	defer l.standing.Unlock()
	l.changes()
	l.stopped = stopped
	must(l.agent.process.Signal(signal))
}

// lists returns whom the living members of memberlist list, and where.
func (l *life) lists() map[string]map[string]string {
	l.lock.Lock()
	defer l.lock.Unlock()
	lists := make(map[string]map[string]string)
	for name, list := range l.living {
		lists[name] = make(map[string]string)
		for _, node := range list.Members() {
			lists[name][node.Name] = net.JoinHostPort(node.Addr.String(), strconv.Itoa(int(node.Port)))
		}
	}
	return lists
}

// all returns whether all members of memberlist, and the agent if it runs, list these names and no others.
func (l *life) all(names ...string) func() bool {
	wanted := strings.Join(names, " ")
	return func() bool {
		for _, list := range l.lists() {
			var found []string
			for name := range list {
				found = append(found, name)
			}
			sort.Strings(found)
			if strings.Join(found, " ") != wanted {
				return false
			}
		}
		return l.agent == nil || l.difference() == ""
	}
}

// knows returns the state and the incarnation that a member of memberlist sends of a name.
func (l *life) knows(last int, name string) (swimtab.State, uint32, bool) {
	table := l.reader.table(l.at(last))
	defer table.Close()
	found, err := table.Find(name)
	return found.State, found.Incarnation, err == nil
}

// difference compares the agent's list with those of all living members of memberlist, and its incarnations with those
// that n1 sends.
func (l *life) difference() string {
	var found []string
	lists, there := l.lists(), l.agent.there()
	for member, list := range lists {
		for name, place := range list {
			if there[name].place != place {
				found = append(found, fmt.Sprintf("%s lists %s at %s, the agent at %q", member, name, place, there[name].place))
			}
		}
		for name, entry := range there {
			if list[name] == "" {
				found = append(found, fmt.Sprintf("the agent lists %s at %s, %s does not", name, entry.place, member))
			}
		}
	}
	table := l.reader.table(l.at(1))
	defer table.Close()
	table.Each(func(member swimtab.Member) bool {
		entry, ok := there[member.Name]
		if ok && member.State <= swimtab.Suspect && member.Incarnation != entry.inc {
			found = append(found, fmt.Sprintf("n1 sends %s at %d, the agent lists it at %d", member.Name, member.Incarnation, entry.inc))
		}
		return true
	})
	sort.Strings(found)
	return strings.Join(found, "; ")
}

// compare returns the difference, when it was looked for, and when the last change was before it was found. While the agent
// stands still there is none.
func (l *life) compare() (difference string, now, changed time.Time) {
	l.standing.Lock()
	defer l.standing.Unlock()
	now = time.Now()
	if !l.stopped {
		difference = l.difference()
		l.looks++
	}
	l.changing.Lock()
	defer l.changing.Unlock()
	return difference, now, l.changed
}

// watch compares the lists until it is done.
func (l *life) watch(done, ended chan bool) {
	var since time.Time // when they began to differ
	told := false       // whether that was a failure
	for {
		select {
		case <-done:
			ended <- true
			return
		case <-time.After(look):
		}
		difference, now, changed := l.compare()
		if difference == "" {
			since, told = time.Time{}, false
			continue
		}
		if since.IsZero() {
			since = now
			after := now.Sub(changed)
			check(fmt.Sprintf("%s: the lists differ %v after a change: %s", l.kind, after, difference), after <= tolerance)
		}
		if !told && now.Sub(since) > tolerance {
			told = true
			check(fmt.Sprintf("%s: the lists differ for %v: %s", l.kind, now.Sub(since), difference), false)
		}
	}
}

// pings asks the agent, which answers pings that name it or nobody, and pings others for those that ask it.
func (l *life) pings() {
	peer := func(name string, last int) swimtab.Peer {
		return swimtab.Peer{Name: name, Addr: netip.MustParseAddr(fmt.Sprintf("127.0.11.%d", last)), Port: uint16(l.port)}
	}
	ping := func(seq uint32, name string) []byte {
		packet, err := swimtab.Ping(seq, name, peer("reader", 8))
		must(err)
		return packet
	}
	l.reader.tells(l.at(9), ping(901, "another"), nil)
	l.reader.tells(l.at(9), ping(902, ""), nil)
	l.reader.tells(l.at(9), ping(903, "agent"), nil)
	soon(l.kind+": the agent answers pings", func() bool { return l.reader.noted("ack 902")() && l.reader.noted("ack 903")() })
	check(l.kind+": but for that of another name", !l.reader.noted("ack 901")())
	for seq, target := range map[uint32]swimtab.Peer{904: peer("n1", 1), 905: peer("another", 1)} {
		packet, err := swimtab.IndirectPing(seq, target, seq == 905, peer("reader", 8))
		l.reader.tells(l.at(9), packet, err)
	}
	soon(l.kind+": it passes an answer on", l.reader.noted("ack 904"))
	soon(l.kind+": and that there is none", l.reader.noted("nack 905"))
	answer, err := l.reader.asks(l.at(9), ping(906, "agent"))
	must(err)
	probe, err := swimtab.ReadProbe(answer)
	check(l.kind+": it answers a ping over TCP", err == nil && probe.Kind == swimtab.KindAck && probe.Seq == 906)
}

// rotates gives all members another key: it is added everywhere, then used everywhere, and then the old one is removed.
func (l *life) rotates(old, next string) {
	for _, step := range []struct {
		word, key string
		reader    func([]byte) error
		ring      func(*memberlist.Keyring, []byte) error
	}{
		{"add", next, l.reader.keys.Add, (*memberlist.Keyring).AddKey},
		{"use", next, l.reader.keys.Use, (*memberlist.Keyring).UseKey},
		{"remove", old, l.reader.keys.Remove, (*memberlist.Keyring).RemoveKey},
	} {
		for _, ring := range l.rings {
			must(step.ring(ring, []byte(step.key)))
		}
		must(step.reader([]byte(step.key)))
		l.agent.does(step.word + " " + hex.EncodeToString([]byte(step.key)))
		time.Sleep(pause)
	}
}

// lives lets the agent see a death, a return, an update, a leave and a newcomer, be suspected, and leave. If it forgets,
// the member that died comes back when all have forgotten it. With two keys the cluster begins with the first one, and
// ends with the second one.
func lives(kind string, port int, path string, forgets bool, keys ...string) {
	l := &life{kind: kind, port: port, told: make(map[string]*heard), living: make(map[string]*memberlist.Memberlist)}
	var key []byte
	first := ""
	if len(keys) > 0 {
		key, first = []byte(keys[0]), "add "+hex.EncodeToString([]byte(keys[0]))+"\n"
	}
	l.reader = join("reader", "127.0.11.8", uint16(port), key)
	n1, told1, role1 := l.begins("n1", 1, key, "")
	n2, told2, _ := l.begins("n2", 2, key, l.at(1))
	_, told3, _ := l.begins("n3", 3, key, l.at(1))
	soon(kind+": a cluster of memberlist", l.all("n1", "n2", "n3"))
	time.Sleep(pause) // nobody gossips of the others any more
	l.changes()
	l.agent = start(path, "127.0.11.9", port, "127.0.11.1", first, l.changes)
	soon(kind+": the agent joins it", l.all("agent", "n1", "n2", "n3"))
	done, ended := make(chan bool), make(chan bool)
	go l.watch(done, ended)
	l.pings()

	_, inc, _ := l.knows(1, "n1")
	doubt, err := swimtab.SuspectOf("n2", "n1", inc)
	l.reader.tells(l.at(9), doubt, err)
	soon(kind+": the agent hears of a refutation", func() bool {
		return strings.HasSuffix(l.agent.of("n1", "suspected", "refuted", "dead"), "suspected, refuted")
	})

	killed := time.Now()
	l.kills("n3")
	soon(kind+": a death", l.all("agent", "n1", "n2"))
	lived := time.Since(killed)
	check(fmt.Sprintf("%s: which is declared after %v", kind, lived), lived > suspicion)
	if forgets {
		time.Sleep(dead)
		soon(kind+": all forget the dead", func() bool {
			_, _, by1 := l.knows(1, "n3")
			_, _, by2 := l.knows(2, "n3")
			_, by9 := l.agent.list()["n3"]
			return !by1 && !by2 && !by9
		})
	}
	_, told3again, _ := l.begins("n3", 3, key, l.at(1))
	soon(kind+": a return", l.all("agent", "n1", "n2", "n3"))

	role1.meta = "role=other"
	l.changes()
	must(n1.UpdateNode(patience))
	soon(kind+": the agent hears of an update", func() bool { return l.agent.of("n1", "updated") == "updated" })
	if len(keys) > 1 {
		l.rotates(keys[0], keys[1])
		key = []byte(keys[1])
	}

	l.changes()
	must(n2.Leave(patience))
	soon(kind+": a leave", func() bool { return l.agent.of("n2", "left") == "left" })
	time.Sleep(pause)
	l.kills("n2")
	_, told4, _ := l.begins("n4", 4, key, l.at(9))
	soon(kind+": a newcomer joins by the agent", l.all("agent", "n1", "n3", "n4"))

	_, before, _ := l.knows(1, "agent")
	l.stops(true)
	soon(kind+": the agent is suspected while it stands still", func() bool {
		state, _, _ := l.knows(1, "agent")
		return state == swimtab.Suspect
	})
	l.stops(false)
	soon(kind+": and refutes", func() bool {
		state, after, _ := l.knows(1, "agent")
		return state == swimtab.Alive && after > before
	})
	time.Sleep(pause)
	suspected := l.agent.of("agent", "suspected", "refuted")
	check(kind+": which it tells: "+suspected, strings.Contains(suspected, "refuted"))

	done <- true
	<-ended
	check(fmt.Sprintf("%s: the lists were compared %d times", kind, l.looks), l.looks > 20)
	l.agent.does("leave")
	l.agent.ends(kind)
	soon(kind+": it has left", func() bool {
		state, _, _ := l.knows(1, "agent")
		return state == swimtab.Leave
	})
	for _, told := range []struct {
		by     string
		events *heard
		wanted map[string]string
	}{
		{"n1", told1, map[string]string{"agent": "join, leave", "n1": "join, update", "n2": "join, leave", "n3": "join, leave, join", "n4": "join"}},
		{"n2", told2, map[string]string{"agent": "join", "n1": "join, update", "n2": "join, leave", "n3": "join, leave, join", "n4": ""}},
		{"n3", told3, map[string]string{"agent": "join", "n1": "join", "n2": "join", "n3": "join", "n4": ""}},
		{"n3 that came back", told3again, map[string]string{"agent": "join, leave", "n1": "join, update", "n2": "join, leave", "n3": "join", "n4": "join"}},
		{"n4", told4, map[string]string{"agent": "join, leave", "n1": "join", "n2": "", "n3": "join", "n4": "join"}},
	} {
		for name, wanted := range told.wanted {
			told.events.soonAre(fmt.Sprintf("%s: what %s hears of %s", kind, told.by, name), name, wanted)
		}
	}
	back := "back"
	if forgets {
		back = "joined"
	}
	wanted := map[string]string{"n1": "joined, updated", "n2": "joined, left", "n3": "joined, dead, " + back, "n4": "joined"}
	for name, wanted := range wanted {
		found := l.agent.of(name, "joined", "known", "back", "updated", "dead", "left", "conflict")
		check(fmt.Sprintf("%s: the agent tells of %s: %q, wanted %q", kind, name, found, wanted), found == wanted)
	}
	accused := l.agent.accuses("n1", "n2", "n4")
	check(fmt.Sprintf("%s: the agent accuses the living: %q", kind, accused), len(accused) <= mistakes)
	for name := range l.living {
		l.kills(name)
	}
}
