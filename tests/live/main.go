// Command live lets members of libswimtab and of memberlist exchange tables over TCP and packets over UDP, on
// loopback, in the clear and with a key. tests/embedded builds it if memberlist's source is installed. It prints a
// line for each failed check; the last line is 'N passed, M failed'.
//
// run has members that do nothing but what the test does; history has members that probe each other, and that die,
// leave, are forgotten and come back. With the path of a compiled commanded.c, lives has it among them. storm.go
// has clusters of processes of both.
package main

import (
	"errors"
	"fmt"
	"io"
	"log"
	"net"
	"net/netip"
	"os"
	"strings"
	"sync"
	"time"

	"github.com/hashicorp/memberlist"

	"swimtab.invalid/swimtab"
)

const patience = 20 * time.Second

var (
	passed, failed int
	checking       sync.Mutex
	// the versions that memberlist accepts: the protocol's least, greatest and current version, and the delegate's
	versions = []byte{1, 5, 2, 0, 0, 0}
)

func check(what string, ok bool) {
	checking.Lock()
	defer checking.Unlock()
	if ok {
		passed++
		return
	}
	failed++
	fmt.Println("failed:", what)
}

// must ends the test if its setup fails.
func must(err error) {
	if err != nil {
		fmt.Println("failed:", err)
		fmt.Printf("%d passed, %d failed\n", passed, failed+1)
		os.Exit(1)
	}
}

// soon waits until the condition holds.
func soon(what string, holds func() bool) {
	for end := time.Now().Add(patience); time.Now().Before(end); time.Sleep(20 * time.Millisecond) {
		if holds() {
			check(what, true)
			return
		}
	}
	check(what, false)
}

// member is a member of libswimtab: its node, its keys, its socket for packets and its user state. It answers pings.
type member struct {
	*swimtab.Node
	keys  *swimtab.Keyring
	heard *net.UDPConn
	user  []byte
	lock  sync.Mutex
	told  []string // the acks, nacks and user messages that it received, and the user state of its exchanges
}

// notes keeps a line.
func (m *member) notes(line string) {
	m.lock.Lock()
	defer m.lock.Unlock()
	m.told = append(m.told, line)
}

// noted returns whether the line is kept.
func (m *member) noted(line string) func() bool {
	return func() bool {
		m.lock.Lock()
		defer m.lock.Unlock()
		for _, kept := range m.told {
			if kept == line {
				return true
			}
		}
		return false
	}
}

func join(name, addr string, port uint16, key []byte) *member {
	details := swimtab.Details{Addr: netip.MustParseAddr(addr), Port: port, Meta: []byte("role=" + name), Versions: versions}
	node, err := swimtab.Open(name, details, 1)
	must(err)
	var keys *swimtab.Keyring
	if key != nil {
		keys, err = swimtab.NewKeyring(key)
		must(err)
	}
	heard, err := net.ListenUDP("udp", &net.UDPAddr{IP: net.ParseIP(addr), Port: int(port)})
	must(err)
	calls, err := net.Listen("tcp", fmt.Sprintf("%s:%d", addr, port))
	must(err)
	m := &member{Node: node, keys: keys, heard: heard}
	go m.listen()
	go m.serve(calls)
	return m
}

// serve answers the exchanges and pings that other members begin over TCP.
func (m *member) serve(calls net.Listener) {
	for {
		conn, err := calls.Accept()
		if err != nil {
			return
		}
		conn.SetDeadline(time.Now().Add(patience))
		if err := m.answer(conn); err != nil {
			fmt.Println("an exchange that another began:", err)
		}
		conn.Close()
	}
}

// answer reads until a whole stream is there, since the other side keeps its end of the connection open.
func (m *member) answer(conn net.Conn) error {
	var stream []byte
	piece := make([]byte, 4096)
	for {
		n, err := conn.Read(piece)
		if err != nil {
			return err
		}
		stream = append(stream, piece[:n]...)
		reply, err := m.reply(stream)
		if errors.Is(err, swimtab.ErrEnded) {
			continue
		}
		if err != nil {
			return err
		}
		sealed, err := m.keys.SealStream("", true, reply)
		if err != nil {
			return err
		}
		_, err = conn.Write(sealed)
		return err
	}
}

// reply returns what to answer to a stream, or ErrEnded as long as it is not whole.
func (m *member) reply(stream []byte) ([]byte, error) {
	message, err := m.keys.UnwrapStream("", stream)
	if err != nil {
		return nil, err
	}
	if message.Kind() == swimtab.KindPing {
		probe, err := swimtab.ReadProbe(message)
		if err != nil {
			return nil, err
		}
		return swimtab.Ack(probe.Seq, nil)
	}
	reply, _, err := m.Answer(message, swimtab.MemberlistForm, m.user)
	return reply, err
}

// listen reads packets.
func (m *member) listen() {
	packet := make([]byte, 65536)
	for {
		n, from, err := m.heard.ReadFromUDP(packet)
		if err != nil {
			return
		}
		message, err := m.keys.Unwrap(packet[:n])
		if err != nil {
			continue
		}
		swimtab.EachPart(message, func(part swimtab.Message) bool {
			m.hears(part, from)
			return true
		})
	}
}

// hears answers a ping, takes a claim in, and notes the rest.
func (m *member) hears(part swimtab.Message, from *net.UDPAddr) {
	switch part.Kind() {
	case swimtab.KindPing:
		if probe, err := swimtab.ReadProbe(part); err == nil {
			ack, err := swimtab.Ack(probe.Seq, []byte("payload"))
			m.tells(from.String(), ack, err)
		}
	case swimtab.KindAck, swimtab.KindNack:
		if probe, err := swimtab.ReadProbe(part); err == nil {
			m.notes(fmt.Sprint(probe.Kind, " ", probe.Seq))
		}
	case swimtab.KindUser:
		m.notes("message " + string(part[1:]))
	default:
		if news, err := m.Take(part); news && err == nil {
			m.refutes(from.String())
		}
	}
}

// refutes tells a member of memberlist that this one is alive, if it is suspected.
func (m *member) refutes(peer string) {
	if incarnation, due, err := m.Refute(); due && err == nil {
		alive, err := m.Alive(incarnation)
		m.tells(peer, alive, err)
	}
}

// exchange does a push/pull with a member of memberlist.
func (m *member) exchange(peer string, form swimtab.Form) error {
	offer, err := m.Offer(false, form, m.user)
	if err != nil {
		return err
	}
	stream, err := m.asks(peer, offer)
	if err != nil {
		return err
	}
	var progress swimtab.Progress
	if _, whole, err := progress.Whole(stream); !whole || err != nil {
		return fmt.Errorf("the reply is whole: %v; %w", whole, err)
	}
	if user := progress.User(stream); user != nil {
		m.notes("state " + string(user))
	}
	if _, err = m.Finish(stream); err == nil {
		m.refutes(peer)
	}
	return err
}

// asks sends a stream to a member of memberlist, and returns its reply.
func (m *member) asks(peer string, offer []byte) ([]byte, error) {
	sealed, err := m.keys.SealStream("", false, offer)
	if err != nil {
		return nil, err
	}
	conn, err := net.Dial("tcp", peer)
	if err != nil {
		return nil, err
	}
	defer conn.Close()
	conn.SetDeadline(time.Now().Add(patience))
	if _, err := conn.Write(sealed); err != nil {
		return nil, err
	}
	reply, err := io.ReadAll(conn)
	if err != nil {
		return nil, err
	}
	return m.keys.UnwrapStream("", reply)
}

// table returns what the table of a member of memberlist has, without telling it anything.
func (m *member) table(peer string) *swimtab.Node {
	node, err := m.tableOf(peer)
	must(err)
	return node
}

// tableOf does the same, and the member may be gone.
func (m *member) tableOf(peer string) (*swimtab.Node, error) {
	node, err := swimtab.Open("nobody", swimtab.Details{Addr: netip.MustParseAddr("127.0.0.1")}, 1)
	must(err)
	must(node.Forget("nobody"))
	nothing, err := node.Offer(false, swimtab.MemberlistForm, nil)
	must(err)
	stream, err := m.asks(peer, nothing)
	if err == nil {
		_, err = node.Finish(stream)
	}
	if err != nil {
		node.Close()
		return nil, err
	}
	return node, nil
}

// tells sends a packet to a member of memberlist.
func (m *member) tells(peer string, packet []byte, err error) {
	must(err)
	sealed, err := m.keys.Seal("", packet)
	must(err)
	to, err := net.ResolveUDPAddr("udp", peer)
	must(err)
	_, err = m.heard.WriteToUDP(sealed, to)
	must(err)
}

// tellsClear sends a packet as it is, as anyone can.
func (m *member) tellsClear(to string, packet []byte) {
	addr, err := net.ResolveUDPAddr("udp", to)
	must(err)
	_, err = m.heard.WriteToUDP(packet, addr)
	must(err)
}

func (m *member) knows(name string, state swimtab.State) bool {
	found, err := m.Find(name)
	return err == nil && found.State == state
}

// cluster starts a member of memberlist that probes nobody and begins no exchange, so that nothing happens but what
// the test does, unless its configuration is changed.
func cluster(name, addr string, port int, key []byte, changes ...func(*memberlist.Config)) *memberlist.Memberlist {
	config := memberlist.DefaultLANConfig()
	config.Name = name
	config.BindAddr, config.AdvertiseAddr = addr, addr
	config.BindPort, config.AdvertisePort = port, port
	config.ProbeInterval = time.Hour
	config.PushPullInterval = 0
	config.RetransmitMult = 12 // with 4, gossip misses one of few members in one of a hundred cases, and no table tells it
	config.SecretKey = key
	config.Logger = log.New(io.Discard, "", 0)
	for _, change := range changes {
		change(config)
	}
	list, err := memberlist.Create(config)
	must(err)
	return list
}

// lively makes a member of memberlist probe and exchange often, and forget dead members soon. A suspicion lasts for
// two seconds, in which a member of a busy machine can refute it.
func lively(config *memberlist.Config) {
	config.ProbeInterval, config.ProbeTimeout = 200*time.Millisecond, 150*time.Millisecond
	config.SuspicionMult = 10
	config.GossipInterval = 20 * time.Millisecond
	config.PushPullInterval = 100 * time.Millisecond
	config.GossipToTheDeadTime = 300 * time.Millisecond
}

// a moment in which lively members do all that they do, several times
const moment = 1500 * time.Millisecond

// events are what a member of memberlist tells its program: who joined, left and was updated.
type events struct {
	lock  sync.Mutex
	lines []string
}

func (e *events) notes(what string, node *memberlist.Node) {
	e.lock.Lock()
	defer e.lock.Unlock()
	e.lines = append(e.lines, what+" "+node.Name)
}

func (e *events) NotifyJoin(node *memberlist.Node)   { e.notes("join", node) }
func (e *events) NotifyLeave(node *memberlist.Node)  { e.notes("leave", node) }
func (e *events) NotifyUpdate(node *memberlist.Node) { e.notes("update", node) }

// of returns the events about these members, in their order.
func (e *events) of(names ...string) string {
	e.lock.Lock()
	defer e.lock.Unlock()
	var found []string
	for _, line := range e.lines {
		for _, name := range names {
			if strings.HasSuffix(line, " "+name) {
				found = append(found, line)
			}
		}
	}
	return strings.Join(found, ", ")
}

// are checks the events about these members.
func (e *events) are(what, wanted string, names ...string) {
	told := e.of(names...)
	check(fmt.Sprintf("%s: %q, wanted %q", what, told, wanted), told == wanted)
}

// to makes a member of memberlist tell its events.
func (e *events) to(config *memberlist.Config) {
	config.Events = e
}

// state is a member's user state and messages.
type state struct {
	own    string
	merged chan string // the states that other members sent
	heard  chan string // the messages that other members sent
}

func (s *state) NodeMeta(int) []byte             { return nil }
func (s *state) NotifyMsg(message []byte)        { put(s.heard, string(message)) }
func (s *state) GetBroadcasts(_, _ int) [][]byte { return nil }
func (s *state) LocalState(bool) []byte          { return []byte(s.own) }
func (s *state) MergeRemoteState(b []byte, _ bool) {
	put(s.merged, string(b))
}

// put adds a line unless the channel is full.
func put(lines chan string, line string) {
	select {
	case lines <- line:
	default:
	}
}

// comes waits until the channel has this line.
func comes(what string, lines chan string, wanted string) {
	late := time.After(patience)
	for {
		select {
		case line := <-lines:
			if line == wanted {
				check(what, true)
				return
			}
		case <-late:
			check(what, false)
			return
		}
	}
}

// to gives a member of memberlist this state.
func (s *state) to(config *memberlist.Config) {
	config.Delegate = s
}

func has(list *memberlist.Memberlist, name, meta string) func() bool {
	return func() bool {
		for _, node := range list.Members() {
			if node.Name == name {
				return string(node.Meta) == meta
			}
		}
		return false
	}
}

func run(kind string, port int, key []byte) {
	n1 := cluster("n1", "127.0.9.1", port, key)
	defer n1.Shutdown()
	n2 := cluster("n2", "127.0.9.2", port, key)
	defer n2.Shutdown()
	peer, own := fmt.Sprintf("127.0.9.1:%d", port), fmt.Sprintf("127.0.9.4:%d", port)
	_, err := n2.Join([]string{peer})
	must(err)

	x := join("x", "127.0.9.3", uint16(port), key)
	check(kind+": a first exchange", x.exchange(peer, swimtab.MemberlistForm) == nil)
	soon(kind+": memberlist has merged it", has(n1, "x", "role=x"))
	soon(kind+": the library has both members", func() bool {
		return x.knows("n1", swimtab.Alive) && x.knows("n2", swimtab.Alive)
	})
	soon(kind+": the other member has heard of it", has(n2, "x", "role=x"))

	must(n2.Leave(patience))
	soon(kind+": the leave comes by gossip", func() bool { return x.knows("n2", swimtab.Leave) })

	y := join("y", "127.0.9.4", uint16(port), key)
	dump, err := x.Dump()
	must(err)
	_, err = y.Finish(dump)
	must(err)
	check(kind+": a second exchange", y.exchange(peer, swimtab.MemberlistForm) == nil)
	soon(kind+": memberlist has merged a stream with a member that left", has(n1, "y", "role=y"))
	check(kind+": the leave stands", y.knows("n2", swimtab.Leave) && n1.NumMembers() == 3)

	n3 := cluster("n3", "127.0.9.5", port, key)
	defer n3.Shutdown()
	_, err = n3.Join([]string{own})
	check(kind+": memberlist joins a member of the library", err == nil)
	check(kind+": and has merged its answer", n3.NumMembers() == 4 && has(n3, "y", "role=y")())
	soon(kind+": which has taken the newcomer in", func() bool { return y.knows("n3", swimtab.Alive) })
	soon(kind+": and the others hear of it", func() bool { return n1.NumMembers() == 4 && x.knows("n3", swimtab.Alive) })

	forged, err := x.Confirm("n3", 9)
	must(err)
	if key != nil {
		x.tellsClear(peer, forged)
		x.tellsClear(own, forged)
	}
	packet, err := x.Leave(1)
	x.tells(peer, packet, err)
	soon(kind+": memberlist has taken a leave in", func() bool { return n1.NumMembers() == 3 })
	soon(kind+": and tells it on", func() bool { return y.knows("x", swimtab.Leave) })
	if key != nil {
		check(kind+": neither has believed a death in the clear", n1.NumMembers() == 3 && y.knows("n3", swimtab.Alive))
		must(y.keys.AcceptClear())
		x.tellsClear(own, forged)
		soon(kind+": which is read once that is accepted", func() bool { return y.knows("n3", swimtab.Confirm) })
	}
}

// knowsNot returns whether a member of memberlist has forgotten this one.
func (m *member) knowsNot(peer, name string) func() bool {
	return func() bool {
		table := m.table(peer)
		defer table.Close()
		_, err := table.Find(name)
		return errors.Is(err, swimtab.ErrNoMember)
	}
}

// history has a death, which memberlist forgets and the library does not, and a leave. No program of memberlist must
// hear of them again: neither a newcomer that joins a member of the library, nor one that knew them.
func history(kind string, port int, key []byte) {
	at := func(last int) string { return fmt.Sprintf("127.0.10.%d:%d", last, port) }
	oldEvents, newEvents := new(events), new(events)
	oldState := &state{own: "of old", merged: make(chan string, 1000), heard: make(chan string, 1000)}
	old := cluster("old", "127.0.10.1", port, key, lively, oldEvents.to, oldState.to)
	defer old.Shutdown()
	dies := cluster("dies", "127.0.10.2", port, key)
	goes := cluster("goes", "127.0.10.3", port, key)
	x := join("x", "127.0.10.4", uint16(port), key)
	x.user = []byte("of x")

	check(kind+": an exchange with user state", x.exchange(at(1), swimtab.MemberlistForm) == nil)
	check(kind+": the library has memberlist's user state", x.noted("state of old")())
	comes(kind+": memberlist has the library's user state", oldState.merged, "of x")
	message, err := swimtab.User([]byte("hello"))
	x.tells(at(1), message, err)
	comes(kind+": memberlist has a user message", oldState.heard, "hello")
	must(old.SendBestEffort(node(old, "x"), []byte("hello too")))
	soon(kind+": the library has a user message", x.noted("message hello too"))

	for _, list := range []*memberlist.Memberlist{dies, goes} {
		_, err := list.Join([]string{at(1)})
		must(err)
	}
	soon(kind+": the library hears of both", func() bool {
		return x.knows("dies", swimtab.Alive) && x.knows("goes", swimtab.Alive)
	})
	x.probes(kind, at(1))
	must(goes.Leave(patience))
	must(goes.Shutdown())
	must(dies.Shutdown())
	soon(kind+": the library hears of a leave", func() bool { return x.knows("goes", swimtab.Leave) })
	soon(kind+": the library hears of a death", func() bool { return x.knows("dies", swimtab.Confirm) })
	soon(kind+": memberlist forgets the dead", x.knowsNot(at(1), "dies"))
	oldEvents.are(kind+": the events of a death", "join dies, leave dies", "dies")
	oldEvents.are(kind+": the events of a leave", "join goes, leave goes", "goes")

	check(kind+": an exchange after that", x.exchange(at(1), swimtab.MemberlistForm) == nil)
	newcomer := cluster("newcomer", "127.0.10.5", port, key, lively, newEvents.to)
	defer newcomer.Shutdown()
	_, err = newcomer.Join([]string{at(4)})
	check(kind+": a newcomer joins a member of the library", err == nil)
	soon(kind+": and hears of the other one", func() bool { return newcomer.NumMembers() == 3 })
	for i := 0; i < 5; i++ {
		check(kind+": an exchange with the newcomer", x.exchange(at(5), swimtab.MemberlistForm) == nil)
		check(kind+": another exchange", x.exchange(at(1), swimtab.MemberlistForm) == nil)
		time.Sleep(moment / 5)
	}
	newEvents.are(kind+": what the newcomer hears of a death", "", "dies")
	newEvents.are(kind+": what the newcomer hears of a leave", "", "goes")
	oldEvents.are(kind+": what is heard of a death that was forgotten", "join dies, leave dies", "dies")
	oldEvents.are(kind+": what is heard of a leave", "join goes, leave goes", "goes")
	check(kind+": the dead stays forgotten", x.knowsNot(at(1), "dies")() && x.knowsNot(at(5), "dies")())
	newEvents.are(kind+": what the newcomer hears of x", "join x", "x")
	oldEvents.are(kind+": what is heard of the newcomer", "join newcomer", "newcomer")
	check(kind+": the library has forgotten nobody", x.knows("dies", swimtab.Confirm) && x.knows("goes", swimtab.Leave))
	check(kind+": and leaves nobody out", x.LeftOut() == 0)

	back := cluster("dies", "127.0.10.2", port, key)
	defer back.Shutdown()
	x.readmits(kind, at(1), back)
	soon(kind+": memberlist welcomes it back", func() bool { return old.NumMembers() == 4 && newcomer.NumMembers() == 4 })
	oldEvents.are(kind+": what is heard of one that came back", "join dies, leave dies, join dies", "dies")
	newEvents.are(kind+": what the newcomer hears of one that came back", "join dies", "dies")
}

// probes has pings, which memberlist's members answer.
func (m *member) probes(kind, peer string) {
	own := m.heard.LocalAddr().(*net.UDPAddr)
	source := swimtab.Peer{Name: "x", Addr: netip.MustParseAddr("127.0.10.4"), Port: uint16(own.Port)}
	target := swimtab.Peer{Name: "dies", Addr: netip.MustParseAddr("127.0.10.2"), Port: source.Port}
	ping, err := swimtab.Ping(901, "old", source)
	m.tells(peer, ping, err)
	soon(kind+": a ping is answered", m.noted("ack 901"))
	ping, err = swimtab.IndirectPing(902, target, true, source)
	m.tells(peer, ping, err)
	soon(kind+": an indirect ping is answered", m.noted("ack 902"))
	target.Name = "nobody"
	ping, err = swimtab.IndirectPing(903, target, true, source)
	m.tells(peer, ping, err)
	soon(kind+": an indirect ping to nobody is not", m.noted("nack 903"))
}

// readmits has a member of memberlist that comes back after its death: it refutes the death that the library still
// tells of.
func (m *member) readmits(kind, peer string, back *memberlist.Memberlist) {
	_, err := back.Join([]string{peer})
	must(err)
	soon(kind+": the library hears that it came back", func() bool {
		must(m.exchange(peer, swimtab.MemberlistForm))
		found, err := m.Find("dies")
		return err == nil && found.CameBack
	})
	check(kind+": the library believes it again", m.Readmit("dies") == nil && m.knows("dies", swimtab.Alive))
}

// node returns what a member of memberlist knows about this one.
func node(list *memberlist.Memberlist, name string) *memberlist.Node {
	for _, node := range list.Members() {
		if node.Name == name {
			return node
		}
	}
	return nil
}

func main() {
	if len(os.Args) > 4 && os.Args[1] == "member" {
		memberProcess(os.Args[2:])
		return
	}
	if len(os.Args) > 3 && os.Args[1] == "storm" {
		storms(os.Args[2], os.Args[3])
	} else {
		exchanges()
	}
	fmt.Printf("%d passed, %d failed\n", passed, failed)
	if failed > 0 {
		os.Exit(1)
	}
}

// exchanges has all but the storm.
func exchanges() {
	for _, cluster := range []struct {
		kind string
		port int
		key  []byte
	}{{"in the clear", 7946, nil}, {"with a key", 7947, []byte("0123456789abcdef")}} {
		run(cluster.kind, cluster.port, cluster.key)
		history(cluster.kind, cluster.port, cluster.key)
	}
	if len(os.Args) > 1 {
		lives("the agent in the clear", 7948, os.Args[1], true)
		lives("the agent with keys", 7949, os.Args[1], false, "0123456789abcdef", "the new key has thirty-two bytes")
	}
}
