package main

import (
	"bufio"
	"encoding/base64"
	"encoding/hex"
	"fmt"
	"log"
	"net"
	"os"
	"os/exec"
	"sort"
	"strconv"
	"strings"
	"sync"
	"syscall"
	"time"

	"github.com/hashicorp/memberlist"

	"swimtab.invalid/swimtab"
)

// A member of memberlist in a process of its own, which a storm can kill and stop:
//
//	live member KEY NAME ADDRESS PORT [ADDRESS PORT]..
//
// Its times are those of DefaultLANConfig. KEY is hexadecimal, or - for none; the other addresses are seeds. It takes
// the commands `list` and `leave`, and prints lists and events, as commanded.c does, and its log on standard
// error. With THEIRS=serf it is an agent of Serf, without events.

// printed prints what a member of memberlist tells its program, and its lists.
type printed struct{ lock sync.Mutex }

func (p *printed) lines(lines ...string) {
	p.lock.Lock()
	defer p.lock.Unlock()
	fmt.Println(strings.Join(lines, "\n"))
}

func (p *printed) tells(event, state string, node *memberlist.Node) {
	p.lines(fmt.Sprintf("%s %s %s - %s", node.Name, event, state, node.Address()))
}

func (p *printed) NotifyJoin(node *memberlist.Node)        { p.tells("joined", "alive", node) }
func (p *printed) NotifyLeave(node *memberlist.Node)       { p.tells("gone", "dead", node) }
func (p *printed) NotifyUpdate(node *memberlist.Node)      { p.tells("updated", "alive", node) }
func (p *printed) NotifyConflict(node, _ *memberlist.Node) { p.tells("conflict", "alive", node) }

// running is a member that was begun: how it leaves, and the names of Members() in order, none if it does not tell them.
type running struct {
	leaves  func() error
	members func() string
}

// stateWords are the agent's words for the states of a table.
var stateWords = map[swimtab.State]string{
	swimtab.Alive: "alive", swimtab.Suspect: "suspect", swimtab.Confirm: "dead", swimtab.Leave: "left",
}

// lists returns the table of a member of memberlist, which tells it in an exchange with its own process: Members() leaves
// out the dead, and shows no incarnations. Both have the same members alive or suspected.
func (m *member) lists(peer string, members func() string) []string {
	before := members()
	table, err := m.tableOf(peer)
	if err != nil {
		log.Println("[ERR] no list:", err)
		return nil
	}
	defer table.Close()
	var lines, here []string
	table.Each(func(each swimtab.Member) bool {
		if each.State == swimtab.Alive || each.State == swimtab.Suspect {
			here = append(here, each.Name)
		}
		place := "-"
		if each.Address != nil {
			place = net.JoinHostPort(each.Address.Addr.String(), strconv.Itoa(int(each.Address.Port)))
		}
		lines = append(lines, fmt.Sprintf("%s %s %d %s", each.Name, stateWords[each.State], each.Incarnation, place))
		return true
	})
	if after := members(); before == after && after != "" && after != strings.Join(here, " ") {
		log.Printf("[ERR] Members() has %s, and the table %s", after, strings.Join(here, " "))
	}
	return lines
}

// places returns addresses and ports as one word each.
func places(words []string) []string {
	var found []string
	for i := 0; i+1 < len(words); i += 2 {
		found = append(found, net.JoinHostPort(words[i], words[i+1]))
	}
	return found
}

// memberProcess runs a member until it is told to leave.
func memberProcess(args []string) {
	log.SetFlags(0)
	key, err := hex.DecodeString(strings.Trim(args[0], "-"))
	must(err)
	name, own, seeds := args[1], places(args[2:4])[0], places(args[4:])
	reader, out := new(member), new(printed)
	if len(key) > 0 {
		reader.keys, err = swimtab.NewKeyring(key)
		must(err)
	}
	begin := theirs
	if os.Getenv("THEIRS") == "serf" {
		begin = serfs
	}
	it := begin(name, own, seeds, key, out)
	for lines := bufio.NewScanner(os.Stdin); lines.Scan() && lines.Text() != "leave"; {
		if lines.Text() == "list" {
			out.lines(append(reader.lists(own, it.members), ".")...)
		}
	}
	must(it.leaves())
}

// theirs begins a member of memberlist.
func theirs(name, own string, seeds []string, key []byte, out *printed) running {
	host, port, err := net.SplitHostPort(own)
	must(err)
	config := memberlist.DefaultLANConfig()
	config.Name = name
	config.BindAddr, config.AdvertiseAddr = host, host
	config.BindPort, err = strconv.Atoi(port)
	must(err)
	config.AdvertisePort = config.BindPort
	config.SecretKey = key
	config.Logger = log.Default()
	config.Events, config.Conflict, config.Delegate = out, out, &role{meta: "role=" + name}
	list, err := memberlist.Create(config)
	must(err)
	if len(seeds) > 0 {
		_, err := list.Join(seeds)
		must(err)
	}
	leaves := func() error {
		if err := list.Leave(patience); err != nil {
			return err
		}
		return list.Shutdown()
	}
	return running{leaves, func() string {
		var names []string
		for _, each := range list.Members() {
			names = append(names, each.Name)
		}
		sort.Strings(names)
		return strings.Join(names, " ")
	}}
}

// serfs begins an agent of Serf.
func serfs(name, own string, seeds []string, key []byte, _ *printed) running {
	words := []string{"agent", "-node", name, "-bind", own, "-profile", "lan"}
	for _, seed := range seeds {
		words = append(words, "-join", seed)
	}
	if len(key) > 0 {
		words = append(words, "-encrypt", base64.StdEncoding.EncodeToString(key))
	}
	agent := exec.Command("serf", words...)
	agent.SysProcAttr = &syscall.SysProcAttr{Pdeathsig: syscall.SIGKILL}
	agent.Stdout, agent.Stderr = os.Stderr, os.Stderr
	must(agent.Start())
	for range time.Tick(20 * time.Millisecond) {
		if conn, err := net.Dial("tcp", own); err == nil {
			conn.Close()
			break
		}
	}
	leaves := func() error {
		if err := exec.Command("serf", "leave").Run(); err != nil {
			return err
		}
		return agent.Wait()
	}
	return running{leaves, func() string { return "" }}
}
