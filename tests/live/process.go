package main

import (
	"bufio"
	"encoding/hex"
	"fmt"
	"io"
	"os"
	"os/exec"
	"strconv"
	"strings"
	"sync"
	"syscall"
	"time"
)

// process is a member of a storm: one of ours, the agent, or one of theirs, a process of this program. Both take the same
// commands, and print lists and events in the same way.
type process struct {
	name, addr string
	side       int // of the network: 0 or 1
	isOurs     bool
	storm      *storm
	command    *exec.Cmd // nil when it does not run
	in         io.Writer
	answers    chan map[string]entry
	ended      chan error

	isStopped bool
	isNew     bool      // it began, and not all agree yet that it is there
	leaves    bool      // it was told to leave
	hasLeft   bool      // it left, and if it came back, not all agree yet that it did
	since     time.Time // when it was killed, stopped or told to leave; zero if all agree that it is well
	isBuried  bool      // all agree that it is gone
	inc       uint32    // the greatest incarnation that it ever had
	risen     uint32    // a greater one that another showed since its last answer
	shownBy   *process  // who did
}

func (n *process) place() string { return n.addr + ":" + port }

const port = "7946"

// begins starts the process of a member.
func (n *process) begins(seeds ...*process) {
	words := []string{n.name, n.addr, port}
	for _, seed := range seeds {
		words = append(words, seed.addr, port)
	}
	first, key := "", "-"
	if len(n.storm.key) > 0 {
		key = hex.EncodeToString(n.storm.key)
		first = "add " + key + "\n"
	}
	if n.isOurs {
		words = append([]string{n.storm.agent}, words...)
	} else {
		self, err := os.Executable()
		must(err)
		words, first = append([]string{self, "member", key}, words...), ""
	}
	command := inside(n.name, words...)
	// a process of Serf, which one of theirs may have begun, is killed and stopped with it
	command.SysProcAttr = &syscall.SysProcAttr{Setpgid: true, Pdeathsig: syscall.SIGKILL}
	in, err := command.StdinPipe()
	must(err)
	out, err := command.StdoutPipe()
	must(err)
	said, err := command.StderrPipe()
	must(err)
	_, err = io.WriteString(in, first)
	must(err)
	n.storm.notes("%s begins", n.name)
	must(command.Start())
	n.command, n.in, n.isNew, n.isBuried, n.leaves = command, in, true, false, false
	n.answers, n.ended = make(chan map[string]entry, 16), make(chan error, 1)
	var reading sync.WaitGroup
	reading.Add(2)
	go func() { defer reading.Done(); n.reads(out, n.answers) }()
	go func() { defer reading.Done(); n.storm.hears(n, said) }()
	go func(ended chan error) { reading.Wait(); ended <- command.Wait() }(n.ended)
}

// reads tells lines of a list, whose third word is an incarnation, from events, and a list ends with a dot. What one of
// ours lists is what it told before.
func (n *process) reads(out io.Reader, answers chan map[string]entry) {
	list, told := make(map[string]entry), make(map[string]entry)
	for lines := bufio.NewScanner(out); lines.Scan(); {
		words := strings.Fields(lines.Text())
		if len(words) == 1 {
			if n.isOurs {
				n.isTold(list, told)
			}
			answers <- list
			list = make(map[string]entry)
		} else if len(words) < 4 {
			n.storm.check(fmt.Sprintf("%s prints %q", n.name, lines.Text()), false)
		} else if inc, err := strconv.ParseUint(words[2], 10, 32); err == nil {
			list[words[0]] = entry{words[1], uint32(inc), words[3]}
		} else {
			if inc, err := strconv.ParseUint(words[3], 10, 32); err == nil && words[1] != "conflict" && len(words) > 4 {
				told[words[0]] = entry{words[2], uint32(inc), words[4]}
			}
			n.storm.happens(n, words)
		}
	}
}

// isTold checks that a list is what the events said last of each name; a dead one may be forgotten.
func (n *process) isTold(list, told map[string]entry) {
	for name, entry := range list {
		if told[name].state == "" && name == n.name {
			continue // it was asked at once
		}
		n.storm.check(fmt.Sprintf("%s lists %s as %v, and told %v", n.name, name, entry, told[name]), entry == told[name])
	}
	for name, entry := range told {
		_, isListed := list[name]
		isGone := entry.state == "dead" || entry.state == "left"
		n.storm.check(fmt.Sprintf("%s lists no %s, and told %v", n.name, name, entry), isListed || isGone)
		if !isListed {
			delete(told, name)
		}
	}
}

// signals sends a signal to the processes of a member.
func (n *process) signals(signal syscall.Signal) {
	n.storm.notes("%s: signal %v", n.name, signal)
	must(syscall.Kill(-n.command.Process.Pid, signal))
}

func (n *process) kills() {
	n.signals(syscall.SIGKILL)
	<-n.ended
	n.command, n.since = nil, time.Now()
}

func (n *process) stops() {
	n.signals(syscall.SIGSTOP)
	n.isStopped, n.since = true, time.Now()
}

func (n *process) goesOn() {
	n.signals(syscall.SIGCONT)
	n.isStopped = false
}

// goes lets a member leave; its process ends well once it has told that.
func (n *process) goes() {
	n.storm.notes("%s leaves", n.name)
	n.leaves, n.hasLeft, n.since = true, true, time.Now()
	n.does("leave")
}

// ends checks that the process of a member that leaves has ended well.
func (n *process) ends(within time.Duration) {
	select {
	case err := <-n.ended:
		n.storm.check(fmt.Sprintf("%s ends well: %v", n.name, err), err == nil)
		n.command = nil
	case <-time.After(within):
		n.storm.check(n.name+" ends", false)
	}
}

func (n *process) does(line string) {
	_, err := io.WriteString(n.in, line+"\n")
	if err != nil {
		n.storm.check(fmt.Sprintf("%s takes the command %s: %v", n.name, line, err), false)
	}
}

// runs returns whether a member is there and answers.
func (n *process) runs() bool { return n.command != nil && !n.isStopped && !n.leaves }
