package main

import (
	"fmt"
	"os"
	"os/exec"
	"strings"
	"syscall"
)

// The network of a storm is two bridges, which a pair of devices joins, and a namespace for each member, with an end on
// the bridge of its side. All of it is in the network and mount namespaces of this process, and ends with it:
//
//	unshare --mount --net --pid --fork --kill-child --mount-proc live storm ..

// ip runs these commands of ip, in the namespace of this member, or in that of the bridges.
func ip(inside string, lines ...string) {
	words := []string{"-batch", "-"}
	if inside != "" {
		words = []string{"-n", inside, "-batch", "-"}
	}
	command := exec.Command("ip", words...)
	command.Stdin = strings.NewReader(strings.Join(lines, "\n") + "\n")
	if said, err := command.CombinedOutput(); err != nil {
		must(fmt.Errorf("ip %s: %v: %s", strings.Join(lines, "; "), err, said))
	}
}

// connects makes the network of these members.
func connects(nodes []*process) {
	// the names of the namespaces are in /run
	must(os.MkdirAll("/run", 0o755))
	must(syscall.Mount("none", "/run", "tmpfs", 0, ""))
	ip("", "link set lo up",
		"link add side0 type bridge", "link add side1 type bridge", "link set side0 up", "link set side1 up",
		"link add joint0 type veth peer name joint1",
		"link set joint0 master side0 up", "link set joint1 master side1 up")
	for _, n := range nodes {
		ip("", "netns add "+n.name,
			fmt.Sprintf("link add %s type veth peer name eth0 netns %s", n.name, n.name),
			fmt.Sprintf("link set %s master side%d up", n.name, n.side))
		ip(n.name, "link set lo up", fmt.Sprintf("addr add %s/24 dev eth0", n.addr), "link set eth0 up")
	}
}

// cuts sets the device between the two sides down, or up again: what is sent from one to the other is lost.
func cuts(down bool) {
	state := "up"
	if down {
		state = "down"
	}
	ip("", "link set joint0 "+state)
}

// hides lets two members lose all that they send each other, as to an address that nobody has, or reach each other again.
func hides(a, b *process, hidden bool) {
	for _, each := range [][]*process{{a, b}, {b, a}} {
		if hidden {
			ip(each[0].name, fmt.Sprintf("neigh replace %s lladdr 02:00:00:00:00:01 dev eth0 nud permanent", each[1].addr))
		} else {
			ip(each[0].name, fmt.Sprintf("neigh del %s dev eth0", each[1].addr))
		}
	}
}

// inside returns a command that runs in the namespace of a member.
func inside(name string, words ...string) *exec.Cmd {
	return exec.Command("ip", append([]string{"netns", "exec", name}, words...)...)
}
