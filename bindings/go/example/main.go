// Command example has two members, an exchange of their tables, and a suspicion that is refuted.
package main

import (
	"fmt"
	"log"
	"net/netip"

	"swimtab.invalid/swimtab"
)

func member(name string, last byte) *swimtab.Node {
	addr := netip.AddrFrom4([4]byte{10, 0, 0, last})
	node, err := swimtab.Open(name, swimtab.Details{Addr: addr, Port: 7946, Versions: []byte{1, 5, 2, 0, 0, 0}}, 1)
	check(err)
	return node
}

func check(err error) {
	if err != nil {
		log.Fatal(err)
	}
}

// hears takes in a packet.
func hears(node *swimtab.Node, packet []byte) {
	_, err := node.Take(packet)
	check(err)
}

// sent returns what a call wrote, and ends the program if the call was refused.
func sent(bytes []byte, err error) []byte {
	check(err)
	return bytes
}

func main() {
	a, b, c := member("a", 1), member("b", 2), member("c", 3)
	defer a.Close()
	defer b.Close()
	defer c.Close()

	// a hears that c is alive, and then suspects it
	hears(a, sent(c.Alive(4)))
	hears(a, sent(a.Suspect("c", 4)))

	// b joins a: b's offer goes out over TCP, and a's reply comes back
	reply, _, err := a.Answer(sent(b.Offer(true, swimtab.Canonical, nil)), swimtab.Canonical, nil)
	check(err)
	_, err = b.Finish(reply)
	check(err)
	fmt.Println("b, after an exchange with a:")
	for _, member := range b.Members() {
		address := member.Address
		fmt.Printf("  %s %v %d %v:%d\n", member.Name, member.State, member.Incarnation, address.Addr, address.Port)
	}

	// b suspects a, which refutes it
	hears(a, sent(b.Suspect("a", 1)))
	incarnation, due, err := a.Refute()
	check(err)
	if due {
		hears(b, sent(a.Alive(incarnation)))
	}
	known, err := b.Find("a")
	check(err)
	fmt.Printf("b knows a %v at incarnation %d\n", known.State, known.Incarnation)
	relation, err := a.Relation(b)
	check(err)
	fmt.Printf("a and b: %v\n", relation)
}
