package swimtab_test

import (
	"fmt"
	"net/netip"
	"time"

	"swimtab.invalid/swimtab"
)

// versions are those of memberlist's protocol: its least, greatest and current version, and those of the delegate.
var versions = []byte{1, 5, 2, 0, 0, 0}

// A member opens its node, tells the others that it is alive, and takes in what they send.
func ExampleOpen() {
	details := swimtab.Details{Addr: netip.MustParseAddr("10.0.0.1"), Port: 7946, Versions: versions}
	node, err := swimtab.Open("me", details, 1)
	if err != nil {
		fmt.Println(err)
		return
	}
	defer node.Close()

	packet, _ := node.Alive(1) // send it to the others
	fmt.Println(swimtab.Message(packet).Kind())

	packet, _ = swimtab.SuspectOf("you", "me", 1) // as if "you" had sent it
	news, err := node.Take(packet)
	fmt.Println(news, err)

	incarnation, due, _ := node.Refute() // if it is due, send what Alive returns at this incarnation
	fmt.Println(due, incarnation)
	// Output:
	// alive
	// true <nil>
	// true 2
}

// A cluster changes its key: all members Add the new one, then all Rotate to it, then all Remove the old one.
func ExampleKeyring_Rotate() {
	old, next := []byte("0123456789abcdef"), []byte("fedcba9876543210")
	keys, err := swimtab.NewKeyring(old)
	if err != nil {
		fmt.Println(err)
		return
	}
	defer keys.Close()

	if err := keys.Rotate(next); err != nil {
		fmt.Println(err)
	}
	for _, key := range keys.Keys() {
		fmt.Printf("%s\n", key)
	}
	fmt.Println(keys.Remove(next))
	fmt.Println(keys.Remove(old), len(keys.Keys()))
	// Output:
	// fedcba9876543210
	// 0123456789abcdef
	// swimtab: fault 72 KeyInUse: the first key encrypts, so it is not removed
	// <nil> 1
}

// Each walks over the members in the order of their names. With Go 1.23 or later, so does
// "for member := range node.All()".
func ExampleNode_Each() {
	node, err := swimtab.Open("b", swimtab.Details{Addr: netip.MustParseAddr("10.0.0.2"), Versions: versions}, 1)
	if err != nil {
		fmt.Println(err)
		return
	}
	defer node.Close()
	for _, name := range []string{"c", "a"} {
		packet, _ := node.Suspect(name, 4)
		node.Take(packet)
	}
	node.Each(func(member swimtab.Member) bool {
		fmt.Println(member.Name, member.State, member.Incarnation)
		return true
	})
	// Output:
	// a suspect 4
	// b alive 1
	// c suspect 4
}

// An agent among members that run memberlist shows what they show, and refutes what is said of it.
func ExampleView() {
	start := time.Now()
	view, err := swimtab.OpenView(30 * time.Second)
	if err != nil {
		fmt.Println(err)
		return
	}
	defer view.Close()
	details := swimtab.Details{Addr: netip.MustParseAddr("10.0.0.1"), Port: 7946, Versions: versions}
	packet, _ := swimtab.AliveOf("me", details, 1) // send it to the others
	view.Take(time.Since(start), packet)

	packet, _ = swimtab.SuspectOf("you", "me", 1) // as if "you" had sent it
	view.TakeParts(time.Since(start), packet, func(change swimtab.Change, err error) bool {
		if err != nil {
			return true // a bad part refuses only itself
		}
		member := change.Member
		fmt.Println(member.Name, change.Event, "by", member.By)
		if member.Name == "me" && change.Event != swimtab.EventConflict {
			packet, _ := swimtab.AliveOf("me", details, member.Incarnation+1) // send it to the others
			change, _ := view.Take(time.Since(start), packet)
			fmt.Println(member.Name, change.Event, "at", change.Member.Incarnation)
		}
		return true
	})
	// Output:
	// me suspected by you
	// me refuted at 2
}

// A packet may have several messages, and each is read by itself.
func ExampleEachPart() {
	ping, _ := swimtab.Ping(7, "me", swimtab.Peer{Name: "you"})
	packet := append([]byte{byte(swimtab.KindCompound), 2, 0, byte(len(ping)), 0, 3}, ping...)
	packet = append(packet, "\x08hi"...)

	var keys *swimtab.Keyring // none
	message, err := keys.Unwrap(packet)
	if err != nil {
		fmt.Println(err)
		return
	}
	swimtab.EachPart(message, func(part swimtab.Message) bool {
		switch part.Kind() {
		case swimtab.KindPing:
			probe, _ := swimtab.ReadProbe(part)
			fmt.Println(probe.Source.Name, "pings", probe.Target.Name, "with the number", probe.Seq)
		default:
			fmt.Printf("%v: %q\n", part.Kind(), part[1:])
		}
		return true
	})
	// Output:
	// you pings me with the number 7
	// user: "hi"
}
