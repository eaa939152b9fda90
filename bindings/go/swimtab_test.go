package swimtab

import (
	"bytes"
	"encoding/hex"
	"errors"
	"fmt"
	"net/netip"
	"strings"
	"sync"
	"testing"
)

func details(last byte) Details {
	return Details{
		Addr:     netip.AddrFrom4([4]byte{127, 0, 0, last}),
		Port:     7946,
		Meta:     []byte("m"),
		Versions: []byte{1, 5, 2, 0, 0, 0},
	}
}

func opened(t *testing.T, name string, last byte) *Node {
	t.Helper()
	node, err := Open(name, details(last), 0)
	if err != nil {
		t.Fatal(err)
	}
	t.Cleanup(func() { node.Close() })
	return node
}

func must[T any](t *testing.T) func(value T, err error) T {
	return func(value T, err error) T {
		t.Helper()
		if err != nil {
			t.Fatal(err)
		}
		return value
	}
}

func refused(t *testing.T, err error, wanted Error) {
	t.Helper()
	if !errors.Is(err, wanted) {
		t.Errorf("%v, wanted %v", err, wanted)
	}
}

func takes(t *testing.T, node *Node, packet []byte, news bool) {
	t.Helper()
	if told, err := node.Take(packet); told != news || err != nil {
		t.Errorf("%x: %v %v", packet, told, err)
	}
}

// unhex returns the bytes that hexadecimal digits stand for.
func unhex(text string) []byte {
	bytes, err := hex.DecodeString(text)
	if err != nil {
		panic(err)
	}
	return bytes
}

// same checks that the bytes are the wanted ones.
func same(t *testing.T) func(got []byte, err error) func(wanted string) {
	return func(got []byte, err error) func(wanted string) {
		return func(wanted string) {
			t.Helper()
			if err != nil || string(got) != wanted {
				t.Errorf("%v: %x, wanted %x", err, got, wanted)
			}
		}
	}
}

func TestTheVersionIsThatOfTheHeader(t *testing.T) {
	if version := Version(); version != "0.3.0" {
		t.Error(version)
	}
}

func TestFaultsHaveNamesAndTexts(t *testing.T) {
	seen := map[string]bool{}
	for fault := Error(1); fault <= ErrBadSize; fault++ {
		told := fault.Name() != "Unknown" && !strings.HasSuffix(fault.Error(), "no such status")
		if told && seen[fault.Error()] {
			t.Error(fault)
		}
		seen[fault.Error()] = true
		if !errors.Is(fmt.Errorf("a call: %w", fault), fault) || errors.Is(fault, fault+1) {
			t.Error(fault)
		}
	}
	for fault, text := range map[Error]string{
		ErrEnded:          "swimtab: fault 1 Ended: the bytes end too soon",
		ErrMemory:         "swimtab: fault 10 Memory: out of memory",
		ErrCipherTrailing: "swimtab: fault 57 Trailing: bytes follow an encrypted stream",
		ErrKeyInUse:       "swimtab: fault 72 KeyInUse: the first key encrypts, so it is not removed",
		ErrBadForm:        "swimtab: fault 70 BadForm: there is no such form of a stream, or it has no user state",
	} {
		if fault.Error() != text {
			t.Error(fault)
		}
	}
	if !errors.Is(fmt.Errorf("a packet: %w", ErrWrongTag), ErrWrongTag) || errors.Is(ErrWrongTag, ErrEnded) {
		t.Error(ErrWrongTag)
	}
}

func TestPacketsAreTakenInOrRefused(t *testing.T) {
	a, b := opened(t, "a", 1), opened(t, "b", 2)
	takes(t, a, must[[]byte](t)(b.Alive(3)), true)
	takes(t, a, must[[]byte](t)(b.Alive(3)), false)
	takes(t, a, must[[]byte](t)(b.Suspect("b", 2)), false)
	wanted := "a alive 0 0/7f000001/7946/6d/010502000000\nb alive 3 3/7f000002/7946/6d/010502000000\n"
	if text := must[string](t)(a.List()); text != wanted {
		t.Error(text)
	}
	_, err := a.Take(nil)
	refused(t, err, ErrEnded)
	_, err = a.Take([]byte{9})
	refused(t, err, ErrWrongType)
	_, err = a.Suspect("", 1)
	refused(t, err, ErrNameEmpty)
	_, err = a.Confirm("a", 1)
	refused(t, err, ErrOwnName)
}

func TestASuspicionIsRefuted(t *testing.T) {
	a, b := opened(t, "a", 1), opened(t, "b", 2)
	if _, due, err := a.Refute(); due || err != nil {
		t.Error(due, err)
	}
	takes(t, a, must[[]byte](t)(b.Suspect("a", 6)), true)
	if inc, due, err := a.Refute(); inc != 7 || !due || err != nil {
		t.Error(inc, due, err)
	}
	takes(t, b, must[[]byte](t)(a.Alive(7)), true)
	if known := must[Member](t)(b.Find("a")); known.State != Alive || known.Incarnation != 7 {
		t.Error(known)
	}
	takes(t, a, must[[]byte](t)(b.Confirm("a", 7)), true)
	_, _, err := a.Refute()
	refused(t, err, ErrGone)
}

func TestMembersComeInTheOrderOfTheirNames(t *testing.T) {
	a := opened(t, "m", 1)
	compound := must[[]byte](t)(Compound(must[[]byte](t)(a.Suspect("z", 4)),
		must[[]byte](t)(opened(t, "c", 9).Alive(2)), must[[]byte](t)(opened(t, "d", 8).Leave(5))))
	takes(t, a, compound, true)
	members := a.Members()
	if len(members) != 4 || a.Len() != 4 {
		t.Fatal(members)
	}
	for i, name := range []string{"c", "d", "m", "z"} {
		if members[i].Name != name {
			t.Error(members[i])
		}
	}
	address := members[0].Address
	if address == nil || address.Incarnation != 2 || address.Addr != details(9).Addr || address.Port != 7946 ||
		string(address.Meta) != "m" || !bytes.Equal(address.Versions, details(9).Versions) {
		t.Error(address)
	}
	if members[1].State != Leave || members[1].Incarnation != 5 || members[1].Address != nil {
		t.Error(members[1])
	}
	if at := must[Member](t)(a.At(3)); at.Name != "z" || at.State != Suspect || at.State.String() != "suspect" {
		t.Error(at)
	}
	_, err := a.At(4)
	refused(t, err, ErrNoMember)
	_, err = a.At(-1)
	refused(t, err, ErrNoMember)
	_, err = a.Find("none")
	refused(t, err, ErrNoMember)
}

func TestACompoundPacketHas255PacketsAtMost(t *testing.T) {
	packet := must[[]byte](t)(opened(t, "a", 1).Alive(1))
	many := make([][]byte, 256)
	for i := range many {
		many[i] = packet
	}
	_, err := Compound(many...)
	refused(t, err, ErrTooManyPackets)
	if compound := must[[]byte](t)(Compound(many[:255]...)); len(compound) != 2+255*(len(packet)+2) {
		t.Error(len(compound))
	}
	if none := must[[]byte](t)(Compound()); !bytes.Equal(none, []byte{7, 0}) {
		t.Error(none)
	}
}

func TestAClosedNodeHasNoNode(t *testing.T) {
	a, b := opened(t, "a", 1), opened(t, "b", 1)
	if a.Len() != 1 {
		t.Error(a.Len())
	}
	a.Close()
	a.Close()
	_, err := a.Take(nil)
	refused(t, err, ErrNoNode)
	_, err = a.Offer(false, Canonical, nil)
	refused(t, err, ErrNoNode)
	refused(t, a.Forget("a"), ErrNoNode)
	refused(t, a.Watch(true), ErrNoNode)
	_, err = b.Relation(a)
	refused(t, err, ErrNoNode)
	if a.Len() != 0 || len(a.Members()) != 0 {
		t.Error(a.Len())
	}
}

func TestGoroutinesShareANode(t *testing.T) {
	a, b := opened(t, "a", 1), opened(t, "b", 2)
	var group sync.WaitGroup
	for i := 0; i < 8; i++ {
		group.Add(1)
		go func(one, other *Node) {
			defer group.Done()
			for inc := uint32(1); inc < 100; inc++ {
				packet, err := one.Suspect("c", inc)
				if err != nil {
					t.Error(err)
				}
				if _, err := other.Take(packet); err != nil {
					t.Error(err)
				}
				if _, err := one.Relation(other); err != nil {
					t.Error(err)
				}
			}
		}([]*Node{a, b}[i%2], []*Node{b, a}[i%2])
	}
	group.Wait()
	if known := must[Member](t)(a.Find("c")); known.Incarnation != 99 {
		t.Error(known)
	}
}

// connection is a member of a cluster as a program may keep it, with bytes next to pointers.
type connection struct {
	node   *Node
	others []*connection
	length int
	bytes  [256]byte
	key    [32]byte
	keys   Keyring
	stream Progress
}

func (c *connection) hears(bytes []byte) []byte {
	c.length = copy(c.bytes[:], bytes)
	return c.bytes[:c.length]
}

// cgo panics if it finds a Go pointer in what is passed to C, and checks more than a slice if the call does not show
// its bounds.
func TestBytesMayStandBesidePointers(t *testing.T) {
	c := &connection{node: opened(t, "a", 1), others: []*connection{{}}}
	b := opened(t, "b", 2)
	takes(t, c.node, c.hears(must[[]byte](t)(b.Alive(3))), true)
	used := must[Taken](t)(c.node.Finish(c.hears(must[[]byte](t)(b.Offer(false, Canonical, nil))))).Used
	if used != c.length {
		t.Error(used)
	}
	_, taken, err := c.node.Answer(c.hears(must[[]byte](t)(b.Offer(true, Canonical, nil))), Canonical, nil)
	if err != nil || !taken.Join {
		t.Error(err)
	}
	if _, whole, err := c.stream.Whole(c.bytes[:c.length]); !whole || err != nil {
		t.Error(err)
	}
	sent := must[[]byte](t)(c.keys.SealStream("dc", true, c.bytes[:c.length]))
	must[[]byte](t)(c.keys.UnwrapStream("dc", c.hears(sent)))
	must[[]byte](t)(Compound(c.hears(must[[]byte](t)(b.Alive(3)))))
	defer c.keys.Close()
	if err := c.keys.Add(c.key[:]); err != nil {
		t.Fatal(err)
	}
	c.hears(must[[]byte](t)(b.Alive(3)))
	packet := must[[]byte](t)(c.keys.Unwrap(c.hears(must[[]byte](t)(c.keys.Seal("", c.bytes[:c.length])))))
	takes(t, c.node, packet, false)
	details := Details{Addr: details(1).Addr, Meta: c.bytes[:1], Versions: c.key[:6]}
	must[[]byte](t)(AliveOf("c", details, 1))
	must[*Node](t)(Open("c", details, 1)).Close()
	if _, _, err := c.node.Update(details); err != nil {
		t.Error(err)
	}
	if err := c.keys.Rotate(c.key[:16]); err != nil {
		t.Error(err)
	}
	if err := c.keys.Remove(c.key[:]); err != nil {
		t.Error(err)
	}
	if len(c.keys.Keys()) != 1 {
		t.Error(c.keys.Keys())
	}
	must[[]byte](t)(c.node.Offer(false, MemberlistForm, c.bytes[:3]))
	must[Probe](t)(ReadProbe(c.hears(must[[]byte](t)(Ack(1, c.key[:])))))
	EachPart(c.hears(must[[]byte](t)(User(c.key[:]))), func(part Message) bool { return part.Kind() == KindUser })
}
