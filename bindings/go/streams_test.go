package swimtab

import (
	"fmt"
	"strings"
	"testing"
)

func TestAnExchangeLevelsTwoMembers(t *testing.T) {
	a, b := opened(t, "a", 1), opened(t, "b", 2)
	relates := func(wanted Relation) {
		t.Helper()
		if relation := must[Relation](t)(a.Relation(b)); relation != wanted {
			t.Error(relation)
		}
	}
	relates(Apart)
	offer := must[[]byte](t)(a.Offer(true, Canonical, nil))
	_, _, err := b.Answer(offer[:len(offer)-1], Canonical, nil)
	refused(t, err, ErrEnded)
	reply, taken, err := b.Answer(offer, Canonical, nil)
	if err != nil || !taken.Join || !taken.News || taken.Used != len(offer) {
		t.Fatal(taken, err)
	}
	relates(Behind)
	if taken := must[Taken](t)(a.Finish(reply)); taken.Used != len(reply) || !taken.News || !taken.Join {
		t.Error(taken)
	}
	relates(Equal)
	if taken := must[Taken](t)(a.Finish(reply)); taken.News {
		t.Error(taken)
	}
	if relation := must[Relation](t)(a.Relation(a)); relation != Equal {
		t.Error(relation)
	}
}

// header returns the header of a stream with this many records.
func header(join, records byte) string {
	return "\x06\x83\xa4Join" + string([]byte{join}) + "\xa5Nodes" + string([]byte{records}) + "\xacUserStateLen\x00"
}

// record returns a record with the address 127.0.0.last.
func record(name string, inc, state, last byte) string {
	return "\x87\xa4Addr\xa4\x7f\x00\x00" + string([]byte{last}) + "\xabIncarnation" + string([]byte{inc}) +
		"\xa4Meta\xa1m\xa4Name\xa1" + name + "\xa4Port\xcd\x1f\x0a\xa5State" + string([]byte{state}) +
		"\xa3Vsn\xa6\x01\x05\x02\x00\x00\x00"
}

// bare returns a record without an address, metadata, a port and versions.
func bare(name string, inc, state byte) string {
	return "\x87\xa4Addr\xa0\xabIncarnation" + string([]byte{inc}) + "\xa4Meta\xa0\xa4Name\xa1" + name +
		"\xa4Port\x00\xa5State" + string([]byte{state}) + "\xa3Vsn\xa0"
}

func TestStatesAndRelationsHaveNames(t *testing.T) {
	if names := fmt.Sprint(Equal, Behind, Ahead, Apart, Relation(4)); names != "equal behind ahead apart unknown" {
		t.Error(names)
	}
	names := fmt.Sprint(Alive, Suspect, Confirm, Leave, Noted, State(5))
	if names != "alive suspect confirm leave noted unknown" {
		t.Error(names)
	}
}

func TestStreamsHaveTwoForms(t *testing.T) {
	a, b := opened(t, "a", 1), opened(t, "b", 2)
	takes(t, a, must[[]byte](t)(b.Alive(3)), true)
	takes(t, a, must[[]byte](t)(a.Suspect("b", 3)), true)
	takes(t, a, must[[]byte](t)(a.Suspect("z", 4)), true)
	all := record("a", 0, 0, 1) + record("b", 3, 0, 2) + bare("b", 3, 1) + bare("z", 4, 1)
	merged := record("a", 0, 0, 1) + record("b", 3, 1, 2)
	same(t)(a.Offer(true, Canonical, nil))(header(0xc3, 4) + all)
	same(t)(a.Dump())(header(0xc2, 4) + all)
	same(t)(a.Offer(true, MemberlistForm, nil))(header(0xc3, 2) + merged)
	_, err := a.Offer(true, 2, nil)
	refused(t, err, ErrBadForm)
	none := header(0xc2, 0)
	_, _, err = a.Answer([]byte(none), 2, nil)
	refused(t, err, ErrBadForm)
	reply, taken, err := a.Answer([]byte(none+"behind"), MemberlistForm, nil)
	if taken.Join || taken.News || taken.Used != len(none) {
		t.Error(taken)
	}
	same(t)(reply, err)(header(0xc2, 2) + merged)
}

func TestUserStateIsSentAndRead(t *testing.T) {
	a := opened(t, "a", 1)
	wanted := strings.Replace(header(0xc3, 1), "UserStateLen\x00", "UserStateLen\x02", 1) + record("a", 0, 0, 1) + "us"
	same(t)(a.Offer(true, MemberlistForm, []byte("us")))(wanted)
	_, err := a.Offer(true, Canonical, []byte("us"))
	refused(t, err, ErrBadForm)
	_, err = a.Offer(true, MemberlistForm, make([]byte, 20971521))
	refused(t, err, ErrUserTooLong)
	reply, taken, err := a.Answer([]byte(wanted+"behind"), MemberlistForm, []byte("us"))
	same(t)(reply, err)(wanted)
	if taken.Used != len(wanted) {
		t.Error(taken)
	}
	var progress Progress
	if user := progress.User(reply); user != nil {
		t.Errorf("%q", user)
	}
	progress.Whole(reply[:len(reply)-1])
	if user := progress.User(reply[:len(reply)-1]); user != nil {
		t.Errorf("%q", user)
	}
	if _, whole, err := progress.Whole(reply); !whole || err != nil || string(progress.User(reply)) != "us" {
		t.Error(err)
	}
	if user := progress.User(append(reply, "behind"...)); string(user) != "us" {
		t.Errorf("%q", user)
	}
	progress = Progress{}
	none := must[[]byte](t)(a.Dump())
	if _, whole, err := progress.Whole(none); !whole || err != nil || progress.User(none) != nil {
		t.Error(err)
	}
}

func TestMembersWithoutVersionsAreLeftOut(t *testing.T) {
	a := opened(t, "a", 1)
	takes(t, a, must[[]byte](t)(a.Suspect("z", 4)), true)
	takes(t, a, must[[]byte](t)(AliveOf("old", Details{Addr: details(3).Addr}, 1)), true)
	if left := a.LeftOut(); left != 2 {
		t.Error(left)
	}
	same(t)(a.Offer(false, MemberlistForm, nil))(header(0xc2, 1) + record("a", 0, 0, 1))
	takes(t, a, must[[]byte](t)(AliveOf("old", details(3), 2)), true)
	if left := a.LeftOut(); left != 1 {
		t.Error(left)
	}
	a.Close()
	if left := a.LeftOut(); left != 0 {
		t.Error(left)
	}
}

func TestAStreamComesInPieces(t *testing.T) {
	stream := header(0xc2, 2) + record("a", 0, 0, 1) + bare("b", 3, 1)
	with := strings.Replace(stream, "UserStateLen\x00", "UserStateLen\x02", 1) + "us"
	for _, stream := range []string{stream, with} {
		var progress Progress
		for i := 0; i < len(stream); i++ {
			if used, whole, err := progress.Whole([]byte(stream[:i])); used != 0 || whole || err != nil {
				t.Fatal(i, used, whole, err)
			}
		}
		used, whole, err := progress.Whole([]byte(stream + "behind"))
		if used != len(stream) || !whole || err != nil {
			t.Error(used, whole, err)
		}
	}
	_, _, err := new(Progress).Whole([]byte{3})
	refused(t, err, ErrWrongType)
	_, _, err = new(Progress).Whole([]byte{6, 0xc0})
	refused(t, err, ErrNotMap)
}

func TestTheListingMayBeLong(t *testing.T) {
	a := opened(t, "a", 1)
	for i := byte('b'); i <= 'z'; i++ {
		takes(t, a, must[[]byte](t)(a.Suspect(strings.Repeat(string([]byte{i}), 1000), 1)), true)
	}
	if text := must[string](t)(a.List()); strings.Count(text, "\n") != 26 || len(text) < 25*1000 {
		t.Error(len(text))
	}
}
