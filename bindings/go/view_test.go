package swimtab

import (
	"errors"
	"fmt"
	"reflect"
	"strings"
	"sync"
	"testing"
	"time"
)

// The expected values are those of memberlist's state.go; the library's own tests are in tests/c.

func openedView(t *testing.T) *View {
	t.Helper()
	view, err := OpenView(30 * time.Second)
	if err != nil {
		t.Fatal(err)
	}
	t.Cleanup(func() { view.Close() })
	return view
}

// alive returns the Alive of a name at 127.0.0.last.
func alive(t *testing.T, name string, last byte, inc uint32) []byte {
	t.Helper()
	return must[[]byte](t)(AliveOf(name, details(last), inc))
}

func suspect(t *testing.T, from, name string, inc uint32) []byte {
	t.Helper()
	return must[[]byte](t)(SuspectOf(from, name, inc))
}

func dead(t *testing.T, from, name string, inc uint32) []byte {
	t.Helper()
	return must[[]byte](t)(DeadOf(from, name, inc))
}

// hears tells the view messages at this second, and returns their events.
func hears(t *testing.T, view *View, second int, messages ...[]byte) string {
	t.Helper()
	var told []string
	for _, message := range messages {
		change := must[Change](t)(view.Take(time.Duration(second)*time.Second, message))
		told = append(told, change.Event.String())
	}
	return strings.Join(told, " ")
}

// merged merges a stream at 9 seconds, and returns the names and events.
func merged(t *testing.T, view *View, stream []byte) string {
	t.Helper()
	told := ""
	err := view.Merge(9*time.Second, stream, func(change Change) bool {
		told += fmt.Sprintf("%s %v, ", change.Member.Name, change.Event)
		return true
	})
	if err != nil {
		t.Error(err)
	}
	return told
}

func TestAMemberIsShown(t *testing.T) {
	view := openedView(t)
	wanted := Shown{Name: "b", State: Alive, Since: 1500 * time.Millisecond, Incarnation: 1, Details: details(2)}
	change := must[Change](t)(view.Take(1500*time.Millisecond, alive(t, "b", 2, 1)))
	if !reflect.DeepEqual(change, Change{EventJoined, wanted}) {
		t.Errorf("%+v", change)
	}
	if found := must[Shown](t)(view.Find("b")); !reflect.DeepEqual(found, wanted) {
		t.Errorf("%+v", found)
	}
	if members := must[[]Shown](t)(view.Members()); !reflect.DeepEqual(members, []Shown{wanted}) || view.Len() != 1 {
		t.Errorf("%+v", members)
	}
	_, err := view.Find("none")
	refused(t, err, ErrNoMember)
}

func TestEachEventIsTold(t *testing.T) {
	view := openedView(t)
	other := details(2)
	other.Meta = []byte("other")
	steps := []struct {
		message []byte
		event   Event
		state   State
		since   int
	}{
		{alive(t, "b", 2, 1), EventJoined, Alive, 0},
		{alive(t, "b", 2, 1), EventNone, Alive, 0},
		{alive(t, "b", 2, 2), EventRenewed, Alive, 0},
		{must[[]byte](t)(AliveOf("b", other, 3)), EventUpdated, Alive, 0},
		{alive(t, "b", 3, 9), EventConflict, Alive, 0},
		{suspect(t, "x", "b", 3), EventSuspected, Suspect, 5},
		{suspect(t, "y", "b", 3), EventAlsoSuspected, Suspect, 5},
		{suspect(t, "y", "b", 3), EventNone, Suspect, 5},
		{alive(t, "b", 2, 4), EventRefuted, Alive, 8},
		{dead(t, "x", "b", 4), EventDead, Confirm, 9},
		{alive(t, "b", 2, 4), EventNone, Confirm, 9},
		{alive(t, "b", 2, 5), EventBack, Alive, 11},
		{dead(t, "b", "b", 5), EventLeft, Leave, 12},
		{suspect(t, "x", "none", 5), EventNone, Leave, 12},
	}
	for second, step := range steps {
		change := must[Change](t)(view.Take(time.Duration(second)*time.Second, step.message))
		shown := must[Shown](t)(view.Find("b"))
		since := time.Duration(step.since) * time.Second
		if change.Event != step.event || shown.State != step.state || shown.Since != since {
			t.Error(second, change.Event, shown.State, shown.Since)
		}
		if change.Event != EventNone && !reflect.DeepEqual(change.Member, shown) {
			t.Error(second, change.Member, shown)
		}
	}
	if told := hears(t, view, 20, alive(t, "z", 2, 0)); told != "known" {
		t.Error(told)
	}
	if z := must[Shown](t)(view.Find("z")); z.State != Noted || z.State.String() != "noted" {
		t.Error(z)
	}
	if text := fmt.Sprint(EventAlsoSuspected, EventNone, Event(99)); text != "also suspected none unknown" {
		t.Error(text)
	}
}

func TestAccusersAreNamedInTheirOrder(t *testing.T) {
	view := openedView(t)
	long := strings.Repeat("x", 1024)
	hears(t, view, 1, alive(t, "b", 2, 1))
	if names := must[[]string](t)(view.Accusers("b")); names != nil {
		t.Error(names)
	}
	hears(t, view, 2, suspect(t, "z", "b", 1), suspect(t, long, "b", 1))
	if names := must[[]string](t)(view.Accusers("b")); !reflect.DeepEqual(names, []string{"z", long}) {
		t.Error(names)
	}
	if b := must[Shown](t)(view.Find("b")); b.Accusers != 2 || b.By != long || b.Rivals != 0 {
		t.Error(b)
	}
	_, err := view.Accusers("none")
	refused(t, err, ErrNoMember)
}

func TestMessagesThatAViewRefuses(t *testing.T) {
	view := openedView(t)
	cut := alive(t, "b", 2, 1)
	for message, wanted := range map[string]Error{
		string(must[[]byte](t)(Compound(cut))): ErrWrongType,
		string(must[[]byte](t)(Ack(1, nil))):   ErrWrongType,
		"\x08mine":                             ErrWrongType,
		string(cut[:len(cut)-1]):               ErrEnded,
		"":                                     ErrEnded,
	} {
		_, err := view.Take(0, []byte(message))
		refused(t, err, wanted)
	}
	if view.Len() != 0 {
		t.Error(view.Len())
	}
}

func TestABadPartRefusesOnlyItself(t *testing.T) {
	view := openedView(t)
	each := [][]byte{alive(t, "b", 2, 1), must[[]byte](t)(Ack(1, nil)), {3, 0x80}, {}, suspect(t, "x", "b", 1)}
	packet, all := []byte{7, byte(len(each))}, []byte(nil)
	for _, part := range each {
		packet = append(packet, 0, byte(len(part)))
		all = append(all, part...)
	}
	var told []string
	view.TakeParts(time.Second, append(packet, all...), func(change Change, err error) bool {
		told = append(told, change.Event.String())
		if errors.Is(err, ErrNameEmpty) {
			told = append(told, "refused")
		}
		return true
	})
	if text := strings.Join(told, " "); text != "joined none refused suspected" {
		t.Error(text)
	}
	// what f does not want is not told
	both := must[[]byte](t)(Compound(alive(t, "c", 3, 1), alive(t, "d", 4, 1)))
	view.TakeParts(time.Second, both, func(Change, error) bool { return false })
	if view.Len() != 2 {
		t.Error(view.Len())
	}
}

func TestAStreamIsMergedAsMemberlistDoes(t *testing.T) {
	view, fresh := openedView(t), openedView(t)
	hears(t, view, 1, alive(t, "b", 2, 4), alive(t, "c", 3, 5), alive(t, "d", 4, 6), suspect(t, "b", "c", 5),
		dead(t, "b", "d", 6))
	stream := must[[]byte](t)(view.Offer(true, []byte("user")))
	if !strings.HasSuffix(string(stream), "user") {
		t.Errorf("%x", stream)
	}
	// of names that it does not know it learns only who is alive
	if told := merged(t, fresh, stream); told != "b known, " {
		t.Error(told)
	}
	hears(t, fresh, 2, alive(t, "c", 3, 4), alive(t, "d", 4, 5))
	if told := merged(t, fresh, stream); told != "c suspected, d suspected, " {
		t.Error(told)
	}
	if told := merged(t, fresh, stream); told != "" {
		t.Error(told)
	}
	if d := must[Shown](t)(fresh.Find("d")); d.Since != 9*time.Second || d.By != "" || d.Accusers != 0 {
		t.Error(d)
	}
	never := func(Change) bool { t.Error("a change"); return true }
	refused(t, fresh.Merge(0, stream[:len(stream)-1], never), ErrEnded)
	refused(t, fresh.Merge(0, []byte{3}, never), ErrWrongType)
}

func TestANodeReadsWhatAViewWrites(t *testing.T) {
	view, fresh, node := openedView(t), openedView(t), opened(t, "a", 1)
	hears(t, view, 1, alive(t, "b", 2, 4), alive(t, "c", 3, 5), suspect(t, "b", "c", 5), alive(t, "n", 5, 0))
	if taken := must[Taken](t)(node.Finish(must[[]byte](t)(view.Offer(false, nil)))); !taken.News {
		t.Error(taken)
	}
	told := ""
	for _, member := range node.Members() {
		told += fmt.Sprintf("%s %v %d, ", member.Name, member.State, member.Incarnation)
	}
	if told != "a alive 0, b alive 4, c suspect 5, " {
		t.Error(told)
	}
	stream := must[[]byte](t)(node.Offer(true, MemberlistForm, []byte("user")))
	if told := merged(t, fresh, stream); told != "a known, b known, " { // a at incarnation 0, which is noted
		t.Error(told)
	}
	_, err := view.Offer(false, make([]byte, 20971521))
	refused(t, err, ErrUserTooLong)
}

func TestMembersThatAreGoneAreForgotten(t *testing.T) {
	view := openedView(t)
	hears(t, view, 1, alive(t, "b", 2, 4), alive(t, "c", 3, 5), dead(t, "c", "b", 4), dead(t, "c", "c", 5))
	if gone := view.Forget(31 * time.Second); gone != 0 || view.Len() != 2 {
		t.Error(gone)
	}
	if gone := view.Forget(31*time.Second + time.Microsecond); gone != 2 || view.Len() != 0 {
		t.Error(gone)
	}
	if told := hears(t, view, 40, alive(t, "b", 2, 1)); told != "joined" {
		t.Error(told)
	}
	if gone := view.Forget(-time.Second); gone != 0 {
		t.Error(gone)
	}
}

func TestMembersAreWalkedWhileTheyChange(t *testing.T) {
	view := openedView(t)
	hears(t, view, 1, alive(t, "m", 2, 1), alive(t, "b", 2, 1), alive(t, "z", 2, 1), alive(t, "ba", 2, 1))
	told := ""
	err := view.Each(func(member Shown) bool {
		told += member.Name + " "
		if member.Name == "ba" {
			hears(t, view, 1, dead(t, "b", "m", 1))
			view.Forget(40 * time.Second)
			hears(t, view, 40, alive(t, "n", 2, 1))
		}
		return member.Name != "n"
	})
	if told != "b ba n " || err != nil {
		t.Error(told, err)
	}
	if member := must[Shown](t)(view.After("n")); member.Name != "z" {
		t.Error(member)
	}
	_, err = view.After("z")
	refused(t, err, ErrNoMember)
	_, err = view.After(strings.Repeat("n", 1025))
	refused(t, err, ErrNameTooLong)
	_, err = view.Find(strings.Repeat("n", 1025))
	refused(t, err, ErrNoMember)
}

func TestAClosedViewRefuses(t *testing.T) {
	view := openedView(t)
	stream := must[[]byte](t)(view.Offer(false, nil))
	view.Close()
	view.Close()
	_, err := view.Take(0, alive(t, "b", 2, 1))
	refused(t, err, ErrNoNode)
	refused(t, view.Merge(0, stream, func(Change) bool { return true }), ErrNoNode)
	refused(t, view.Each(func(Shown) bool { return true }), ErrNoNode)
	_, err = view.Members()
	refused(t, err, ErrNoNode)
	_, err = view.Find("b")
	refused(t, err, ErrNoNode)
	_, err = view.Accusers("b")
	refused(t, err, ErrNoNode)
	_, err = view.Offer(false, nil)
	refused(t, err, ErrNoNode)
	if view.Len() != 0 || view.Forget(0) != 0 {
		t.Error(view.Len())
	}
}

func TestGoroutinesShareAView(t *testing.T) {
	view := openedView(t)
	var group sync.WaitGroup
	for who := 0; who < 4; who++ {
		group.Add(1)
		go func(who int) {
			defer group.Done()
			for i := 0; i < 100; i++ {
				message, _ := AliveOf(fmt.Sprintf("%d-%d", who, i), details(2), 1)
				view.Take(time.Duration(i), message)
				view.Each(func(Shown) bool { return true })
			}
		}(who)
	}
	group.Wait()
	if view.Len() != 400 {
		t.Error(view.Len())
	}
}
