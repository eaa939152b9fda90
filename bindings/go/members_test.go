package swimtab

import (
	"strings"
	"testing"
)

// names returns the names of the members that repeated calls return.
func names(next func() (Member, bool)) string {
	var told []string
	for member, ok := next(); ok; member, ok = next() {
		told = append(told, member.Name)
	}
	return strings.Join(told, " ")
}

func TestChangesAreNoted(t *testing.T) {
	a := opened(t, "a", 1)
	z := must[[]byte](t)(a.Suspect("z", 5))
	changes := func(wanted string) {
		t.Helper()
		if told := names(a.NextChange); told != wanted {
			t.Errorf("%q, wanted %q", told, wanted)
		}
	}
	takes(t, a, must[[]byte](t)(a.Suspect("z", 4)), true)
	changes("")
	if err := a.Watch(true); err != nil {
		t.Fatal(err)
	}
	changes("")
	takes(t, a, z, true)
	takes(t, a, must[[]byte](t)(opened(t, "c", 3).Alive(1)), true)
	takes(t, a, must[[]byte](t)(a.Suspect("z", 6)), true)
	changes("c z")
	takes(t, a, z, false)
	a.Take([]byte{3})
	changes("")
	must[Taken](t)(a.Finish(must[[]byte](t)(opened(t, "d", 4).Dump())))
	takes(t, a, must[[]byte](t)(a.Suspect("a", 0)), true)
	if member, ok := a.NextChange(); !ok || member.Name != "a" || member.State != Suspect {
		t.Error(member)
	}
	if inc, due, err := a.Refute(); inc != 1 || !due || err != nil {
		t.Error(inc, due, err)
	}
	changes("a d")
	takes(t, a, must[[]byte](t)(a.Suspect("z", 7)), true)
	a.Watch(false)
	changes("")
}

func TestANameIsForgotten(t *testing.T) {
	a, c := opened(t, "a", 1), opened(t, "c", 3)
	refused(t, a.Forget("c"), ErrNoMember)
	refused(t, a.Forget(""), ErrNoMember)
	takes(t, a, must[[]byte](t)(c.Leave(9)), true)
	takes(t, a, must[[]byte](t)(c.Alive(1)), true)
	if a.Len() != 2 {
		t.Error(a.Len())
	}
	if err := a.Forget("c"); err != nil || a.Len() != 1 {
		t.Error(err, a.Len())
	}
	_, err := a.Find("c")
	refused(t, err, ErrNoMember)
	takes(t, a, must[[]byte](t)(c.Alive(1)), true)
	if known := must[Member](t)(a.Find("c")); known.State != Alive || a.Len() != 2 {
		t.Error(known)
	}
	for _, name := range []string{"c", "a"} {
		if err := a.Forget(name); err != nil {
			t.Error(err)
		}
	}
	if text := must[string](t)(a.List()); text != "" || a.Len() != 0 {
		t.Error(text)
	}
}

func TestAMemberComesBack(t *testing.T) {
	a, c := opened(t, "a", 1), opened(t, "c", 3)
	takes(t, a, must[[]byte](t)(c.Alive(4)), true)
	takes(t, a, must[[]byte](t)(a.Confirm("c", 4)), true)
	if known := must[Member](t)(a.Find("c")); known.CameBack || known.State != Confirm {
		t.Error(known)
	}
	takes(t, a, must[[]byte](t)(c.Alive(5)), true)
	known := must[Member](t)(a.Find("c"))
	if !known.CameBack || known.State != Confirm || known.Incarnation != 4 || known.Address.Incarnation != 5 {
		t.Error(known)
	}
}

func TestAMemberThatCameBackIsReadmitted(t *testing.T) {
	a, c := opened(t, "a", 1), opened(t, "c", 3)
	refused(t, a.Readmit("c"), ErrNoMember)
	refused(t, a.Readmit("a"), ErrNotBack)
	takes(t, a, must[[]byte](t)(c.Alive(4)), true)
	takes(t, a, must[[]byte](t)(a.Confirm("c", 4)), true)
	refused(t, a.Readmit("c"), ErrNotBack)
	takes(t, a, must[[]byte](t)(c.Alive(5)), true)
	if err := a.Readmit("c"); err != nil {
		t.Fatal(err)
	}
	known := must[Member](t)(a.Find("c"))
	if known.CameBack || known.State != Alive || known.Incarnation != 5 || a.Len() != 2 {
		t.Error(known)
	}
	takes(t, a, must[[]byte](t)(a.Suspect("c", 5)), true)
}

func TestAWalkGoesOnAfterAName(t *testing.T) {
	a := opened(t, "m", 1)
	takes(t, a, must[[]byte](t)(a.Suspect("z", 1)), true)
	for after, wanted := range map[string]string{"": "m", "lzz": "m", "m": "z", "n": "z", "y\xff": "z"} {
		if member := must[Member](t)(a.After(after)); member.Name != wanted {
			t.Errorf("after %q comes %q", after, member.Name)
		}
	}
	_, err := a.After("z")
	refused(t, err, ErrNoMember)
	a.Close()
	_, err = a.After("")
	refused(t, err, ErrNoNode)
}

func TestEachTellsOfAllInOrder(t *testing.T) {
	a := opened(t, "m", 1)
	for _, name := range []string{"z", "b", "q", "d"} {
		takes(t, a, must[[]byte](t)(a.Suspect(name, 1)), true)
	}
	told := ""
	a.Each(func(member Member) bool {
		told += member.Name
		return true
	})
	if told != "bdmqz" {
		t.Error(told)
	}
	told = ""
	a.Each(func(member Member) bool {
		told += member.Name
		switch member.Name {
		case "d": // names before it and after it come and go
			a.Forget("b")
			a.Forget("d")
			a.Forget("q")
			takes(t, a, must[[]byte](t)(a.Suspect("n", 1)), true)
		case "n":
			takes(t, a, must[[]byte](t)(a.Suspect("a", 1)), true)
			takes(t, a, must[[]byte](t)(a.Suspect("c", 1)), true)
		}
		return member.Name != "z"
	})
	if told != "bdmnz" {
		t.Error(told)
	}
	told = ""
	a.Each(func(member Member) bool {
		told += member.Name
		return len(told) < 2
	})
	if told != "ac" {
		t.Error(told)
	}
}

func TestFindTakesLittleMemory(t *testing.T) {
	a := opened(t, "a", 1)
	if each := testing.AllocsPerRun(100, func() { a.Find("a") }); each > 4 {
		t.Error(each) // the address, its metadata and its versions, and what cgo checks
	}
	if each := testing.AllocsPerRun(100, func() { a.Len() }); each > 0 {
		t.Error(each)
	}
}
