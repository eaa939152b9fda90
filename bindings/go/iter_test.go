//go:build go1.23

package swimtab

import "testing"

func TestMembersAndChangesAreIterated(t *testing.T) {
	a := opened(t, "a", 1)
	a.Watch(true)
	for _, name := range []string{"z", "q"} {
		takes(t, a, must[[]byte](t)(a.Suspect(name, 1)), true)
	}
	told := ""
	for member := range a.All() {
		told += member.Name
	}
	for member := range a.Changes() {
		told += member.Name
		break
	}
	for member := range a.Changes() {
		told += member.Name
	}
	if told != "aqzqz" {
		t.Error(told)
	}
}

func TestMembersAreIteratedWhileTheyChange(t *testing.T) {
	a := opened(t, "a", 1)
	takes(t, a, must[[]byte](t)(a.Suspect("q", 1)), true)
	told := ""
	for member := range a.All() {
		told += member.Name
		if member.Name == "a" {
			takes(t, a, must[[]byte](t)(a.Suspect("b", 1)), true)
			a.Forget("q")
		}
	}
	if told != "ab" {
		t.Error(told)
	}
}

func TestMembersOfAViewAreIterated(t *testing.T) {
	view := openedView(t)
	hears(t, view, 1, alive(t, "z", 2, 1), alive(t, "b", 2, 1), alive(t, "m", 2, 1))
	told := ""
	for member, err := range view.All() {
		if err != nil {
			t.Error(err)
		}
		told += member.Name
		if member.Name == "m" {
			break
		}
	}
	view.Close()
	for _, err := range view.All() {
		refused(t, err, ErrNoNode)
		told += "."
	}
	if told != "bm." {
		t.Error(told)
	}
}

func TestPartsAreIterated(t *testing.T) {
	told := ""
	for part := range Parts([]byte("\x07\x03\x00\x01\x00\x02\x00\x01\x08\x00a\x02")) {
		told += part.Kind().String() + " "
		if part.Kind() == KindPing {
			break
		}
	}
	if told != "user ping " {
		t.Error(told)
	}
}
