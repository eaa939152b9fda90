// The user states of tests/answers/serf_*.hex, as Serf's own encodeMessage (messages.go) writes them. Copied into a copy
// of Serf's package serf, without its tests, it prints a name and bytes for each:
//
//	go test -vet=off -run '^TestStates$' -v .
package serf

import (
	"bytes"
	"encoding/hex"
	"fmt"
	"testing"
)

func ev(name, payload string) userEvent {
	if payload == "" {
		return userEvent{Name: name}
	}
	return userEvent{Name: name, Payload: []byte(payload)}
}

func TestStates(t *testing.T) {
	a := string(bytes.Repeat([]byte("a"), 64))
	at := func(time LamportTime, events ...userEvent) *userEvents {
		return &userEvents{LTime: time, Events: events}
	}
	early := at(3, ev("deploy", "v2"), ev("deploy", "v1"), ev("backup", ""))
	all := []*userEvents{
		nil,
		early,
		at(7, ev("roll out", "it's 5% of C:\\tmp"), ev("greet", "gr\u00fc\u00df dich")),
		nil,
		at(10, ev("bytes", "\x00\xff\x10"), ev("lines", "a\nb")),
		at(11, ev("edge", a), ev("long", a+"bcdefg"), ev("wide", a[:63]+"\u00e4b"), ev("data", string(bytes.Repeat([]byte{0xab}, 70)))),
		at(2, ev("first", "x")),
	}
	states := []struct {
		name  string
		state messagePushPull
	}{
		{"all", messagePushPull{LTime: 5, StatusLTimes: map[string]LamportTime{"l3": 4}, LeftMembers: []string{"l3", "gone"}, EventLTime: 12, Events: all, QueryLTime: 1}},
		{"few", messagePushPull{LTime: 4, StatusLTimes: map[string]LamportTime{"l3": 3}, LeftMembers: []string{}, EventLTime: 9, Events: []*userEvents{early, at(8, ev("restart", ""))}, QueryLTime: 1}},
		{"none", messagePushPull{LTime: 1, StatusLTimes: map[string]LamportTime{}, LeftMembers: []string{}, EventLTime: 1, Events: []*userEvents{}, QueryLTime: 1}},
		{"left", messagePushPull{LTime: 6, StatusLTimes: map[string]LamportTime{"l3": 5}, LeftMembers: []string{"l2", "l3"}, EventLTime: 9, Events: []*userEvents{early, at(8, ev("restart", ""))}, QueryLTime: 1}},
		{"next", messagePushPull{LTime: 6, StatusLTimes: map[string]LamportTime{"l3": 5}, LeftMembers: []string{"l2", "l3"}, EventLTime: 10, Events: []*userEvents{nil, at(9, ev("deploy", "v3"), ev("deploy", "\x00")), at(8, ev("restart", "")), nil}, QueryLTime: 1}},
	}
	for _, one := range states {
		raw, err := encodeMessage(messagePushPullType, &one.state)
		if err != nil {
			t.Fatal(err)
		}
		fmt.Println(one.name, hex.EncodeToString(raw))
	}
}
