package swimtab

import (
	"fmt"
	"strings"
	"testing"
)

func TestKindsAreThoseOfTheFirstByte(t *testing.T) {
	all := map[Kind]string{KindPing: "ping", KindIndirectPing: "indirect ping", KindAck: "ack", KindSuspect: "suspect",
		KindAlive: "alive", KindDead: "dead", KindPushPull: "push/pull", KindCompound: "compound", KindUser: "user",
		KindNack: "nack", KindError: "error", 9: "unknown", KindNone: "none"}
	for kind, text := range all {
		if kind.String() != text || fmt.Sprint(kind) != text {
			t.Error(text, kind)
		}
	}
	if kind := Message(nil).Kind(); kind != KindNone {
		t.Error(kind)
	}
	for first, kind := range map[byte]Kind{0: KindPing, 1: KindIndirectPing, 2: KindAck, 3: KindSuspect, 4: KindAlive,
		5: KindDead, 6: KindPushPull, 7: KindCompound, 8: KindUser, 11: KindNack, 13: KindError} {
		if told := (Message{first, 0}).Kind(); told != kind {
			t.Error(first, told)
		}
		message, err := new(Keyring).Unwrap([]byte{first, 1, 2})
		if message.Kind() != kind || err != nil {
			t.Error(first, message, err)
		}
	}
}

func TestAnyMessageOfAStreamIsUnwrapped(t *testing.T) {
	keys := keyring(t, key16)
	for _, message := range []string{"\x08mine", "\x0d\x81\xa5Error\xa1x", "\x00\x82\xa4Node\xa1a\xa5SeqNo\x01"} {
		for _, reply := range []bool{false, true} {
			sent := must[[]byte](t)(keys.SealStream("dc", reply, []byte(message)))
			same(t)(keys.UnwrapStream("dc", sent))(message)
		}
	}
}

// parts returns the parts of a message.
func parts(message string) string {
	var told []string
	EachPart([]byte(message), func(part Message) bool {
		told = append(told, fmt.Sprintf("%v:%x", part.Kind(), []byte(part)))
		return true
	})
	return strings.Join(told, " ")
}

func TestPartsAreFound(t *testing.T) {
	for message, wanted := range map[string]string{
		"":                                  "",
		"\x08ab":                            "user:086162",
		"\x00":                              "ping:00",
		"\x07\x00":                          "",
		"\x07":                              "",
		"\x07\x02\x00\x02\x00\x01\x08a\x02": "user:0861 ack:02",
		"\x07\x02\x00\x02\x00\x02\x08a\x02": "user:0861",
		"\x07\x03\x00\x00\x00\x02\x00\x01\x07\x01\x63": "none: compound:0701 unknown:63",
	} {
		if told := parts(message); told != wanted {
			t.Errorf("%x: %q, wanted %q", message, told, wanted)
		}
	}
	a := opened(t, "a", 1)
	claims := [][]byte{must[[]byte](t)(a.Alive(1)), must[[]byte](t)(a.Suspect("b", 2)), must[[]byte](t)(a.Leave(3))}
	i := 0
	EachPart(must[[]byte](t)(Compound(claims...)), func(part Message) bool {
		if string(part) != string(claims[i]) || cap(part) != len(part) {
			t.Errorf("%x", part)
		}
		i++
		return i < 2
	})
	if i != 2 {
		t.Error(i)
	}
}

func TestUserMessagesAreWritten(t *testing.T) {
	same(t)(User([]byte("mine")))("\x08mine")
	same(t)(User(nil))("\x08")
	long := strings.Repeat("m", 100000)
	same(t)(User([]byte(long)))("\x08" + long)
}
