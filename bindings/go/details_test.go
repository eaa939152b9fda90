package swimtab

import (
	"net/netip"
	"strings"
	"testing"
)

func TestOpeningsAreRefused(t *testing.T) {
	_, err := Open("", details(1), 0)
	refused(t, err, ErrNameEmpty)
	_, err = Open(strings.Repeat("n", 1025), details(1), 0)
	refused(t, err, ErrNameTooLong)
	_, err = Open("a", Details{}, 0)
	refused(t, err, ErrBadAddress)
	long := details(1)
	long.Meta = make([]byte, 513)
	_, err = Open("a", long, 0)
	refused(t, err, ErrMetaTooLong)
	long.Meta, long.Versions = nil, make([]byte, 5)
	_, err = Open("a", long, 0)
	refused(t, err, ErrBadVersions)
	if text := err.Error(); text != "swimtab: fault 15 BadVersions: the versions do not have 0 or 6 bytes" {
		t.Error(text)
	}
}

func TestDetailsAreUpdated(t *testing.T) {
	a := opened(t, "a", 1)
	if inc, due, err := a.Update(details(1)); inc != 0 || due || err != nil {
		t.Error(inc, due, err)
	}
	other := Details{Addr: netip.MustParseAddr("fe80::7"), Port: 7, Meta: []byte("new"), Versions: details(1).Versions}
	if inc, due, err := a.Update(other); inc != 1 || !due || err != nil {
		t.Error(inc, due, err)
	}
	wanted := "a alive 1 1/fe800000000000000000000000000007/7/6e6577/010502000000\n"
	if text := must[string](t)(a.List()); text != wanted {
		t.Error(text)
	}
	same(t)(a.Alive(1))(string(must[[]byte](t)(AliveOf("a", other, 1))))
	_, _, err := a.Update(Details{})
	refused(t, err, ErrBadAddress)
	other.Meta = make([]byte, 513)
	_, _, err = a.Update(other)
	refused(t, err, ErrMetaTooLong)
	other.Meta, other.Versions = nil, make([]byte, 5)
	_, _, err = a.Update(other)
	refused(t, err, ErrBadVersions)
	takes(t, a, must[[]byte](t)(DeadOf("b", "a", 1)), true)
	_, _, err = a.Update(details(1))
	refused(t, err, ErrGone)
	a.Close()
	_, _, err = a.Update(details(1))
	refused(t, err, ErrNoNode)
}

func TestAnotherMembersAliveIsWritten(t *testing.T) {
	details := Details{Addr: netip.AddrFrom4([4]byte{127, 0, 0, 1}), Port: 7947}
	same(t)(AliveOf("a", details, 4))("\x04\x86\xa4Addr\xa4\x7f\x00\x00\x01\xabIncarnation\x04\xa4Meta\xa0" +
		"\xa4Node\xa1a\xa4Port\xcd\x1f\x0b\xa3Vsn\xa0")
	_, err := AliveOf("", details, 4)
	refused(t, err, ErrNameEmpty)
	_, err = AliveOf("a", Details{}, 4)
	refused(t, err, ErrBadAddress)
	long := strings.Repeat("n", 1024)
	details.Meta = make([]byte, 512)
	if packet := must[[]byte](t)(AliveOf(long, details, 1<<32-1)); len(packet) > longest {
		t.Error(len(packet))
	}
}
