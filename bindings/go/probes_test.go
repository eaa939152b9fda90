package swimtab

import (
	"net/netip"
	"reflect"
	"strings"
	"testing"
)

// The messages of this file are those that memberlist writes for the same values; the first one was sent by a member.
const (
	pingSent = "\x00\x85\xa4Node\xa2d3\xa5SeqNo\x01\xaaSourceAddr\xa4\x7f\x00\x05\x02\xaaSourceNode\xa2d2" +
		"\xaaSourcePort\xcd\x1f\x0a"
	pingAlone    = "\x00\x82\xa4Node\xa2d3\xa5SeqNo\xce\x00\x01\x11\x70"
	indirectSent = "\x01\x88\xa4Nack\xc3\xa4Node\xa2d3\xa4Port\xcd\x1f\x0a\xa5SeqNo\x02\xaaSourceAddr" +
		"\xa4\x7f\x00\x05\x02\xaaSourceNode\xa2d2\xaaSourcePort\xcd\x1f\x0a\xa6Target\xa4\x7f\x00\x05\x03"
	indirectAlone = "\x01\x85\xa4Nack\xc2\xa4Node\xa2d3\xa4Port\xcd\x1f\x0a\xa5SeqNo\x02\xa6Target\xa4\x7f\x00\x05\x03"
	ackSent       = "\x02\x82\xa7Payload\xa3pay\xa5SeqNo\x01"
	ackAlone      = "\x02\x82\xa7Payload\xa0\xa5SeqNo\x01"
	nackSent      = "\x0b\x81\xa5SeqNo\xcd\x01\x2c"
)

var (
	d2 = Peer{"d2", netip.AddrFrom4([4]byte{127, 0, 5, 2}), 7946}
	d3 = Peer{"d3", netip.AddrFrom4([4]byte{127, 0, 5, 3}), 7946}
)

func TestProbesAreWritten(t *testing.T) {
	same(t)(Ping(1, "d3", d2))(pingSent)
	same(t)(Ping(70000, "d3", Peer{}))(pingAlone)
	same(t)(IndirectPing(2, d3, true, d2))(indirectSent)
	same(t)(IndirectPing(2, d3, false, Peer{}))(indirectAlone)
	same(t)(Ack(1, []byte("pay")))(ackSent)
	same(t)(Ack(1, nil))(ackAlone)
	same(t)(Nack(300))(nackSent)
}

func TestProbesAreRead(t *testing.T) {
	for message, wanted := range map[string]Probe{
		pingSent:                               {Kind: KindPing, Seq: 1, Target: Peer{Name: "d3"}, Source: d2},
		pingAlone:                              {Kind: KindPing, Seq: 70000, Target: Peer{Name: "d3"}},
		indirectSent:                           {Kind: KindIndirectPing, Seq: 2, Target: d3, Nack: true, Source: d2},
		indirectAlone:                          {Kind: KindIndirectPing, Seq: 2, Target: d3},
		ackSent:                                {Kind: KindAck, Seq: 1, Payload: []byte("pay"), PayloadLen: 3},
		ackAlone:                               {Kind: KindAck, Seq: 1},
		nackSent:                               {Kind: KindNack, Seq: 300},
		"\x02\x82\xa7Payload\xc0\xa5SeqNo\x01": {Kind: KindAck, Seq: 1},
		"\x0b\x82\xa3New\x05\xa5SeqNo\x01":     {Kind: KindNack, Seq: 1},
	} {
		if told := must[Probe](t)(ReadProbe([]byte(message))); !reflect.DeepEqual(told, wanted) {
			t.Errorf("%x: %v, wanted %v", message, told, wanted)
		}
	}
}

func TestLongProbesAreWrittenAndRead(t *testing.T) {
	wide := Peer{strings.Repeat("n", 1024), netip.MustParseAddr("fe80::1"), 65535}
	message := must[[]byte](t)(IndirectPing(1<<32-1, wide, true, wide))
	told := must[Probe](t)(ReadProbe(message))
	if len(message) > longest || told.Target != wide || told.Source != wide || told.Seq != 1<<32-1 {
		t.Error(len(message), told)
	}
	payload := []byte(strings.Repeat("0123456789abcdef", 4096)[1:])
	told = must[Probe](t)(ReadProbe(must[[]byte](t)(Ack(7, payload))))
	if told.PayloadLen != 65535 || string(told.Payload) != string(payload[:1024]) || told.Seq != 7 {
		t.Error(told.PayloadLen, len(told.Payload))
	}
}

func TestProbesAreRefused(t *testing.T) {
	long := Peer{Name: strings.Repeat("n", 1025)}
	_, err := Ping(1, long.Name, Peer{})
	refused(t, err, ErrNameTooLong)
	_, err = Ping(1, "d3", long)
	refused(t, err, ErrNameTooLong)
	_, err = IndirectPing(1, long, true, Peer{})
	refused(t, err, ErrNameTooLong)
	_, err = Ack(1, make([]byte, 65536))
	refused(t, err, ErrTooLong)
	for message, wanted := range map[string]Error{
		"":     ErrEnded,
		"\x08": ErrWrongType,
		"\x03\x83\xa4From\xa1a\xabIncarnation\x04\xa4Node\xa1b": ErrWrongType,
		"\x00":                          ErrEnded,
		"\x00\x05":                      ErrNotMap,
		"\x0b\x81\xa5SeqNo\xc2":         ErrNotUnsigned,
		"\x00\x81\xaaSourceAddr\xa3123": ErrBadAddress,
		"\x00\x81\xa4Node\xda\x04\x01" + strings.Repeat("n", 1025): ErrNameTooLong,
	} {
		_, err := ReadProbe([]byte(message))
		refused(t, err, wanted)
	}
}

func TestClaimsOfOthersAreWritten(t *testing.T) {
	same(t)(SuspectOf("a", "b", 4))("\x03\x83\xa4From\xa1a\xabIncarnation\x04\xa4Node\xa1b")
	same(t)(DeadOf("", "b", 4))("\x05\x83\xa4From\xa0\xabIncarnation\x04\xa4Node\xa1b")
	a := opened(t, "a", 1)
	same(t)(SuspectOf("a", "b", 4))(string(must[[]byte](t)(a.Suspect("b", 4))))
	same(t)(DeadOf("a", "b", 4))(string(must[[]byte](t)(a.Confirm("b", 4))))
	same(t)(DeadOf("a", "a", 4))(string(must[[]byte](t)(a.Leave(4))))
	_, err := SuspectOf("a", "", 4)
	refused(t, err, ErrNameEmpty)
	_, err = DeadOf(strings.Repeat("n", 1025), "b", 4)
	refused(t, err, ErrNameTooLong)
}
