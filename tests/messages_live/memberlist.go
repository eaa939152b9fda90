package main

import (
	"bytes"
	"encoding/binary"
	"encoding/hex"
	"fmt"
	"reflect"

	"github.com/hashicorp/go-msgpack/codec"
)

// The structs of memberlist's net.go, which are private there.

type ping struct {
	SeqNo      uint32
	Node       string
	SourceAddr []byte `codec:",omitempty"`
	SourcePort uint16 `codec:",omitempty"`
	SourceNode string `codec:",omitempty"`
}

type indirectPingReq struct {
	SeqNo      uint32
	Target     []byte
	Port       uint16
	Node       string
	Nack       bool
	SourceAddr []byte `codec:",omitempty"`
	SourcePort uint16 `codec:",omitempty"`
	SourceNode string `codec:",omitempty"`
}

type ackResp struct {
	SeqNo   uint32
	Payload []byte
}

type nackResp struct {
	SeqNo uint32
}

type errResp struct {
	Error string
}

type suspect struct {
	Incarnation uint32
	Node        string
	From        string
}

type alive struct {
	Incarnation uint32
	Node        string
	Addr        []byte
	Port        uint16
	Meta        []byte
	Vsn         []uint8
}

type dead struct {
	Incarnation uint32
	Node        string
	From        string
}

// The same without `omitempty`, since the codec cannot write an array that leaves out fields.

type wholePing struct {
	SeqNo      uint32
	Node       string
	SourceAddr []byte
	SourcePort uint16
	SourceNode string
}

type wholeIndirectPingReq struct {
	SeqNo      uint32
	Target     []byte
	Port       uint16
	Node       string
	Nack       bool
	SourceAddr []byte
	SourcePort uint16
	SourceNode string
}

// user is a user message: its bytes, which are not encoded.
type user []byte

// fields is one of these structs, by its address.
type fields interface{}

// typeOf is the first byte of a message with these fields.
func typeOf(message fields) byte {
	switch message.(type) {
	case *ping:
		return 0
	case *indirectPingReq:
		return 1
	case *ackResp:
		return 2
	case *suspect:
		return 3
	case *alive:
		return 4
	case *dead:
		return 5
	case *user:
		return 8
	case *nackResp:
		return 11
	}
	return 13
}

func claimless(message fields) bool {
	kind := typeOf(message)
	return kind < 3 || kind > 5
}

// encode is memberlist's util.go, encode, in one of the two forms of the codec.
func encode(message fields, newForm bool) []byte {
	if bytes, ok := message.(*user); ok {
		return append([]byte{8}, *bytes...)
	}
	return encodeAs(typeOf(message), message, newForm, false)
}

// encodeArray writes the fields of a message as an array.
func encodeArray(message fields, newForm bool) []byte {
	kind := typeOf(message)
	switch m := message.(type) {
	case *ping:
		message = (*wholePing)(m)
	case *indirectPingReq:
		message = (*wholeIndirectPingReq)(m)
	}
	return encodeAs(kind, message, newForm, true)
}

func encodeAs(kind byte, message fields, newForm, asArray bool) []byte {
	buf := bytes.NewBuffer(nil)
	buf.WriteByte(kind)
	hd := codec.MsgpackHandle{WriteExt: newForm}
	hd.StructToArray = asArray
	if err := codec.NewEncoder(buf, &hd).Encode(message); err != nil {
		panic(err)
	}
	return buf.Bytes()
}

// decode is memberlist's util.go, decode, with the options of the codec.
func decode(buf []byte, out interface{}, hd *codec.MsgpackHandle) error {
	r := bytes.NewReader(buf)
	dec := codec.NewDecoder(r, hd)
	return dec.Decode(out)
}

// memberlists has the options of memberlist. Maps in the values of unknown keys become maps of Go, so that one is
// refused if Go cannot hash a key, and mostly if a key comes twice.
func memberlists() *codec.MsgpackHandle {
	return &codec.MsgpackHandle{}
}

// listed has the same options, but for maps in the values of unknown keys, which become lists: their keys do not
// matter.
func listed() *codec.MsgpackHandle {
	hd := &codec.MsgpackHandle{}
	hd.MapType = reflect.TypeOf([]interface{}(nil))
	return hd
}

// decodeMessage decodes a message as the handlers of net.go do.
func decodeMessage(message []byte, hd *codec.MsgpackHandle) (out fields, err error) {
	if len(message) == 0 {
		return nil, fmt.Errorf("no bytes")
	}
	switch message[0] {
	case 0:
		out = &ping{}
	case 1:
		out = &indirectPingReq{}
	case 2:
		out = &ackResp{}
	case 3:
		out = &suspect{}
	case 4:
		out = &alive{}
	case 5:
		out = &dead{}
	case 8:
		rest := user(message[1:])
		return &rest, nil
	case 11:
		out = &nackResp{}
	case 13:
		out = &errResp{}
	default:
		return nil, fmt.Errorf("unknown type")
	}
	return out, decode(message[1:], out, hd)
}

func digits(bytes []byte) string {
	if len(bytes) == 0 {
		return "-"
	}
	return hex.EncodeToString(bytes)
}

// told is what message_lines prints about a message, without the bytes that are written anew.
func told(message fields) string {
	switch m := message.(type) {
	case *ping:
		return fmt.Sprintf("ping %d %s %s %d %s", m.SeqNo, digits([]byte(m.Node)), digits(m.SourceAddr), m.SourcePort,
			digits([]byte(m.SourceNode)))
	case *indirectPingReq:
		return fmt.Sprintf("indirect %d %s %d %s %t %s %d %s", m.SeqNo, digits(m.Target), m.Port, digits([]byte(m.Node)),
			m.Nack, digits(m.SourceAddr), m.SourcePort, digits([]byte(m.SourceNode)))
	case *ackResp:
		return fmt.Sprintf("ack %d %s", m.SeqNo, digits(m.Payload))
	case *nackResp:
		return fmt.Sprintf("nack %d", m.SeqNo)
	case *errResp:
		return fmt.Sprintf("error %s", digits([]byte(m.Error)))
	case *user:
		return fmt.Sprintf("user %s", digits(*m))
	case *suspect:
		return accusation("suspect", m.Incarnation, m.Node, m.From)
	case *dead:
		if m.From == m.Node {
			return accusation("leave", m.Incarnation, m.Node, m.From)
		}
		return accusation("confirm", m.Incarnation, m.Node, m.From)
	case *alive:
		switch {
		case len(m.Node) == 0:
			return "refused NameEmpty"
		case len(m.Node) > 1024:
			return "refused TooLong"
		case len(m.Addr) != 4 && len(m.Addr) != 16:
			return "refused BadAddress"
		case len(m.Meta) > 512:
			return "refused TooLong"
		case len(m.Vsn) != 0 && len(m.Vsn) != 6:
			return "refused BadVersions"
		}
		return fmt.Sprintf("alive %d %s %s %d %s %s", m.Incarnation, digits([]byte(m.Node)), digits(m.Addr), m.Port,
			digits(m.Meta), digits(m.Vsn))
	}
	return ""
}

func accusation(kind string, incarnation uint32, node, from string) string {
	switch {
	case len(node) == 0:
		return "refused NameEmpty"
	case len(node) > 1024, len(from) > 1024:
		return "refused TooLong"
	}
	return fmt.Sprintf("%s %d %s %s", kind, incarnation, digits([]byte(node)), digits([]byte(from)))
}

// decodeCompoundMessage is memberlist's util.go, with the number of parts as later versions have it: an int.
func decodeCompoundMessage(buf []byte) (trunc int, parts [][]byte, err error) {
	if len(buf) < 1 {
		err = fmt.Errorf("missing compound length byte")
		return
	}
	numParts := int(buf[0])
	buf = buf[1:]
	if len(buf) < numParts*2 {
		err = fmt.Errorf("truncated len slice")
		return
	}
	lengths := make([]uint16, numParts)
	for i := 0; i < numParts; i++ {
		lengths[i] = binary.BigEndian.Uint16(buf[i*2 : i*2+2])
	}
	buf = buf[numParts*2:]
	for idx, msgLen := range lengths {
		if len(buf) < int(msgLen) {
			trunc = numParts - idx
			return
		}
		slice := buf[:msgLen]
		buf = buf[msgLen:]
		parts = append(parts, slice)
	}
	return
}

// compoundTold is what message_lines prints about a compound message. One that is refused as a whole is no message.
func compoundTold(message []byte) string {
	trunc, parts, err := decodeCompoundMessage(message[1:])
	if err != nil {
		return "refused WrongType { found: 7 }"
	}
	text := ""
	for _, part := range parts {
		text += fmt.Sprintf("part %x\n", part)
	}
	return fmt.Sprintf("%scompound %d %d", text, len(parts), trunc)
}
