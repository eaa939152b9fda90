package swimtab

// #include <swimtab.h>
//
// static swimtab_details peer(const void *name, size_t name_len, const void *addr, size_t addr_len, uint16_t port) {
//     swimtab_details details = SWIMTAB_DETAILS_INIT;
//     details.name = name, details.name_len = name_len;
//     details.addr = addr, details.addr_len = addr_len;
//     details.port = port;
//     return details;
// }
//
// static swimtab_written ping_of(uint32_t seq, const void *name, size_t name_len, const void *source,
//                                size_t source_len, const void *addr, size_t addr_len, uint16_t port, void *out,
//                                size_t out_len) {
//     swimtab_details from = peer(source, source_len, addr, addr_len, port);
//     return swimtab_ping_of(seq, name, name_len, &from, out, out_len);
// }
//
// static swimtab_written indirect_of(uint32_t seq, const void *name, size_t name_len, const void *addr,
//                                    size_t addr_len, uint16_t port, bool nack, const void *source,
//                                    size_t source_len, const void *source_addr, size_t source_addr_len,
//                                    uint16_t source_port, void *out, size_t out_len) {
//     swimtab_details target = peer(name, name_len, addr, addr_len, port);
//     swimtab_details from = peer(source, source_len, source_addr, source_addr_len, source_port);
//     return swimtab_indirect_of(seq, &target, nack, &from, out, out_len);
// }
import "C"

import (
	"net/netip"
	"unsafe"
)

// Peer is a member that a ping names: its name and where it is. Each may be empty.
type Peer struct {
	Name string
	Addr netip.Addr
	Port uint16
}

// Probe is what a ping, an indirect ping, an ack or a nack says. What it has not is empty.
type Probe struct {
	Kind       Kind   // KindPing, KindIndirectPing, KindAck or KindNack
	Seq        uint32 // the number that the ack and the nack repeat
	Target     Peer   // the member to ping; a ping has only its name
	Nack       bool   // of an indirect ping: whether a nack is wanted
	Source     Peer   // the member that asks
	Payload    []byte // of an ack: its first 1,024 bytes
	PayloadLen int    // of an ack: how many bytes it has
}

// ReadProbe reads a ping, an indirect ping, an ack or a nack, as memberlist's handlers do: keys that they do not know
// are passed over.
//
// Errors: ErrWrongType if it is another message, ErrNameTooLong, ErrBadAddress, ErrMemory, and the fault at which
// reading stops.
func ReadProbe(message []byte) (Probe, error) {
	first := filled(message)
	var raw C.swimtab_probe
	if err := done(C.swimtab_read(unsafe.Pointer(&first[0]), size(message), &raw)); err != nil {
		return Probe{}, err
	}
	target, _ := netip.AddrFromSlice(viewOf(&raw.addr[0], C.size_t(raw.addr_len)))
	source, _ := netip.AddrFromSlice(viewOf(&raw.source_addr[0], C.size_t(raw.source_addr_len)))
	payload := viewOf(&raw.payload[0], C.size_t(len(raw.payload)))
	if int(raw.payload_len) < len(payload) {
		payload = payload[:raw.payload_len]
	}
	return Probe{
		Kind:       Kind(raw.kind),
		Seq:        uint32(raw.seq),
		Target:     Peer{string(viewOf(&raw.node[0], C.size_t(raw.node_len))), target, uint16(raw.port)},
		Nack:       bool(raw.nack),
		Source:     Peer{string(viewOf(&raw.source[0], C.size_t(raw.source_len))), source, uint16(raw.source_port)},
		Payload:    append([]byte(nil), payload...),
		PayloadLen: int(raw.payload_len),
	}, nil
}

// Ping returns a ping with this number to the member of this name. source is the member that asks, or Peer{}.
//
// Errors: ErrNameTooLong, ErrMemory.
func Ping(seq uint32, name string, source Peer) ([]byte, error) {
	text, origin, addr := textOf(name), textOf(source.Name), source.Addr.AsSlice()
	first := filled(addr)
	return written(longest, func(out []byte) C.swimtab_written {
		return C.ping_of(C.uint32_t(seq), unsafe.Pointer(&text[0]), size(name), unsafe.Pointer(&origin[0]),
			size(source.Name), unsafe.Pointer(&first[0]), size(addr), C.uint16_t(source.Port), unsafe.Pointer(&out[0]),
			size(out))
	})
}

// IndirectPing returns a message that asks a member to ping the target, and to pass on the ack; with nack, to send a
// nack if none comes. source is the member that asks, or Peer{}.
//
// Errors: ErrNameTooLong, ErrMemory.
func IndirectPing(seq uint32, target Peer, nack bool, source Peer) ([]byte, error) {
	text, addr := textOf(target.Name), target.Addr.AsSlice()
	origin, sourceAddr := textOf(source.Name), source.Addr.AsSlice()
	first, second := filled(addr), filled(sourceAddr)
	return written(longest, func(out []byte) C.swimtab_written {
		return C.indirect_of(C.uint32_t(seq), unsafe.Pointer(&text[0]), size(target.Name), unsafe.Pointer(&first[0]),
			size(addr), C.uint16_t(target.Port), C.bool(nack), unsafe.Pointer(&origin[0]), size(source.Name),
			unsafe.Pointer(&second[0]), size(sourceAddr), C.uint16_t(source.Port), unsafe.Pointer(&out[0]), size(out))
	})
}

// Ack returns the ack to a ping with this number. The payload has at most 65,535 bytes; memberlist's members give it
// to their PingDelegate.
//
// Errors: ErrTooLong, ErrMemory.
func Ack(seq uint32, payload []byte) ([]byte, error) {
	first := filled(payload)
	return written(len(payload)+32, func(out []byte) C.swimtab_written {
		return C.swimtab_ack_of(C.uint32_t(seq), unsafe.Pointer(&first[0]), size(payload), unsafe.Pointer(&out[0]),
			size(out))
	})
}

// Nack returns the nack to an indirect ping with this number: the member to ping has not answered.
//
// Errors: ErrMemory.
func Nack(seq uint32) ([]byte, error) {
	return written(32, func(out []byte) C.swimtab_written {
		return C.swimtab_nack_of(C.uint32_t(seq), unsafe.Pointer(&out[0]), size(out))
	})
}
