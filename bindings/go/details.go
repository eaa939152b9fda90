package swimtab

// #include <swimtab.h>
//
// // C code collects the details, since Go code may not pass a struct with pointers to Go memory.
// static swimtab_details details_of(const void *name, size_t name_len, const void *addr, size_t addr_len,
//                                   uint16_t port, const void *meta, size_t meta_len, const void *vsn,
//                                   size_t vsn_len, uint32_t inc) {
//     swimtab_details details = SWIMTAB_DETAILS_INIT;
//     details.name = name, details.name_len = name_len;
//     details.addr = addr, details.addr_len = addr_len;
//     details.port = port;
//     details.meta = meta, details.meta_len = meta_len;
//     details.vsn = vsn, details.vsn_len = vsn_len;
//     details.inc = inc;
//     return details;
// }
//
// static swimtab_status open_node(swimtab_node *node, const void *name, size_t name_len, const void *addr,
//                                 size_t addr_len, uint16_t port, const void *meta, size_t meta_len,
//                                 const void *vsn, size_t vsn_len, uint32_t inc) {
//     swimtab_details details =
//         details_of(name, name_len, addr, addr_len, port, meta, meta_len, vsn, vsn_len, inc);
//     return swimtab_open(node, &details);
// }
//
// static swimtab_refuted update(swimtab_node *node, const void *addr, size_t addr_len, uint16_t port,
//                               const void *meta, size_t meta_len, const void *vsn, size_t vsn_len) {
//     swimtab_details details = details_of(NULL, 0, addr, addr_len, port, meta, meta_len, vsn, vsn_len, 0);
//     return swimtab_update(node, &details);
// }
//
// static swimtab_written alive_of(const void *name, size_t name_len, const void *addr, size_t addr_len,
//                                 uint16_t port, const void *meta, size_t meta_len, const void *vsn,
//                                 size_t vsn_len, uint32_t inc, void *out, size_t out_len) {
//     swimtab_details details =
//         details_of(name, name_len, addr, addr_len, port, meta, meta_len, vsn, vsn_len, inc);
//     return swimtab_alive_of(&details, out, out_len);
// }
import "C"

import (
	"net/netip"
	"runtime"
	"unsafe"
)

// Details are what a member says about itself. Meta has at most 512 bytes, and Versions 0 or 6 (memberlist accepts
// only members with 6).
type Details struct {
	Addr     netip.Addr
	Port     uint16
	Meta     []byte
	Versions []byte
}

// Open opens the node of the member of this name, which is alive at the incarnation and knows of nobody else yet.
// Close frees it; so does the garbage collector, at some later time.
//
// Errors: ErrNameEmpty, ErrNameTooLong, ErrBadAddress, ErrMetaTooLong, ErrBadVersions, ErrMemory.
func Open(name string, details Details, incarnation uint32) (*Node, error) {
	n := &Node{count: -1}
	text, addr := textOf(name), details.Addr.AsSlice()
	first, meta, versions := filled(addr), filled(details.Meta), filled(details.Versions)
	status := C.open_node(&n.handle, unsafe.Pointer(&text[0]), size(name), unsafe.Pointer(&first[0]), size(addr),
		C.uint16_t(details.Port), unsafe.Pointer(&meta[0]), size(details.Meta), unsafe.Pointer(&versions[0]),
		size(details.Versions), C.uint32_t(incarnation))
	if err := done(status); err != nil {
		return nil, err
	}
	runtime.SetFinalizer(n, func(n *Node) { n.Close() })
	return n, nil
}

// Update gives the member other details. If the table says otherwise (due), the member is then alive with them at the
// incarnation that is returned, as after Refute: send the packet of Alive to the others.
//
// Errors: ErrBadAddress, ErrMetaTooLong, ErrBadVersions, ErrExhausted, ErrGone, ErrMemory, ErrNoNode. Then nothing has
// changed.
func (n *Node) Update(details Details) (incarnation uint32, due bool, err error) {
	addr := details.Addr.AsSlice()
	first, meta, versions := filled(addr), filled(details.Meta), filled(details.Versions)
	n.lock.Lock()
	defer n.lock.Unlock()
	refuted := C.update(&n.handle, unsafe.Pointer(&first[0]), size(addr), C.uint16_t(details.Port),
		unsafe.Pointer(&meta[0]), size(details.Meta), unsafe.Pointer(&versions[0]), size(details.Versions))
	n.changed(bool(refuted.due))
	return uint32(refuted.inc), bool(refuted.due), done(refuted.status)
}

// AliveOf returns the packet that says that another member is alive, as a member passes it on.
//
// Errors: ErrNameEmpty, ErrNameTooLong, ErrBadAddress, ErrMetaTooLong, ErrBadVersions, ErrMemory.
func AliveOf(name string, details Details, incarnation uint32) ([]byte, error) {
	text, addr := textOf(name), details.Addr.AsSlice()
	first, meta, versions := filled(addr), filled(details.Meta), filled(details.Versions)
	return written(longest, func(out []byte) C.swimtab_written {
		return C.alive_of(unsafe.Pointer(&text[0]), size(name), unsafe.Pointer(&first[0]), size(addr),
			C.uint16_t(details.Port), unsafe.Pointer(&meta[0]), size(details.Meta), unsafe.Pointer(&versions[0]),
			size(details.Versions), C.uint32_t(incarnation), unsafe.Pointer(&out[0]), size(out))
	})
}
