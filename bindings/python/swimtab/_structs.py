"""The structs of swimtab.h, with its layouts."""

from ctypes import Structure, c_bool, c_char_p, c_size_t, c_uint8, c_uint16, c_uint32, c_uint64
from ctypes import c_void_p, sizeof


class RawNode(Structure):
    _fields_ = [("at", c_void_p), ("held", c_bool), ("user", c_void_p)]


class RawKeyring(Structure):
    _fields_ = [("at", c_void_p), ("held", c_bool)]


class RawView(Structure):
    _fields_ = [("at", c_void_p), ("held", c_bool), ("user", c_void_p)]


class RawDetails(Structure):
    _fields_ = [
        ("size", c_size_t),
        ("name", c_char_p),
        ("name_len", c_size_t),
        ("addr", c_char_p),
        ("addr_len", c_size_t),
        ("meta", c_char_p),
        ("meta_len", c_size_t),
        ("vsn", c_char_p),
        ("vsn_len", c_size_t),
        ("inc", c_uint32),
        ("port", c_uint16),
    ]


class RawTaken(Structure):
    _fields_ = [("status", c_uint32), ("news", c_bool)]


class RawWritten(Structure):
    _fields_ = [("status", c_uint32), ("len", c_size_t)]


class RawUnwrapped(Structure):
    _fields_ = [("status", c_uint32), ("kind", c_uint32), ("len", c_size_t)]


class RawPartPlace(Structure):
    _fields_ = [("status", c_uint32), ("kind", c_uint32), ("at", c_size_t), ("len", c_size_t)]


class RawProbe(Structure):
    _fields_ = [
        ("payload_len", c_size_t),
        ("kind", c_uint32),
        ("seq", c_uint32),
        ("port", c_uint16),
        ("source_port", c_uint16),
        ("node_len", c_uint16),
        ("source_len", c_uint16),
        ("addr_len", c_uint8),
        ("source_addr_len", c_uint8),
        ("nack", c_bool),
        ("addr", c_uint8 * 16),
        ("source_addr", c_uint8 * 16),
        ("node", c_uint8 * 1024),
        ("source", c_uint8 * 1024),
        ("payload", c_uint8 * 1024),
        ("reserved", c_uint8 * 32),
    ]


class RawExchanged(Structure):
    _fields_ = [
        ("status", c_uint32),
        ("join", c_bool),
        ("news", c_bool),
        ("used", c_size_t),
        ("len", c_size_t),
    ]


class RawRefuted(Structure):
    _fields_ = [("status", c_uint32), ("due", c_bool), ("inc", c_uint32)]


class RawRelated(Structure):
    _fields_ = [("status", c_uint32), ("relation", c_uint32)]


class RawMember(Structure):
    _fields_ = [
        ("state", c_uint32),
        ("inc", c_uint32),
        ("has_address", c_bool),
        ("came_back", c_bool),
        ("address_inc", c_uint32),
        ("port", c_uint16),
        ("name_len", c_uint16),
        ("meta_len", c_uint16),
        ("addr_len", c_uint8),
        ("vsn_len", c_uint8),
        ("addr", c_uint8 * 16),
        ("vsn", c_uint8 * 6),
        ("meta", c_uint8 * 512),
        ("name", c_uint8 * 1024),
        ("reserved", c_uint8 * 32),
    ]


class RawTold(Structure):
    _fields_ = [("status", c_uint32), ("event", c_uint32)]


class RawViewData(Structure):
    _fields_ = [
        ("since", c_uint64),
        ("state", c_uint32),
        ("inc", c_uint32),
        ("port", c_uint16),
        ("name_len", c_uint16),
        ("meta_len", c_uint16),
        ("by_len", c_uint16),
        ("accusers", c_uint8),
        ("rivals", c_uint8),
        ("addr_len", c_uint8),
        ("vsn_len", c_uint8),
        ("addr", c_uint8 * 16),
        ("vsn", c_uint8 * 6),
        ("meta", c_uint8 * 512),
        ("name", c_uint8 * 1024),
        ("by", c_uint8 * 1024),
        ("reserved", c_uint8 * 32),
    ]


class RawKept(Structure):
    _fields_ = [("at", c_void_p), ("held", c_bool)]


class RawBuffer(Structure):
    _fields_ = [("at", c_void_p), ("len", c_size_t), ("kept", RawKept)]


class RawProgress(Structure):
    _fields_ = [
        ("at", c_size_t),
        ("left", c_uint32),
        ("user_len", c_uint32),
        ("has_header", c_bool),
    ]


#: The length of the longest packet about a member, or ping: SWIMTAB_MAX_PACKET_LEN.
MAX_PACKET_LEN = 2163
#: The length of a nonce: SWIMTAB_NONCE_LEN.
NONCE_LEN = 12
DETAILS_SIZE = sizeof(RawDetails)
