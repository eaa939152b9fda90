"""The calls of the library, and what is passed to them and comes back."""

import ctypes
import ipaddress
from ctypes import POINTER, c_bool, c_char_p, c_size_t, c_uint32, c_uint64
from typing import Any, Callable, Dict, Optional, Tuple, Union

from . import _structs as raw
from ._library import load
from .errors import NoItem, NoMember, TooSmall, error_of

#: Bytes that are passed to a call. The call keeps none of them.
Data = Union[bytes, bytearray, memoryview]
#: A name or a label. Text is encoded as UTF-8, with surrogateescape, as `os.fsencode` does.
Name = Union[str, Data]
Address = Union[ipaddress.IPv4Address, ipaddress.IPv6Address]
#: An address that is passed to a call: 4 or 16 bytes, text, or an object of module `ipaddress`.
AnyAddress = Union[Address, str, Data]
#: A member that pings or is to be pinged: name, address, port. The first two may be empty bytes.
Peer = Tuple[Name, AnyAddress, int]

lib = load()

_NODE, _KEYRING, _DETAILS = POINTER(raw.RawNode), POINTER(raw.RawKeyring), POINTER(raw.RawDetails)
_MEMBER, _BUFFER = POINTER(raw.RawMember), POINTER(raw.RawBuffer)
_VIEW, _SHOWN, _PROGRESS = POINTER(raw.RawView), POINTER(raw.RawViewData), POINTER(raw.RawProgress)
_IN = (c_char_p, c_size_t)
_OUT = (c_char_p, c_size_t)

_CALLS: Dict[str, Tuple[Any, Tuple[Any, ...]]] = {
    "open": (c_uint32, (_NODE, _DETAILS)),
    "update": (raw.RawRefuted, (_NODE, _DETAILS)),
    "close": (c_uint32, (_NODE,)),
    "take": (raw.RawTaken, (_NODE, *_IN)),
    "refute": (raw.RawRefuted, (_NODE,)),
    "alive": (raw.RawWritten, (_NODE, c_uint32, *_OUT)),
    "alive_of": (raw.RawWritten, (_DETAILS, *_OUT)),
    "suspect": (raw.RawWritten, (_NODE, *_IN, c_uint32, *_OUT)),
    "confirm": (raw.RawWritten, (_NODE, *_IN, c_uint32, *_OUT)),
    "leave": (raw.RawWritten, (_NODE, c_uint32, *_OUT)),
    "suspect_of": (raw.RawWritten, (*_IN, *_IN, c_uint32, *_OUT)),
    "dead_of": (raw.RawWritten, (*_IN, *_IN, c_uint32, *_OUT)),
    "compound": (raw.RawWritten, (*_IN, POINTER(c_size_t), c_size_t, *_OUT)),
    "part": (raw.RawPartPlace, (*_IN, c_size_t)),
    "read": (c_uint32, (*_IN, POINTER(raw.RawProbe))),
    "ping_of": (raw.RawWritten, (c_uint32, *_IN, _DETAILS, *_OUT)),
    "indirect_of": (raw.RawWritten, (c_uint32, _DETAILS, c_bool, _DETAILS, *_OUT)),
    "ack_of": (raw.RawWritten, (c_uint32, *_IN, *_OUT)),
    "nack_of": (raw.RawWritten, (c_uint32, *_OUT)),
    "user_of": (raw.RawWritten, (*_IN, *_OUT)),
    "left_out": (c_size_t, (_NODE,)),
    "finish": (raw.RawExchanged, (_NODE, *_IN)),
    "offer_new": (c_uint32, (_NODE, c_bool, c_uint32, *_IN, _BUFFER)),
    "answer_new": (raw.RawExchanged, (_NODE, *_IN, c_uint32, *_IN, _BUFFER)),
    "free": (None, (_BUFFER,)),
    "whole": (c_uint32, (_PROGRESS, *_IN)),
    "keyring_add": (c_uint32, (_KEYRING, *_IN)),
    "keyring_accept_clear": (c_uint32, (_KEYRING,)),
    "keyring_count": (c_size_t, (_KEYRING,)),
    "keyring_key": (raw.RawWritten, (_KEYRING, c_size_t, *_OUT)),
    "keyring_use": (c_uint32, (_KEYRING, c_size_t)),
    "keyring_remove": (c_uint32, (_KEYRING, c_size_t)),
    "keyring_close": (c_uint32, (_KEYRING,)),
    "unwrap_new": (raw.RawUnwrapped, (_KEYRING, *_IN, _BUFFER)),
    "unwrap_stream_new": (raw.RawUnwrapped, (_KEYRING, *_IN, *_IN, _BUFFER)),
    "seal": (raw.RawWritten, (_KEYRING, c_char_p, *_IN, *_IN, *_OUT)),
    "seal_stream": (raw.RawWritten, (_KEYRING, c_char_p, *_IN, c_bool, *_IN, *_OUT)),
    "count": (c_size_t, (_NODE,)),
    "member": (c_uint32, (_NODE, c_size_t, _MEMBER)),
    "find": (c_uint32, (_NODE, *_IN, _MEMBER)),
    "after": (c_uint32, (_NODE, *_IN, _MEMBER)),
    "list_new": (c_uint32, (_NODE, _BUFFER)),
    "relate": (raw.RawRelated, (_NODE, _NODE)),
    "watch": (c_uint32, (_NODE, c_bool)),
    "next_change": (c_uint32, (_NODE, _MEMBER)),
    "forget": (c_uint32, (_NODE, *_IN)),
    "readmit": (c_uint32, (_NODE, *_IN)),
    "view_open": (c_uint32, (_VIEW, c_uint64)),
    "view_close": (c_uint32, (_VIEW,)),
    "view_take": (raw.RawTold, (_VIEW, c_uint64, *_IN, _SHOWN)),
    "view_merge": (raw.RawTold, (_VIEW, c_uint64, _PROGRESS, *_IN, _SHOWN)),
    "view_forget": (c_size_t, (_VIEW, c_uint64)),
    "view_count": (c_size_t, (_VIEW,)),
    "view_find": (c_uint32, (_VIEW, *_IN, _SHOWN)),
    "view_after": (c_uint32, (_VIEW, *_IN, _SHOWN)),
    "view_accuser": (raw.RawWritten, (_VIEW, *_IN, c_size_t, *_OUT)),
    "view_offer": (c_uint32, (_VIEW, c_bool, *_IN, _BUFFER)),
    "fault_name": (c_char_p, (c_uint32,)),
    "fault_text": (c_char_p, (c_uint32,)),
}
for _name, (_result, _arguments) in _CALLS.items():
    _call = getattr(lib, "swimtab_" + _name)
    _call.restype, _call.argtypes = _result, _arguments


def fault_name(status: int) -> str:
    """The name of a status in docs/faults.md."""
    return str(lib.swimtab_fault_name(uint(status, 32)).decode())


def fault_text(status: int) -> str:
    """What a status means, as a sentence."""
    return str(lib.swimtab_fault_text(uint(status, 32)).decode())


def version() -> str:
    """The version of the library that was loaded: "0.3.0"."""
    number = int(lib.swimtab_version())
    return f"{number // 10000}.{number // 100 % 100}.{number % 100}"


def done(status: int) -> None:
    """Raises the error of a status, if the call was refused."""
    if status:
        name, text = fault_name(status), fault_text(status).rstrip(".")
        raise error_of(status, f"fault {status} {name}: {text[:1].lower()}{text[1:]}")


def there(status: int) -> bool:
    """Whether there is such a member or item; raises the error of any other refusal."""
    if status in (NoMember.status, NoItem.status):
        return False
    done(status)
    return True


def uint(value: int, bits: int) -> int:
    """Refuses a number that its field cannot hold, which ctypes would cut off."""
    if not 0 <= value < 1 << bits:
        raise OverflowError(f"{value} is not a number from 0 to {(1 << bits) - 1}")
    return value


def data(value: Data) -> bytes:
    if isinstance(value, bytes):
        return value
    if isinstance(value, (bytearray, memoryview)):
        return bytes(value)
    raise TypeError(f"expected bytes, not {type(value).__name__}")


def name_bytes(value: Name) -> bytes:
    return value.encode("utf-8", "surrogateescape") if isinstance(value, str) else data(value)


def name_text(value: bytes) -> str:
    return value.decode("utf-8", "surrogateescape")


def address_bytes(value: AnyAddress) -> bytes:
    if isinstance(value, str):
        value = ipaddress.ip_address(value)
    if isinstance(value, (ipaddress.IPv4Address, ipaddress.IPv6Address)):
        return value.packed
    return data(value)


def address_of(value: bytes) -> Optional[Address]:
    return ipaddress.ip_address(value) if value else None


def span(value: bytes) -> Tuple[bytes, int]:
    """The two arguments that bytes are for a call."""
    return value, len(value)


def details(
    name: Name,
    addr: AnyAddress,
    port: int,
    meta: Data = b"",
    versions: Data = b"",
    incarnation: int = 1,
) -> raw.RawDetails:
    """The details of a member, which hold on to the bytes that they name."""
    parts = name_bytes(name), address_bytes(addr), data(meta), data(versions)
    fields = (field for part in parts for field in span(part))
    return raw.RawDetails(raw.DETAILS_SIZE, *fields, uint(incarnation, 32), uint(port, 16))


def written(call: Callable[..., Any], *arguments: Any, room: int = raw.MAX_PACKET_LEN) -> bytes:
    """The bytes that a call writes. `room` is how many they are likely to be."""
    while True:
        out = ctypes.create_string_buffer(max(room, 1))
        result = call(*arguments, out, room)
        if result.status != TooSmall.status:
            done(result.status)
            return ctypes.string_at(out, result.len)
        room = result.len


def buffered(call: Callable[..., Any], *arguments: Any) -> Tuple[Any, bytes]:
    """What a call returns that leaves bytes in memory of the library, and those bytes."""
    buffer = raw.RawBuffer()
    try:
        result = call(*arguments, buffer)
        return result, ctypes.string_at(buffer.at, buffer.len) if buffer.at else b""
    finally:
        lib.swimtab_free(buffer)
