"""Messages without wrappers: their kinds and parts, pings and answers, packets about members."""

import enum
from ctypes import c_size_t
from dataclasses import dataclass
from typing import Iterable, Iterator, NamedTuple, Optional

from . import _structs as raw
from ._calls import Address, AnyAddress, Data, Name, Peer, address_of, data, details, done, lib
from ._calls import name_bytes, name_text, span, there, uint, written
from .errors import Ended


class Kind(enum.IntEnum):
    """The kind of a message: its first byte, as in memberlist's net.go."""

    PING = 0
    INDIRECT = 1  # asks a member to ping another one
    ACK = 2
    SUSPECT = 3
    ALIVE = 4
    DEAD = 5
    PUSH_PULL = 6
    COMPOUND = 7
    USER = 8  # the bytes behind the first are the program's
    NACK = 11
    ERROR = 13


def kind_of(number: int) -> int:
    """The Kind of this number, or the number itself if there is none."""
    try:
        return Kind(number)
    except ValueError:
        return number


class Message(NamedTuple):
    """A message without wrappers, or a part of one."""

    kind: int  # a Kind; of a part it may be another number
    data: bytes


def parts(message: Data) -> Iterator[Message]:
    """The whole parts of a compound packet; any other message is its own part."""
    message = data(message)
    index = 0
    while True:
        place = lib.swimtab_part(*span(message), index)
        if not there(place.status):
            return
        yield Message(kind_of(place.kind), message[place.at : place.at + place.len])
        index += 1


class Progress:
    """How far a stream that comes in pieces has been read. Each stream has its own."""

    def __init__(self) -> None:
        self._progress = raw.RawProgress()

    def whole(self, stream: Data) -> Optional[int]:
        """The length of the stream if all of it has come, or None if more bytes are needed.

        Pass all bytes that came so far each time. Any other error than Memory means that they are
        no stream, whatever follows.
        """
        stream = data(stream)
        status = lib.swimtab_whole(self._progress, *span(stream))
        if status == Ended.status:
            return None
        done(status)
        return int(self._progress.at + self._progress.user_len)


# ---------------------------------------------------------------------- pings and answers


@dataclass(frozen=True)
class Probe:
    """What a ping, an indirect ping, an ack or a nack says. The rest is 0, None or empty."""

    kind: Kind
    seq: int  # the number that the ack and the nack repeat
    node: str  # the member to ping
    address: Optional[Address]  # of an indirect ping: the address of the member to ping
    port: int
    source: str  # the member that asks
    source_address: Optional[Address]
    source_port: int
    nack: bool  # of an indirect ping: whether a nack is wanted
    payload: bytes  # of an ack: the first 1,024 bytes
    payload_len: int  # of an ack: the length of all


def read_probe(message: Data) -> Probe:
    """Reads a ping, an indirect ping, an ack or a nack. Any other message is WrongType."""
    message, seen = data(message), raw.RawProbe()
    done(lib.swimtab_read(*span(message), seen))
    return Probe(
        kind=Kind(seen.kind),
        seq=seen.seq,
        node=name_text(bytes(seen.node)[: seen.node_len]),
        address=address_of(bytes(seen.addr)[: seen.addr_len]),
        port=seen.port,
        source=name_text(bytes(seen.source)[: seen.source_len]),
        source_address=address_of(bytes(seen.source_addr)[: seen.source_addr_len]),
        source_port=seen.source_port,
        nack=seen.nack,
        payload=bytes(seen.payload)[: seen.payload_len],
        payload_len=seen.payload_len,
    )


def ping(seq: int, name: Name, source: Optional[Peer] = None) -> bytes:
    """A ping to the member of this name. `source` is the one that asks: name, address, port."""
    asking = details(*source) if source else None
    return written(lib.swimtab_ping_of, uint(seq, 32), *span(name_bytes(name)), asking)


def indirect_ping(
    seq: int, target: Peer, nack: bool = True, source: Optional[Peer] = None
) -> bytes:
    """Asks a member to ping the target, and, if `nack`, to tell when no ack has come."""
    asking = details(*source) if source else None
    return written(lib.swimtab_indirect_of, uint(seq, 32), details(*target), nack, asking)


def ack(seq: int, payload: Data = b"") -> bytes:
    """The ack to the ping with this number. Its payload has at most 65,535 bytes."""
    payload = data(payload)
    return written(lib.swimtab_ack_of, uint(seq, 32), *span(payload), room=len(payload) + 32)


def nack(seq: int) -> bytes:
    """The nack to the indirect ping with this number."""
    return written(lib.swimtab_nack_of, uint(seq, 32))


# ---------------------------------------------------------------------- other messages


def alive_of(
    name: Name,
    addr: AnyAddress,
    port: int = 7946,
    meta: Data = b"",
    versions: Data = b"",
    incarnation: int = 1,
) -> bytes:
    """The packet that says that this member is alive, as another one passes it on."""
    return written(lib.swimtab_alive_of, details(name, addr, port, meta, versions, incarnation))


def suspect_of(source: Name, name: Name, incarnation: int) -> bytes:
    """The packet by which the member `source` suspects the member of this name."""
    names = *span(name_bytes(source)), *span(name_bytes(name))
    return written(lib.swimtab_suspect_of, *names, uint(incarnation, 32))


def dead_of(source: Name, name: Name, incarnation: int) -> bytes:
    """The packet by which `source` declares the member of this name dead; itself, it leaves."""
    names = *span(name_bytes(source)), *span(name_bytes(name))
    return written(lib.swimtab_dead_of, *names, uint(incarnation, 32))


def user(message: Data) -> bytes:
    """A user message with these bytes, for the program that uses memberlist at the other end."""
    message = data(message)
    return written(lib.swimtab_user_of, *span(message), room=len(message) + 1)


def compound(packets: Iterable[Data]) -> bytes:
    """One compound packet from up to 255 packets."""
    each = [data(packet) for packet in packets]
    joined, lens = b"".join(each), (c_size_t * len(each))(*map(len, each))
    room = 2 + 2 * len(each) + len(joined)
    return written(lib.swimtab_compound, *span(joined), lens, len(each), room=room)
