"""What the tests share: the bytes of real clusters, and small helpers."""

import struct
from pathlib import Path
from typing import Iterator, List, Tuple

import swimtab

ROOT = Path(__file__).resolve().parent.parent.parent.parent
EXAMPLES = ROOT / "examples"
VERSIONS = bytes((1, 5, 2, 0, 0, 0))

#: A ping that a real member sent.
PING = bytes.fromhex(
    "0085a4") + b"Node\xa2d3\xa5SeqNo\x01\xaaSourceAddr\xa4\x7f\0\5\2" + (
    b"\xaaSourceNode\xa2d2\xaaSourcePort\xcd\x1f\x0a")

#: A message, and how Go's crypto wrote it with memberlist's calls, under a key and a label.
KEY16 = bytes.fromhex("10171e252c333a41484f565d646b7279")
LABELLED = b"labelled"
LABELLED_SENT = bytes.fromhex(
    "f40465617374010518b6eda9ae85b3032d0a4fce82ef025099abc4d5e68f21a9fc9eb54669615b149ff295")
LABELLED_STREAM_SENT = bytes.fromhex(
    "f404656173740a0000002501c7baf9e8c9a5ae07b800f654274ded0e46948099ad5b4eebcc79afa0f9e1eb39"
    "28a309dd")

#: A suspicion of the captured cluster with this key.
NEW_KEY = bytes.fromhex("3b91421dae7f570e037c45dd729985efad5f7659103d10134452b9016801a83f")
SUSPECT_SENT = bytes.fromhex(
    "018dccbf33b5e26f3f81a65fd70ea9d69b1348813ba29bc4e9ab063156cc18dc3c55115dc87a942e07e25d6b"
    "cce8164a55ee3c20b4a793b16652643b16b49e34513039e20b")
SUSPECT = b"\x03\x83\xa4From\xa4db-2\xabIncarnation\x01\xa4Node\xa4db-3"


def opened(name: str, last: int, incarnation: int = 1) -> swimtab.Node:
    return swimtab.Node.open(name, bytes((127, 0, 0, last)), 7946, b"m", VERSIONS, incarnation)


def packets(name: str) -> List[bytes]:
    return [bytes.fromhex(line) for line in (EXAMPLES / name).read_text().split()]


def captured(name: str) -> Iterator[Tuple[str, bytes]]:
    """The payloads of a capture of Ethernet and IPv4, each with "udp" or "tcp"."""
    bytes_of = (EXAMPLES / name).read_bytes()
    at = 24
    while at < len(bytes_of):
        (length,) = struct.unpack_from("<I", bytes_of, at + 8)
        packet = bytes_of[at + 16 + 14 : at + 16 + length]
        at += 16 + length
        (total,) = struct.unpack_from(">H", packet, 2)
        inner = packet[4 * (packet[0] & 15) : total]
        if packet[9] == 17:
            yield "udp", inner[8:]
        elif packet[9] == 6 and len(inner) > 4 * (inner[12] >> 4):
            yield "tcp", inner[4 * (inner[12] >> 4) :]


def line_of(member: swimtab.Member) -> str:
    """A member as examples/c/follow.c prints it."""
    back = " back" if member.came_back else ""
    return f"{member.name} {member.state} {member.address}:{member.port}{back}"
