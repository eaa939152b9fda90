"""What a table knows about a member."""

import enum
from dataclasses import dataclass
from typing import Optional

from . import _structs as raw
from ._calls import Address, address_of, name_text


class State(enum.IntEnum):
    """A member's state."""

    ALIVE = 0
    SUSPECT = 1
    CONFIRM = 2  # declared dead by other members
    LEAVE = 3  # left by itself
    NOTED = 4  # of views alone: an Alive at incarnation 0 gave an address, and is not believed

    def __str__(self) -> str:
        return self.name.lower()

    def __format__(self, spec: str) -> str:
        return format(str(self), spec)


class Relation(enum.IntEnum):
    """How a table relates to another one."""

    EQUAL = 0
    BEHIND = 1  # the other one has more
    AHEAD = 2  # this one has more
    APART = 3  # each has something that the other one does not have


class Form(enum.IntEnum):
    """The form of a stream to write."""

    CANONICAL = 0  # all that the table keeps, in canonical bytes, and no user state
    MEMBERLIST = 1  # what memberlist merges: one record for each member with sound versions


@dataclass(frozen=True)
class Member:
    """A member, as a table had it at the time of the call.

    The address is that of the Alive with the greatest incarnation; it need not be the one that
    came last. Without any Alive it is None, and what follows it is 0 or empty.
    """

    name: str
    state: State
    incarnation: int  # of the state
    came_back: bool  # declared dead or left, and heard of again at a greater incarnation
    address: Optional[Address]
    port: int
    meta: bytes
    versions: bytes
    address_incarnation: int

    @property
    def name_bytes(self) -> bytes:
        """The name as it was sent."""
        return self.name.encode("utf-8", "surrogateescape")


def member_of(seen: raw.RawMember) -> Member:
    """The member that a call copied."""
    return Member(
        name=name_text(bytes(seen.name)[: seen.name_len]),
        state=State(seen.state),
        incarnation=seen.inc,
        came_back=seen.came_back,
        address=address_of(bytes(seen.addr)[: seen.addr_len]),
        port=seen.port,
        meta=bytes(seen.meta)[: seen.meta_len],
        versions=bytes(seen.vsn)[: seen.vsn_len],
        address_incarnation=seen.address_inc,
    )
