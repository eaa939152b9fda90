"""The table of one member."""

import threading
import weakref
from dataclasses import dataclass
from typing import ContextManager, Iterator, Optional, Tuple

from . import _structs as raw
from ._calls import AnyAddress, Data, Name, buffered, data, details, done, lib, name_bytes, span
from ._calls import there, uint, written
from ._closing import Closing
from .members import Form, Member, Relation, member_of


@dataclass(frozen=True)
class Exchange:
    """What came of a stream that was taken in."""

    join: bool  # the join flag of the stream
    news: bool  # whether the table changed
    used: int  # the length of the stream; bytes after it were not read


class Node(Closing):
    """What one member of a cluster knows: who it is, and a table of all that it has heard of.

    `Node.open` makes one; a node is closed at the end of a `with` block, by `close`, or when
    nothing refers to it any more. The calls of a closed node raise NoNode. Any thread may call it:
    a lock lets one call run at a time.
    """

    def __init__(self) -> None:
        self._handle = raw.RawNode()
        # reentrant: a signal handler or finalizer may call while this thread holds it
        self._lock = threading.RLock()
        self._closing = weakref.finalize(self, _close, self._lock, self._handle)

    @classmethod
    def open(
        cls,
        name: Name,
        addr: AnyAddress,
        port: int = 7946,
        meta: Data = b"",
        versions: Data = b"",
        incarnation: int = 1,
    ) -> "Node":
        """Opens the node of the member with these details, which knows of nobody else yet.

        memberlist accepts only members with 6 bytes of versions: 1, 5, 2, 0, 0, 0 are those of a
        member without a delegate.
        """
        node = cls()
        own = details(name, addr, port, meta, versions, incarnation)
        done(lib.swimtab_open(node._handle, own))
        return node

    def close(self) -> None:
        """Frees the node. Closing it again does nothing."""
        self._closing()

    # ------------------------------------------------------------------ gossip

    def take(self, packet: Data) -> bool:
        """Takes in a packet or compound packet without wrappers. Tells if the table changed.

        A program that gossips passes on the packets that have news. After an error, no claim was
        taken in.
        """
        packet = data(packet)
        with self._lock:
            taken = lib.swimtab_take(self._handle, *span(packet))
        done(taken.status)
        return bool(taken.news)

    def refute(self) -> Optional[int]:
        """Refutes what others say about the member. If it was due, returns the new incarnation.

        Pass that to `alive`, and its packet to the others.
        """
        with self._lock:
            return _incarnation(lib.swimtab_refute(self._handle))

    def update(
        self, addr: AnyAddress, port: int = 7946, meta: Data = b"", versions: Data = b""
    ) -> Optional[int]:
        """Gives the member other details. If they differ, returns an incarnation as `refute`."""
        new = details(b"", addr, port, meta, versions)
        with self._lock:
            return _incarnation(lib.swimtab_update(self._handle, new))

    def alive(self, incarnation: int) -> bytes:
        """The packet that says that the member is alive at this incarnation."""
        with self._lock:
            return written(lib.swimtab_alive, self._handle, uint(incarnation, 32))

    def suspect(self, name: Name, incarnation: int) -> bytes:
        """The packet by which the member suspects another one. The table stays: `take` it."""
        arguments = *span(name_bytes(name)), uint(incarnation, 32)
        with self._lock:
            return written(lib.swimtab_suspect, self._handle, *arguments)

    def confirm(self, name: Name, incarnation: int) -> bytes:
        """The packet by which the member declares another one dead. The table stays."""
        arguments = *span(name_bytes(name)), uint(incarnation, 32)
        with self._lock:
            return written(lib.swimtab_confirm, self._handle, *arguments)

    def leave(self, incarnation: int) -> bytes:
        """The packet by which the member itself leaves. The table stays."""
        with self._lock:
            return written(lib.swimtab_leave, self._handle, uint(incarnation, 32))

    # ------------------------------------------------------------------ exchanges

    def offer(
        self, join: bool = False, form: Form = Form.MEMBERLIST, user: Data = b""
    ) -> bytes:
        """The table as a push/pull stream, which begins an exchange.

        `user` is the user state at its end, which memberlist's delegates read.
        """
        arguments = join, uint(form, 32), *span(data(user))
        with self._lock:
            status, stream = buffered(lib.swimtab_offer_new, self._handle, *arguments)
        done(status)
        return stream

    def dump(self) -> bytes:
        """All that the table keeps, as `swimtab merge` prints it."""
        return self.offer(form=Form.CANONICAL)

    def answer(
        self, stream: Data, form: Form = Form.MEMBERLIST, user: Data = b""
    ) -> Tuple[bytes, Exchange]:
        """Answers an offer: takes the stream in, and returns the table as it was before.

        Call `refute` afterwards. After an error nothing was taken in. After Ended more bytes may
        help.
        """
        arguments = *span(data(stream)), uint(form, 32), *span(data(user))
        with self._lock:
            made, reply = buffered(lib.swimtab_answer_new, self._handle, *arguments)
        return reply, _exchange(made)

    def finish(self, stream: Data) -> Exchange:
        """Takes in a stream: the reply to an offer, or a dump. Call `refute` afterwards."""
        stream = data(stream)
        with self._lock:
            made = lib.swimtab_finish(self._handle, *span(stream))
        return _exchange(made)

    @property
    def left_out(self) -> int:
        """How many members an offer for memberlist leaves out: no sound versions are known."""
        with self._lock:
            return int(lib.swimtab_left_out(self._handle))

    # ------------------------------------------------------------------ looking at the table

    def __len__(self) -> int:
        """How many members there are, itself included unless it forgot itself; 0 after `close`."""
        with self._lock:
            return int(lib.swimtab_count(self._handle))

    def at(self, index: int) -> Member:
        """The member at this index, in the byte order of the names."""
        member = raw.RawMember()
        with self._lock:
            done(lib.swimtab_member(self._handle, uint(index, 64), member))
        return member_of(member)

    def find(self, name: Name) -> Optional[Member]:
        """The member of this name, or None."""
        member = raw.RawMember()
        with self._lock:
            known = there(lib.swimtab_find(self._handle, *span(name_bytes(name)), member))
        return member_of(member) if known else None

    def after(self, name: Name) -> Optional[Member]:
        """The first member whose name is above this one in byte order, or None."""
        member = raw.RawMember()
        with self._lock:
            known = there(lib.swimtab_after(self._handle, *span(name_bytes(name)), member))
        return member_of(member) if known else None

    def __contains__(self, name: Name) -> bool:
        return self.find(name) is not None

    def __iter__(self) -> Iterator[Member]:
        """All members in the byte order of their names. The table may change in between."""
        member = self.after(b"")
        while member is not None:
            yield member
            member = self.after(member.name)

    def listing(self) -> str:
        """The table as `swimtab list` prints it: a line for each member."""
        with self._lock:
            status, listing = buffered(lib.swimtab_list_new, self._handle)
        done(status)
        return listing.decode("ascii")

    def relate(self, other: "Node") -> Relation:
        """How the table relates to that of another node."""
        first, second = sorted((self, other), key=id)
        with first._lock, second._lock:
            related = lib.swimtab_relate(self._handle, other._handle)
        done(related.status)
        return Relation(related.relation)

    # ------------------------------------------------------------------ what changed

    def watch(self, on: bool = True) -> None:
        """Starts to note the names of the members that change, with none noted yet, or stops."""
        with self._lock:
            done(lib.swimtab_watch(self._handle, on))

    def next_change(self) -> Optional[Member]:
        """The member of the first noted name, as it is now, or None. It is no longer noted."""
        member = raw.RawMember()
        with self._lock:
            changed = there(lib.swimtab_next_change(self._handle, member))
        return member_of(member) if changed else None

    def changes(self) -> Iterator[Member]:
        """The members of the noted names. Those that the loop does not reach stay noted."""
        member = self.next_change()
        while member is not None:
            yield member
            member = self.next_change()

    def forget(self, name: Name) -> None:
        """Forgets a name. What comes later is taken in as about a new one, even an old death."""
        with self._lock:
            done(lib.swimtab_forget(self._handle, *span(name_bytes(name))))

    def readmit(self, name: Name) -> None:
        """Believes a member that came back, as memberlist does: only its newest Alive is left."""
        with self._lock:
            done(lib.swimtab_readmit(self._handle, *span(name_bytes(name))))


def _close(lock: ContextManager[bool], handle: raw.RawNode) -> None:
    with lock:
        lib.swimtab_close(handle)


def _incarnation(refuted: raw.RawRefuted) -> Optional[int]:
    done(refuted.status)
    return int(refuted.inc) if refuted.due else None


def _exchange(made: raw.RawExchanged) -> Exchange:
    done(made.status)
    return Exchange(join=made.join, news=made.news, used=made.used)
