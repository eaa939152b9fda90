"""The members as memberlist shows them."""

import enum
import ipaddress
import threading
import weakref
from dataclasses import dataclass
from typing import Any, ContextManager, Iterator, List, NamedTuple, Optional

from . import _structs as raw
from ._calls import Address, Data, Name, buffered, data, done, lib, name_bytes, name_text, span
from ._calls import there, uint, written
from ._closing import Closing
from .errors import Ended, Memory, NoItem, NoNode, SwimtabError
from .members import State
from .messages import Kind, Progress, parts


class Event(enum.IntEnum):
    """What changed for a member of a view."""

    JOINED = 1  # a new member: its Alive came in a message
    KNOWN = 2  # a new member: its record came in a stream; or only its address came
    BACK = 3  # it was dead or had left, and is alive
    UPDATED = 4  # it is alive at a greater incarnation, with other metadata or versions
    RENEWED = 5  # it is alive at a greater incarnation, and nothing else changed
    REFUTED = 6  # it was suspected, and is alive at a greater incarnation
    SUSPECTED = 7  # it was alive, and is suspected
    ALSO_SUSPECTED = 8  # one more member suspects it
    DEAD = 9  # another member declared it dead
    LEFT = 10  # it left
    CONFLICT = 11  # another member uses its name at another address, and is not believed

    def __str__(self) -> str:
        return self.name.lower().replace("_", " ")

    def __format__(self, spec: str) -> str:
        return format(str(self), spec)


@dataclass(frozen=True)
class Shown:
    """A member, as a view showed it at the time of the call.

    The address and what follows it are those of the newest Alive that was believed.
    """

    name: str
    state: State
    since: float  # the time at which the state began, in seconds
    incarnation: int  # of the state
    address: Address
    port: int
    meta: bytes
    versions: bytes
    by: Optional[str]  # the last of its accusers, or who declared it dead
    accusers: int  # how many members that are named suspect it, up to 255: `View.accusers`
    rivals: int  # how many other addresses claimed its name since, up to 255

    @property
    def name_bytes(self) -> bytes:
        """The name as it was sent."""
        return self.name.encode("utf-8", "surrogateescape")


class Change(NamedTuple):
    """What changed, and the member as the view now shows it."""

    event: Event
    member: Shown


_CLAIMS = (Kind.ALIVE, Kind.SUSPECT, Kind.DEAD)


class View(Closing):
    """What a member of memberlist shows that hears what the view is told, at these times.

    It follows memberlist's state.go: a member that died or left may come back, and one that is
    suspected stays so until somebody refutes it or declares it dead. It is for a program among
    members that run memberlist; a Node is the other model.

    Times are seconds of any clock that never goes back, as those of `time.monotonic()`; a view
    keeps their microseconds. `View.open` makes a view; it is closed at the end of a `with` block,
    by `close`, or when nothing refers to it any more. The calls of a closed view raise NoNode. Any
    thread may call it: a lock lets one call run at a time.
    """

    def __init__(self) -> None:
        self._handle = raw.RawView()
        # reentrant: a signal handler or finalizer may call while this thread holds it
        self._lock = threading.RLock()
        self._closing = weakref.finalize(self, _close, self._lock, self._handle)

    @classmethod
    def open(cls, wait: float = 30.0) -> "View":
        """Opens a view that shows nobody yet.

        `wait` is for how many seconds a member that died or left is remembered: memberlist's
        GossipToTheDeadTime, 30 in a local network.
        """
        view = cls()
        done(lib.swimtab_view_open(view._handle, _micros(wait)))
        return view

    def close(self) -> None:
        """Frees the view. Closing it again does nothing."""
        self._closing()

    # ------------------------------------------------------------------ telling it

    def take(self, at: float, message: Data) -> Optional[Change]:
        """Tells the claim of a message, not a compound one, that came at this time.

        Returns what changed, or None. Keys that memberlist does not know are passed over, and what
        is said of a name that the view does not know, but for an Alive, changes nothing. The member
        itself is a name like any other. A message that makes no claim is WrongType.
        """
        message, member = data(message), raw.RawViewData()
        with self._lock:
            told = lib.swimtab_view_take(self._handle, _micros(at), *span(message), member)
        return _change(told, member)

    def take_parts(self, at: float, message: Data) -> Iterator[Change]:
        """Tells the claims among the parts of a message, one by one, and yields what they changed.

        Parts that make no claim are passed over. A bad part refuses only itself: the first such
        error is raised after the last part. What the loop does not reach is not told.
        """
        refused: Optional[SwimtabError] = None
        for kind, part in parts(message):
            try:
                change = self.take(at, part) if kind in _CLAIMS else None
            except (Memory, NoNode):
                raise
            except SwimtabError as error:
                refused, change = refused or error, None
            if change is not None:
                yield change
        if refused is not None:
            raise refused

    def merge(self, at: float, stream: Data) -> Iterator[Change]:
        """Tells the records of a push/pull stream, one by one, and yields what they changed.

        The stream is first checked as a whole: it is Ended if more bytes have to come, and any
        other error but Memory means that it is no stream. What the loop does not reach is not told.
        """
        stream = data(stream)
        if Progress().whole(stream) is None:
            done(Ended.status)
        return self._merged(_micros(at), stream)

    def _merged(self, at: int, stream: bytes) -> Iterator[Change]:
        progress, member = raw.RawProgress(), raw.RawViewData()
        while True:
            with self._lock:
                told = lib.swimtab_view_merge(self._handle, at, progress, *span(stream), member)
            if told.status == NoItem.status:
                return
            change = _change(told, member)
            if change is not None:
                yield change

    def forget(self, at: float) -> int:
        """Forgets who at this time has been dead, or has left, for longer than the wait.

        Returns how many these are. memberlist does it at the end of each round of its probes.
        """
        with self._lock:
            return int(lib.swimtab_view_forget(self._handle, _micros(at)))

    # ------------------------------------------------------------------ looking at it

    def __len__(self) -> int:
        """How many members it shows, those that died or left included; 0 after `close`."""
        with self._lock:
            return int(lib.swimtab_view_count(self._handle))

    def find(self, name: Name) -> Optional[Shown]:
        """The member of this name, or None."""
        return self._shown(lib.swimtab_view_find, name)

    def after(self, name: Name) -> Optional[Shown]:
        """The first member whose name is above this one in byte order, or None."""
        return self._shown(lib.swimtab_view_after, name)

    def __contains__(self, name: Name) -> bool:
        return self.find(name) is not None

    def __iter__(self) -> Iterator[Shown]:
        """All members in the byte order of their names. They may change in between."""
        member = self.after(b"")
        while member is not None:
            yield member
            member = self.after(member.name)

    def accusers(self, name: Name) -> List[str]:
        """The names of those that suspect this member, in the order in which they were heard."""
        names: List[str] = []
        name = name_bytes(name)
        with self._lock:
            try:
                while True:
                    arguments = self._handle, *span(name), len(names)
                    names.append(name_text(written(lib.swimtab_view_accuser, *arguments, room=64)))
            except NoItem:
                return names

    def offer(self, join: bool = False, user: Data = b"") -> bytes:
        """What it shows, as a push/pull stream for memberlist, with this user state at its end.

        Members without sound versions are left out, and those that are NOTED. A reply is the same
        stream, from before the other side's stream was merged.
        """
        arguments = join, *span(data(user))
        with self._lock:
            status, stream = buffered(lib.swimtab_view_offer, self._handle, *arguments)
        done(status)
        return stream

    def _shown(self, call: Any, name: Name) -> Optional[Shown]:
        member = raw.RawViewData()
        with self._lock:
            known = there(call(self._handle, *span(name_bytes(name)), member))
        return _shown_of(member) if known else None


def _close(lock: ContextManager[bool], handle: raw.RawView) -> None:
    with lock:
        lib.swimtab_view_close(handle)


def _micros(seconds: float) -> int:
    return uint(round(seconds * 1_000_000), 64)


def _change(told: raw.RawTold, member: raw.RawViewData) -> Optional[Change]:
    done(told.status)
    return Change(Event(told.event), _shown_of(member)) if told.event else None


def _shown_of(seen: raw.RawViewData) -> Shown:
    """The member that a call copied."""
    return Shown(
        name=name_text(bytes(seen.name)[: seen.name_len]),
        state=State(seen.state),
        since=seen.since / 1_000_000,
        incarnation=seen.inc,
        address=ipaddress.ip_address(bytes(seen.addr)[: seen.addr_len]),
        port=seen.port,
        meta=bytes(seen.meta)[: seen.meta_len],
        versions=bytes(seen.vsn)[: seen.vsn_len],
        by=name_text(bytes(seen.by)[: seen.by_len]) or None,
        accusers=seen.accusers,
        rivals=seen.rivals,
    )
