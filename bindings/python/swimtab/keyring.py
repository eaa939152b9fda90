"""The keys of a cluster, and messages as its members send them."""

import os
import threading
import weakref
from typing import ContextManager, List, Optional

from . import _structs as raw
from ._calls import Data, Name, buffered, data, done, lib, name_bytes, span, uint, written
from ._closing import Closing
from .messages import Message, kind_of

_MOST_ADDED = 2 + 5 + 1 + raw.NONCE_LEN + 16  # to a label and a message by `seal`


class Keyring(Closing):
    """A cluster's keys, or none. The first key encrypts; to decrypt, all are tried in order.

    Without a key, it reads and writes what is not encrypted. With keys it refuses to read that, as
    memberlist does by default, unless `accept_clear` was called. The keys are overwritten at the
    end of a `with` block, by `close`, or when nothing refers to the keyring any more. Any thread
    may call it: a lock lets one call run at a time.
    """

    def __init__(self, *keys: Data) -> None:
        self._handle = raw.RawKeyring()
        # reentrant: a signal handler or finalizer may call while this thread holds it
        self._lock = threading.RLock()
        weakref.finalize(self, _close, self._lock, self._handle)
        for key in keys:
            self.add(key)

    def close(self) -> None:
        """Overwrites the keys. The keyring is then empty, and keys may be added again."""
        _close(self._lock, self._handle)

    def add(self, key: Data) -> None:
        """Adds a key of 16, 24 or 32 bytes after those that are there."""
        with self._lock:
            done(lib.swimtab_keyring_add(self._handle, *span(data(key))))

    def keys(self) -> List[bytes]:
        """The keys; the first one encrypts."""
        with self._lock:
            count = int(lib.swimtab_keyring_count(self._handle))
            key = lib.swimtab_keyring_key
            return [written(key, self._handle, i, room=32) for i in range(count)]

    def __len__(self) -> int:
        with self._lock:
            return int(lib.swimtab_keyring_count(self._handle))

    def use(self, index: int) -> None:
        """From now on the key at this index encrypts: it and the first one change places."""
        with self._lock:
            done(lib.swimtab_keyring_use(self._handle, uint(index, 64)))

    def remove(self, index: int) -> None:
        """Removes and overwrites the key at this index, which is not the first one."""
        with self._lock:
            done(lib.swimtab_keyring_remove(self._handle, uint(index, 64)))

    def rotate(self, key: Data) -> None:
        """From now on this key encrypts; it is added if it is not there. The others still decrypt.

        A cluster changes its key in three steps, each on all members: `add` the new key; `rotate`
        to it; `remove` the old one.
        """
        key = data(key)
        with self._lock:
            if key not in self.keys():
                self.add(key)
            self.use(self.keys().index(key))

    def accept_clear(self) -> None:
        """From now on reads what is in the clear too, until `close`; without a key, NoNode."""
        with self._lock:
            done(lib.swimtab_keyring_accept_clear(self._handle))

    def unwrap(self, packet: Data) -> Message:
        """The message in a packet, one UDP payload as a member sends it, without its wrappers."""
        packet = data(packet)
        with self._lock:
            return _unwrap(self._handle, packet)

    def unwrap_stream(self, stream: Data, label: Name = b"") -> Message:
        """The message in the bytes of one direction of a TCP connection, in the same way.

        `label` is that of the cluster. After Ended more bytes may help.
        """
        stream = data(stream)
        with self._lock:
            return _unwrap_stream(self._handle, stream, label)

    def seal(self, message: Data, label: Name = b"", nonce: Optional[Data] = None) -> bytes:
        """A packet with this message, as memberlist sends it: the label, the encrypted message.

        The nonce is drawn at random unless it is passed. Never use one twice with a key: whoever
        sees both messages can read them, and forge others.
        """
        text, message = name_bytes(label), data(message)
        room = len(text) + len(message) + _MOST_ADDED
        arguments = _nonce(nonce), *span(text), *span(message)
        with self._lock:
            return written(lib.swimtab_seal, self._handle, *arguments, room=room)

    def seal_stream(
        self, message: Data, label: Name = b"", nonce: Optional[Data] = None, reply: bool = False
    ) -> bytes:
        """A stream with this message, in the same way.

        `reply` is False on the side that opened the connection, and True on the other side.
        """
        text, message = name_bytes(label), data(message)
        room = len(text) + len(message) + _MOST_ADDED
        arguments = _nonce(nonce), *span(text), reply, *span(message)
        with self._lock:
            return written(lib.swimtab_seal_stream, self._handle, *arguments, room=room)


def unwrap(packet: Data) -> Message:
    """The message in a packet of a cluster without a key. An encrypted one comes back as it is."""
    return _unwrap(None, data(packet))


def unwrap_stream(stream: Data, label: Name = b"") -> Message:
    """The message in a stream of a cluster without a key."""
    return _unwrap_stream(None, data(stream), label)


def _unwrap(handle: Optional[raw.RawKeyring], packet: bytes) -> Message:
    unwrapped, message = buffered(lib.swimtab_unwrap_new, handle, *span(packet))
    done(unwrapped.status)
    return Message(kind_of(unwrapped.kind), message)


def _unwrap_stream(handle: Optional[raw.RawKeyring], stream: bytes, label: Name) -> Message:
    arguments = *span(name_bytes(label)), *span(stream)
    unwrapped, message = buffered(lib.swimtab_unwrap_stream_new, handle, *arguments)
    done(unwrapped.status)
    return Message(kind_of(unwrapped.kind), message)


def _nonce(nonce: Optional[Data]) -> bytes:
    drawn = os.urandom(raw.NONCE_LEN) if nonce is None else data(nonce)
    if len(drawn) != raw.NONCE_LEN:
        raise ValueError(f"a nonce has {raw.NONCE_LEN} bytes, not {len(drawn)}")
    return drawn


def _close(lock: ContextManager[bool], handle: raw.RawKeyring) -> None:
    with lock:
        lib.swimtab_keyring_close(handle)
