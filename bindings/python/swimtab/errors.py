"""The errors of refused calls: a class for each status of swimtab.h, by its name there.

A refused call has changed nothing. docs/faults.md has the faults, by the same numbers.
"""

from typing import Any, Dict, Type


class SwimtabError(Exception):
    """A call was refused. `status` is the number of the fault."""

    status: int = 0

    def __init_subclass__(cls, status: int = 0, **others: Any) -> None:
        super().__init_subclass__(**others)
        if status:
            cls.status = status
            _BY_STATUS[status] = cls


_BY_STATUS: Dict[int, Type[SwimtabError]] = {}


def error_of(status: int, text: str) -> SwimtabError:
    """The error of a status, with a text that says what is wrong."""
    error = _BY_STATUS.get(status, SwimtabError)(text)
    error.status = status
    return error


class Ended(SwimtabError, status=1):
    """The bytes end too soon. Of a stream, more may help."""


class NotUnsigned(SwimtabError, status=2):
    """Expected a number that is not negative."""


class OutOfRange(SwimtabError, status=3):
    """A number is above the maximum of its field."""


class NotBool(SwimtabError, status=4):
    """Expected a boolean."""


class NotRaw(SwimtabError, status=5):
    """Expected text or bytes."""


class TooLong(SwimtabError, status=6):
    """Text or bytes are longer than their field allows."""


class NotMap(SwimtabError, status=7):
    """Expected a map."""


class MapCount(SwimtabError, status=8):
    """A map has more pairs than the message has fields."""


class Memory(SwimtabError, status=10):
    """There is no memory. The call may be repeated."""


class NameEmpty(SwimtabError, status=11):
    """A name is empty."""


class NameTooLong(SwimtabError, status=12):
    """A name has more than 1,024 bytes."""


class BadAddress(SwimtabError, status=13):
    """An address does not have 4 or 16 bytes."""


class MetaTooLong(SwimtabError, status=14):
    """Metadata has more than 512 bytes."""


class BadVersions(SwimtabError, status=15):
    """Versions do not have 0 or 6 bytes."""


class WrongType(SwimtabError, status=16):
    """It is a message of another type."""


class UnknownKey(SwimtabError, status=17):
    """A map has a key that the message does not have."""


class DuplicateKey(SwimtabError, status=18):
    """A map has a key twice."""


class BadState(SwimtabError, status=19):
    """A state is not 0, 1, 2 or 3."""


class TooManyNodes(SwimtabError, status=20):
    """A stream announces more than 131,072 members."""


class UserTooLong(SwimtabError, status=21):
    """A stream has more than 20,971,520 bytes of user state."""


class Trailing(SwimtabError, status=22):
    """Bytes follow the end."""


class TooManyRecords(SwimtabError, status=23):
    """A table has more than 131,072 records, too many for a stream."""


class Exhausted(SwimtabError, status=24):
    """There is no greater incarnation."""


class Gone(SwimtabError, status=25):
    """The member was declared dead, or left."""


class WrapperEnded(SwimtabError, status=40):
    """A wrapper or compressed bytes end too soon."""


class WrapperTrailing(SwimtabError, status=41):
    """Bytes follow a compression or its last code."""


class BadCode(SwimtabError, status=42):
    """A compression has a code that is not in the dictionary."""


class BadChecksum(SwimtabError, status=43):
    """A checksum is wrong."""


class BadMap(SwimtabError, status=44):
    """The map of a compression is invalid."""


class BadAlgo(SwimtabError, status=45):
    """A compression is not LZW."""


class BadLabel(SwimtabError, status=46):
    """A label is empty."""


class TooLarge(SwimtabError, status=47):
    """Wrapped bytes, or what they unwrap to, exceed the limit."""


class TooDeep(SwimtabError, status=48):
    """More than 4 wrappers are nested."""


class BadKey(SwimtabError, status=50):
    """A key does not have 16, 24 or 32 bytes."""


class CipherTooLong(SwimtabError, status=51):
    """A label, or what is encrypted, is too long."""


class CipherTooShort(SwimtabError, status=52):
    """Encrypted bytes end too soon."""


class WrongVersion(SwimtabError, status=53):
    """The version of an encryption is not 0 or 1."""


class WrongTag(SwimtabError, status=54):
    """No key decrypts it: the tag does not match."""


class BadPadding(SwimtabError, status=55):
    """Decrypted bytes are not padded."""


class NotEncrypted(SwimtabError, status=56):
    """A stream is not encrypted: its first byte is not 10."""


class CipherTrailing(SwimtabError, status=57):
    """Bytes follow an encrypted stream."""


class Unencrypted(SwimtabError, status=59):
    """It is in the clear, there are keys, and that is not accepted."""


class NoNode(SwimtabError, status=64):
    """The node or the view is closed, or the keyring has no key."""


class NodeThere(SwimtabError, status=65):
    """The handle has a node, a view or an agent already. The calls of this package do not raise it."""


class TooSmall(SwimtabError, status=66):
    """A buffer is too small. The calls of this package do not raise it."""


class NoMember(SwimtabError, status=67):
    """There is no member at this index, or of this name."""


class OwnName(SwimtabError, status=68):
    """A member does not declare itself dead; it leaves."""


class TooManyPackets(SwimtabError, status=69):
    """There are more than 255 packets for one compound packet."""


class BadForm(SwimtabError, status=70):
    """The form has no user state."""


class NoItem(SwimtabError, status=71):
    """There is no key, part or accuser at this index, or no further record or output."""


class KeyInUse(SwimtabError, status=72):
    """The first key encrypts, so it is not removed."""


class NotBack(SwimtabError, status=73):
    """The member has not come back."""


class BadSize(SwimtabError, status=74):
    """The size of a struct is of no version. The calls of this package do not raise it."""


class BadMultiplier(SwimtabError, status=75):
    """A multiplier of a configuration is too large. The calls of this package do not raise it."""


class ShortDatagrams(SwimtabError, status=76):
    """A configuration has datagrams of fewer than 576 bytes. The calls of this package do not raise it."""


class NoSeed(SwimtabError, status=77):
    """The seed of a configuration was never drawn. The calls of this package do not raise it."""
