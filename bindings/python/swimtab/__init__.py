"""The membership table of a SWIM cluster, over memberlist's messages, around libswimtab.

A Node has no sockets or timers: the program passes in the packets and streams that it received,
and sends those that a call returns. A View is what a member of memberlist shows, by memberlist's
own rules. The repository's docs/EMBEDDING.md is the guide; docs/messages.md has the rules.
"""

from . import errors
from ._calls import Address, AnyAddress, Data, Name, Peer, fault_name, fault_text, version
from ._structs import MAX_PACKET_LEN, NONCE_LEN
from .errors import SwimtabError
from .keyring import Keyring, unwrap, unwrap_stream
from .members import Form, Member, Relation, State
from .messages import Kind, Message, Probe, Progress, ack, alive_of, compound, dead_of
from .messages import indirect_ping, nack, parts, ping, read_probe, suspect_of, user
from .node import Exchange, Node
from .view import Change, Event, Shown, View

__version__ = "0.3.0"

__all__ = [
    "MAX_PACKET_LEN",
    "NONCE_LEN",
    "Address",
    "AnyAddress",
    "Change",
    "Data",
    "Event",
    "Exchange",
    "Form",
    "Keyring",
    "Kind",
    "Member",
    "Message",
    "Name",
    "Node",
    "Peer",
    "Probe",
    "Progress",
    "Relation",
    "Shown",
    "State",
    "SwimtabError",
    "View",
    "ack",
    "alive_of",
    "compound",
    "dead_of",
    "errors",
    "fault_name",
    "fault_text",
    "indirect_ping",
    "nack",
    "parts",
    "ping",
    "read_probe",
    "suspect_of",
    "unwrap",
    "unwrap_stream",
    "user",
    "version",
]
