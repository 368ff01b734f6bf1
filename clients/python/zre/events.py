"""The events of a node, as values.

Octets are bytes, identities are `uuid.UUID`. Properties that end in `text` are the same for people: UTF-8, where an
octet that isn't valid is written \\xNN.
"""
from dataclasses import dataclass, field
from typing import ClassVar, Mapping, Optional, Tuple
from uuid import UUID


def as_text(octets: bytes) -> str:
    """Octets for people: UTF-8, and \\xNN for each octet that isn't."""
    return octets.decode("utf-8", "backslashreplace")


def digits(peer: UUID) -> str:
    """An identity as the lines have it: 32 upper-case digits."""
    return "%032X" % peer.int


@dataclass(frozen=True)
class Event:
    """What a node reports."""

    word: ClassVar[str] = ""


@dataclass(frozen=True)
class PeerEvent(Event):
    """An event of a peer: its identity, and the name that it gave itself."""

    peer: UUID
    name: bytes

    @property
    def name_text(self) -> str:
        return as_text(self.name)


@dataclass(frozen=True)
class Enter(PeerEvent):
    """The peer greeted: from here on it can be spoken to. `endpoint` is its mailbox, as `tcp://10.0.0.2:49152`."""

    word: ClassVar[str] = "ENTER"
    endpoint: bytes
    headers: Mapping[bytes, bytes] = field(default_factory=dict, hash=False)

    @property
    def headers_text(self) -> Mapping[str, str]:
        return {as_text(name): as_text(value) for name, value in self.headers.items()}


@dataclass(frozen=True)
class GroupEvent(PeerEvent):
    """An event of a peer in a group."""

    group: bytes

    @property
    def group_text(self) -> str:
        return as_text(self.group)


@dataclass(frozen=True)
class Join(GroupEvent):
    """The peer joined the group, or says again that it is in it."""

    word: ClassVar[str] = "JOIN"


@dataclass(frozen=True)
class Leave(GroupEvent):
    """The peer left the group, or says so of a group that it wasn't in."""

    word: ClassVar[str] = "LEAVE"


@dataclass(frozen=True)
class Whisper(PeerEvent):
    """The peer sent these frames to this node alone."""

    word: ClassVar[str] = "WHISPER"
    content: Tuple[bytes, ...]

    @property
    def text(self) -> str:
        return as_text(b" ".join(self.content))


@dataclass(frozen=True)
class Shout(GroupEvent):
    """The peer sent these frames to the group."""

    word: ClassVar[str] = "SHOUT"
    content: Tuple[bytes, ...]

    @property
    def text(self) -> str:
        return as_text(b" ".join(self.content))


@dataclass(frozen=True)
class Evasive(PeerEvent):
    """Nothing was heard of the peer for the time `evasive`. It comes again at each tick until something is heard."""

    word: ClassVar[str] = "EVASIVE"


# What each cause of EXIT says, with its numbers.
_CAUSES = {
    "beacon": "it said good-bye",
    "expired": "nothing was heard of it for too long",
    "link": "the connection to it broke or couldn't be opened",
    "reply": "its answer is no stream of a ROUTER: {fault} at octet {0}",
    "slow": "it takes too little: {0} octets wait for it, and {1} more don't fit",
    "shut": "it closed its connection",
    "fault": "what it sent is no stream of a DEALER",
    "taken": "a newer connection with its identity took over",
    "hello": "it greeted twice on one connection",
    "order": "its message {0} was due, and {1} came",
    "limit": "it joined more than 1,024 groups",
    "stop": "this node stops",
}


@dataclass(frozen=True)
class Cause:
    """Why a peer ended: a word of the manual, and what stands after it there.

    `numbers` are the place for `reply`, the octets unsent and the size for `slow`, the number due and the one that
    came for `order`, and none else; `fault` is the reason for `reply`.
    """

    word: str
    numbers: Tuple[int, ...] = ()
    fault: str = ""

    @property
    def text(self) -> str:
        return _CAUSES[self.word].format(*self.numbers, fault=self.fault)


@dataclass(frozen=True)
class Exit(PeerEvent):
    """The peer ended. It comes back as Enter where it is heard of again."""

    word: ClassVar[str] = "EXIT"
    cause: Cause


@dataclass(frozen=True)
class Ignored(Event):
    """What comes on the connection has no effect any more: NotHello, Limit, NoEndpoint or Full."""

    word: ClassVar[str] = "IGNORED"
    connection: int
    reason: str


@dataclass(frozen=True)
class Closed(Event):
    """The node closed the connection: TooMany, Timeout, Taken, or a fault of its stream at the octet `place`."""

    word: ClassVar[str] = "CLOSED"
    connection: int
    reason: str
    place: Optional[int] = None


_REFUSALS = {
    "NOPEER": "no such peer is there",
    "TOOBIG": "the group name or the message is too long",
    "NOGROUP": "the node isn't in this group",
    "SAME": "the node is in this group already",
    "LIMIT": "the node is in 1,024 groups",
    "BADLINE": "the line is no command",
}


@dataclass(frozen=True)
class Refused(Event):
    """What was asked for can't be done.

    `peer` is there for NOPEER, `group` for NOGROUP, SAME and LIMIT, `number` (of the line, from 1) for BADLINE. `line`
    is the line that was refused, where it is known; it takes no part in comparisons.
    """

    word: ClassVar[str] = "REFUSED"
    reason: str
    peer: Optional[UUID] = None
    group: Optional[bytes] = None
    number: Optional[int] = None
    line: Optional[bytes] = field(default=None, compare=False)

    @property
    def text(self) -> str:
        return _REFUSALS[self.reason]


@dataclass(frozen=True)
class Stop(Event):
    """The node stopped. This is its last event."""

    word: ClassVar[str] = "STOP"
