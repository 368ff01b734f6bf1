"""Messages of version 2 of RFC 36, what a peer shows by them, and the lines that tell of them."""
from __future__ import annotations

from dataclasses import dataclass
from functools import lru_cache
from typing import Dict, List, NamedTuple, Optional, Tuple

# How many of the last answers to the same question are kept, where a question comes often.
KEPT = 4096
HELLO, WHISPER, SHOUT, JOIN, LEAVE, PING, PING_OK = range(1, 8)
NAMES = dict(enumerate("HELLO WHISPER SHOUT JOIN LEAVE PING PING-OK".split(), 1))
GROUPS, GROUP_OCTETS, HEADERS = 1_024, 255, 256
# How each octet is quoted.
QUOTED = [chr(octet) if 0x21 <= octet <= 0x7e and octet not in b"%~=," else f"%{octet:02X}" for octet in range(256)]
Pairs = List[Tuple[bytes, bytes]]


@dataclass(eq=False)
class Bad(Exception):
    """Why the frames of a message mean nothing: a reason, a frame and an octet of it, both from 0."""
    why: str
    frame: int
    place: int


class Message(NamedTuple):
    """A message. Fields that its command hasn't are empty; a number outside 1 to 7 is a command without a meaning."""
    command: int
    number: int
    group: bytes = b""
    status: int = 0
    content: Tuple[bytes, ...] = ()
    endpoint: bytes = b""
    name: bytes = b""
    groups: Tuple[bytes, ...] = ()
    headers: Tuple[Tuple[bytes, bytes], ...] = ()


class Said(NamedTuple):
    """What a WHISPER or a SHOUT says: its command, its group and its content."""
    command: int
    group: bytes
    content: Tuple[bytes, ...]


def said_by(message: Message) -> List[Said]:
    """What a message says to a user or a program, if it does."""
    is_said = message.command in (WHISPER, SHOUT)
    return [Said(message.command, message.group, message.content)] if is_said else []


class Fields:
    """The fields of a first frame, one after the other."""

    def __init__(self, octets: bytes) -> None:
        self.octets, self.at = octets, 0

    def take(self, count: int) -> bytes:
        """The next octets; raises Short where there are fewer."""
        if self.at + count > len(self.octets):
            raise Bad("Short", 0, len(self.octets))
        self.at += count
        return self.octets[self.at - count:self.at]

    def number(self, octets: int) -> int:
        return int.from_bytes(self.take(octets), "big")

    def string(self) -> bytes:
        return self.take(self.number(1))

    def long_string(self) -> bytes:
        return self.take(self.number(4))


def read(frames: List[bytes]) -> Message:
    """What the frames mean; raises Bad where they mean nothing."""
    first = frames[0]
    for place, octet, why in ((0, 0xaa, "Signature"), (1, 0xa1, "Signature"), (3, 2, "Version")):
        if place < len(first) and first[place] != octet:
            raise Bad(why, 0, place)
    fields = Fields(first)
    command = fields.take(4)[2]
    number = fields.number(2)
    content = tuple(frames[1:])
    if command == HELLO:
        message = hello(fields, number)
    elif command in (JOIN, LEAVE):
        message = Message(command, number, fields.string(), fields.number(1))
    elif command == SHOUT:
        message = Message(command, number, fields.string(), content=content)
    elif command in (WHISPER, PING, PING_OK):
        message = Message(command, number, content=content if command == WHISPER else ())
    else:
        return Message(command, number)
    if fields.at < len(first):
        raise Bad("Trailing", 0, fields.at)
    if content and command not in (WHISPER, SHOUT):
        raise Bad("ExtraFrames", 1, 0)
    return message


def hello(fields: Fields, number: int) -> Message:
    """The fields of HELLO behind its number."""
    endpoint = fields.string()
    groups = tuple(fields.long_string() for _ in range(fields.number(4)))
    status = fields.number(1)
    name = fields.string()
    headers = tuple((fields.string(), fields.long_string()) for _ in range(fields.number(4)))
    return Message(HELLO, number, b"", status, (), endpoint, name, groups, headers)


def string(octets: bytes) -> bytes:
    return bytes([len(octets)]) + octets


def long_string(octets: bytes) -> bytes:
    return len(octets).to_bytes(4, "big") + octets


def spell(message: Message) -> List[bytes]:
    """The frames of a message, which has one of the seven commands."""
    first = bytes([0xaa, 0xa1, message.command, 2]) + (message.number % 65536).to_bytes(2, "big")
    if message.command in (SHOUT, JOIN, LEAVE):
        first += string(message.group)
    if message.command in (JOIN, LEAVE):
        first += bytes([message.status])
    if message.command == HELLO:
        first += string(message.endpoint) + len(message.groups).to_bytes(4, "big")
        first += b"".join(map(long_string, message.groups)) + bytes([message.status]) + string(message.name)
        first += len(message.headers).to_bytes(4, "big")
        first += b"".join(string(name) + long_string(value) for name, value in message.headers)
    return [first, *message.content]


@lru_cache(KEPT)
def quote(octets: bytes) -> str:
    """Octets as a field: a visible character stands for itself, but for four of them."""
    return "".join(map(QUOTED.__getitem__, octets)) or "~"


def quote_list(members: Tuple[bytes, ...]) -> str:
    return ",".join(map(quote, members)) or "%"


def quote_pairs(pairs: Pairs) -> str:
    return ",".join(f"{quote(name)}={quote(value)}" for name, value in pairs) or "%"


def shown(message: Message) -> str:
    """The message as `show` tells it."""
    number = message.number
    if message.command == HELLO:
        parts = [quote(message.endpoint), quote_list(message.groups), str(message.status), quote(message.name)]
        return " ".join(["HELLO", str(number), *parts, quote_pairs(list(message.headers))])
    if message.command in (JOIN, LEAVE):
        return f"{NAMES[message.command]} {number} {quote(message.group)} {message.status}"
    if message.command == SHOUT:
        return f"SHOUT {number} {quote(message.group)} {quote_list(message.content)}"
    if message.command == WHISPER:
        return f"WHISPER {number} {quote_list(message.content)}"
    if message.command in (PING, PING_OK):
        return f"{NAMES[message.command]} {number}"
    return f"OTHER {number} {message.command}"


class View:
    """What a peer shows: its name, endpoint, headers, and the groups that it is in, in the order of joining."""

    def __init__(self, first: Message) -> None:
        self.name, self.endpoint = first.name, first.endpoint
        self.headers: Dict[bytes, bytes] = {}
        for name, value in first.headers:
            self.headers.setdefault(name, value)
        self.groups = list(dict.fromkeys(first.groups))

    def is_small(self) -> bool:
        """Whether it is within the limits of a view."""
        longest = max(map(len, self.groups), default=0)
        return len(self.groups) <= GROUPS and longest <= GROUP_OCTETS and len(self.headers) <= HEADERS

    def has_room(self, message: Message) -> bool:
        """Whether the view after this later message is within the limits."""
        return message.command != JOIN or message.group in self.groups or len(self.groups) < GROUPS

    def take(self, message: Message) -> None:
        """Changes by a later message."""
        if message.command == JOIN and message.group not in self.groups:
            self.groups.append(message.group)
        elif message.command == LEAVE and message.group in self.groups:
            self.groups.remove(message.group)


class Run:
    """The messages of one connection that were counted, from HELLO on, as the user is told of them."""

    def __init__(self, peer: bytes) -> None:
        self.id = peer.hex().upper()
        self.count = 0
        self.view: Optional[View] = None
        self.said: List[Said] = []

    def start(self, message: Message) -> Optional[str]:
        """Starts the run with its first message, or answers why it can't."""
        if message.command != HELLO or message.number != 1:
            return "NotHello"
        view = View(message)
        if not view.is_small():
            return "Limit"
        self.view, self.count = view, 1
        return None

    def next(self, message: Message) -> Optional[str]:
        """Counts a later message, or answers the cause with which it ends the peer."""
        due = (self.count + 1) % 65536
        if message.command == HELLO:
            return "hello"
        if message.number != due:
            return f"order {due} {message.number}"
        assert self.view is not None
        if not self.view.has_room(message):
            return "limit"
        self.view.take(message)
        self.count += 1
        self.said += said_by(message)
        return None

    def is_in(self, group: bytes) -> bool:
        """Whether the peer is in a group."""
        return self.view is not None and group in self.view.groups

    def line(self, event: str, *fields: str) -> str:
        assert self.view is not None
        return " ".join([event, self.id, quote(self.view.name), *fields])

    def told(self, message: Message) -> List[str]:
        """The events of a message that was counted."""
        assert self.view is not None
        if message.command == HELLO:
            enter = self.line("ENTER", quote(self.view.endpoint), quote_pairs(list(self.view.headers.items())))
            return [enter, *(self.line("JOIN", quote(group)) for group in self.view.groups)]
        if message.command in (JOIN, LEAVE):
            return [self.line(NAMES[message.command], quote(message.group))]
        if message.command == WHISPER:
            return [self.line("WHISPER", quote_list(message.content))]
        if message.command == SHOUT:
            return [self.line("SHOUT", quote(message.group), quote_list(message.content))]
        return []
