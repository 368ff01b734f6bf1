"""Streams of ZMTP 3 with the NULL mechanism (RFC 23), and PING and PONG of ZMTP 3.1 (RFC 37).

A stream is a greeting, then READY, then traffic: messages, with commands between any two frames. Traffic alone has
neither greeting nor handshake. Places count octets from 0 at the start of the stream.
"""
from __future__ import annotations

from dataclasses import dataclass
from typing import Callable, Iterator, List, NamedTuple, Optional, Tuple, Union

GREETING_SIZE = 64
MESSAGE_OCTETS = 1_048_576
MESSAGE_FRAMES = 1_024
COMMAND_OCTETS = 65_536
MORE, LONG, COMMAND = 1, 2, 4
FLAGS = (0, MORE, LONG, LONG | MORE, COMMAND, COMMAND | LONG)
MECHANISM = b"NULL" + bytes(16)
NAME_OCTETS = frozenset(b"ABCDEFGHIJKLMNOPQRSTUVWXYZabcdefghijklmnopqrstuvwxyz0123456789-_.+")


@dataclass(eq=False)
class Fault(Exception):
    """What makes the octets no stream: a reason and its place."""
    why: str
    place: int


class Greeting(NamedTuple):
    """The 64 octets at the start, with the version of the other end."""
    major: int
    minor: int


class Command(NamedTuple):
    """A command; `shakes` says that it is the READY of the handshake. `size` is that of the whole body."""
    name: bytes
    rest: bytes
    size: int
    shakes: bool


class Message(NamedTuple):
    """The bodies of the frames of a message."""
    frames: List[bytes]


Item = Union[Greeting, Command, Message]
# Judges the properties of READY: the reason why this READY isn't wanted, or None.
Want = Callable[[List[Tuple[bytes, bytes]]], Optional[str]]


def frame(body: bytes, flags: int = 0) -> bytes:
    """A frame in its shortest form."""
    if len(body) > 255:
        return bytes([flags | LONG]) + len(body).to_bytes(8, "big") + body
    return bytes([flags, len(body)]) + body


def message(frames: List[bytes]) -> bytes:
    """The octets of a message with these bodies."""
    last = len(frames) - 1
    return b"".join(frame(body, MORE if at < last else 0) for at, body in enumerate(frames))


def greeting() -> bytes:
    """The greeting of a node, which announces version 3.1."""
    return b"\xff" + bytes(8) + b"\x7f\x03\x01" + MECHANISM + bytes(32)


def ready(own: bytes) -> bytes:
    """READY of a node on its links."""
    pairs = ((b"Socket-Type", b"DEALER"), (b"Identity", b"\x01" + own))
    rest = b"".join(bytes([len(name)]) + name + len(value).to_bytes(4, "big") + value for name, value in pairs)
    return frame(b"\x05READY" + rest, COMMAND)


def pong(context: bytes) -> bytes:
    """The frame of PONG with this context."""
    return frame(b"\x04PONG" + context, COMMAND)


def properties(rest: bytes) -> Optional[List[Tuple[bytes, bytes]]]:
    """The properties after the name READY, or None where `rest` is no list of them."""
    found = []
    at = 0
    while at < len(rest):
        name = rest[at + 1:at + 1 + rest[at]]
        begin = at + 1 + rest[at] + 4
        if rest[at] == 0 or begin > len(rest) or not NAME_OCTETS.issuperset(name):
            return None
        end = begin + int.from_bytes(rest[begin - 4:begin], "big")
        if end > len(rest):
            return None
        found.append((name, rest[begin:end]))
        at = end
    return found


def property_of(pairs: List[Tuple[bytes, bytes]], name: bytes) -> Optional[bytes]:
    """The value of the first property of this name, compared without regard to case."""
    for other, value in pairs:
        if other.lower() == name.lower():
            return value
    return None


def identity_of(command: Command) -> bytes:
    """The identity of a READY that was wanted."""
    pairs = properties(command.rest)
    assert pairs is not None
    value = property_of(pairs, b"Identity")
    assert value is not None
    return value[1:]


def any_peer(_pairs: List[Tuple[bytes, bytes]]) -> Optional[str]:
    """Every READY is wanted."""
    return None


def a_router(pairs: List[Tuple[bytes, bytes]]) -> Optional[str]:
    """A ROUTER is wanted, as at the other end of a link."""
    return None if property_of(pairs, b"Socket-Type") == b"ROUTER" else "SocketType"


def a_dealer(own: bytes) -> Want:
    """A DEALER with an identity of 01 and a UUID other than the node's own is wanted, as on a connection."""
    def judge(pairs: List[Tuple[bytes, bytes]]) -> Optional[str]:
        if property_of(pairs, b"Socket-Type") != b"DEALER":
            return "SocketType"
        identity = property_of(pairs, b"Identity")
        good = identity is not None and len(identity) == 17 and identity[0] == 1 and identity[1:] != own
        return None if good else "Identity"
    return judge


def context_of(command: Command) -> Optional[bytes]:
    """The context of a PING: up to sixteen octets after two of time-to-live. None of another command."""
    is_ping = command.name == b"PING" and not command.shakes and 2 <= len(command.rest) <= 18
    return command.rest[2:] if is_ping else None


class Stream:
    """One stream, as far as its octets have come. `frames` are those of the unfinished message, of `held` octets."""

    def __init__(self, want: Want, is_traffic: bool = False) -> None:
        self.want = want
        self.octets = bytearray()
        self.at = 0
        self.is_greeted = self.is_ready = is_traffic
        self.frames: List[bytes] = []
        self.held = 0

    def is_at_rest(self) -> bool:
        """Whether the octets end behind a whole item, or there are none."""
        return self.at == len(self.octets) and not self.frames

    def feed(self, piece: bytes) -> Iterator[Item]:
        """The items that end in this piece, in the order of their ends. Raises the fault where it is found."""
        self.octets += piece
        if not self.is_greeted:
            self._judge_greeting()
            if len(self.octets) < GREETING_SIZE:
                return
            self.at, self.is_greeted = GREETING_SIZE, True
            yield Greeting(self.octets[10], self.octets[11])
        while True:
            start, frame = self.at, self._frame()
            if frame is None:
                return
            flags, body = frame
            if flags & COMMAND:
                yield self._command(start, body)
                continue
            self.frames.append(body)
            self.held += len(body)
            if not flags & MORE:
                frames, self.frames, self.held = self.frames, [], 0
                yield Message(frames)

    def _judge_greeting(self) -> None:
        for place, octet in enumerate(self.octets[:32]):
            if (place == 0 and octet != 0xff) or (place == 9 and octet != 0x7f):
                raise Fault("Signature", place)
            if place == 10 and octet < 3:
                raise Fault("OldVersion", place)
            if place >= 12 and octet != MECHANISM[place - 12]:
                raise Fault("Mechanism", place)

    def _frame(self) -> Optional[Tuple[int, bytes]]:
        """Flags and body of the next frame, once it is whole. Its fault is raised as early as it can be known."""
        start = self.at
        if start == len(self.octets):
            return None
        flags = self.octets[start]
        if flags not in FLAGS:
            raise Fault("Flags", start)
        if not flags & COMMAND and not self.is_ready:
            raise Fault("Order", start)
        if not flags & COMMAND and len(self.frames) == MESSAGE_FRAMES:
            raise Fault("TooManyFrames", start)
        begin = start + (9 if flags & LONG else 2)
        if len(self.octets) < begin:
            return None
        size = int.from_bytes(self.octets[start + 1:begin], "big")
        room = COMMAND_OCTETS if flags & COMMAND else MESSAGE_OCTETS - self.held
        if size > room:
            raise Fault("TooLarge", start)
        if len(self.octets) < begin + size:
            return None
        self.at = begin + size
        return flags, bytes(self.octets[begin:self.at])

    def _command(self, start: int, body: bytes) -> Command:
        """The command with this body, whose frame starts there."""
        if not body or body[0] == 0 or 1 + body[0] > len(body):
            raise Fault("CommandName", start)
        name, rest = body[1:1 + body[0]], body[1 + body[0]:]
        if self.is_ready:
            return Command(name, rest, len(body), False)
        if name == b"ERROR":
            raise Fault("PeerError", start)
        if name != b"READY":
            raise Fault("Order", start)
        pairs = properties(rest)
        if pairs is None:
            raise Fault("Metadata", start)
        why = self.want(pairs)
        if why is not None:
            raise Fault(why, start)
        self.is_ready = True
        return Command(name, rest, len(body), True)
