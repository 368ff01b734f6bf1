"""The exercise: the journal that a number makes, and the counts of what a node tells of it."""
from __future__ import annotations

from typing import Iterator, List, NamedTuple, Tuple

import messages
import zmtp
from messages import Message
from node import Field, Node, Settings

FACTOR, ADDEND = 6364136223846793005, 1442695040888963407
NODE = Settings(b"\xff" * 16, b"node", "10.0.0.1", 49152)
# The commands of a peer's messages, in turn.
TURNS = (messages.JOIN, messages.SHOUT, messages.WHISPER, messages.LEAVE)
COUNTED = ("ENTER", "JOIN", "LEAVE", "WHISPER", "SHOUT", "EXIT")
# A reading of the clock, the words of a form, and the values of its fields.
Given = Tuple[int, str, Tuple[Field, ...]]


class Asked(NamedTuple):
    """The words of the command."""
    seed: int
    peers: int
    messages: int


class Draws:
    """Numbers of 32 bits, each the upper half of the next state."""

    def __init__(self, seed: int) -> None:
        self.state = seed

    def draw(self) -> int:
        self.state = (self.state * FACTOR + ADDEND) % 2 ** 64
        return self.state >> 32


def introduced(peer: int) -> Iterator[Given]:
    """A peer's beacon is heard, it opens a connection, and says HELLO there. Peers are counted from 0."""
    identity, address = bytes(12) + (peer + 1).to_bytes(4, "big"), f"10.1.0.{peer}"
    yield 0, "datagram", (address, b"ZRE\x01" + identity + (49152).to_bytes(2, "big"))
    yield 0, "opened", (peer + 1,)
    hello = Message(messages.HELLO, 1, endpoint=f"tcp://{address}:49152".encode(), name=f"p{peer}".encode())
    yield 0, "piece", (peer + 1, zmtp.greeting() + zmtp.ready(identity) + zmtp.message(messages.spell(hello)))


def said(which: int, draws: Draws) -> Message:
    """A later message of a peer, counted from 0. The first and the last of four change its groups."""
    command = TURNS[which % 4]
    if command in (messages.JOIN, messages.LEAVE):
        changes = which // 4 * 2 + (1 if command == messages.JOIN else 2)
        return Message(command, which + 2, b"all", changes % 256)
    content = b"".join(draws.draw().to_bytes(4, "big") for _ in range(8))
    return Message(command, which + 2, b"all" if command == messages.SHOUT else b"", content=(content,))


def journal(asked: Asked) -> Iterator[Given]:
    """All peers come, their messages come in turn, each in two pieces, and the node is told to quit."""
    draws = Draws(asked.seed)
    for peer in range(asked.peers):
        yield from introduced(peer)
    for at in range(asked.messages):
        octets = zmtp.message(messages.spell(said(at // asked.peers, draws)))
        first = draws.draw() % (len(octets) + 1)
        for piece in (octets[:first], octets[first:]):
            yield at, "piece", (at % asked.peers + 1, piece)
    yield asked.messages, "do quit", ()


def summary(asked: Asked) -> List[str]:
    """The lines of the command."""
    node, entries = Node(NODE), 0
    for entry in journal(asked):
        node.step(*entry)
        entries += 1
    events = [line.split(" ")[0] for line in node.lines]
    content = sum(len(frame) for run in node.runs for said_there in run.said for frame in said_there.content)
    counts = [(event.lower(), events.count(event)) for event in COUNTED]
    return [f"{what} {count}" for what, count in [("entries", entries), *counts, ("content", content)]]
