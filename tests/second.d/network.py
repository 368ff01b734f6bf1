"""Schedules: the moves of up to sixteen nodes, and what their nodes tell."""
from __future__ import annotations

from functools import lru_cache
from typing import Callable, Dict, List, NamedTuple, Tuple, TypeVar, Union

import captures
import zmtp
from captures import BadCapture, Line, number
from messages import KEPT
from node import Field, Link, Node, Settings

LINES, OCTETS, LINE_OCTETS = 262_144, 16_777_216, 4_194_304
CARRIED = 1_073_741_824
EVASIVE, EXPIRED = 5_000, 30_000
Thing = TypeVar("Thing")
# The form and the fields of the command of `do`; another move has none.
Command = Union[Tuple[()], Tuple[str, Tuple[Field, ...]]]


class BadSchedule(Exception):
    """The number of the first bad line, from 1."""

    def __init__(self, line: int = 0) -> None:
        super().__init__(line)
        self.line = line


def node_number(field: bytes) -> int:
    return number(field, 1, 16)


def port(field: bytes) -> int:
    return number(field, 0, 65535)


def part(field: bytes) -> Union[str, int]:
    """What a connection is to carry: the greeting, READY, or a message."""
    return field.decode() if field in (b"greeting", b"ready") else number(field)


MOVES: Dict[bytes, List[Callable[[bytes], Field]]] = {
    b"start": [node_number, number, captures.identity, captures.name, captures.address, port], b"crash": [node_number],
    b"tick": [node_number, number], b"do": [node_number, number], b"beacon": [number, node_number, number],
    b"open": [number, node_number, number], b"carry": [number, part], b"piece": [number, number, number],
    b"shut": [number, number],
    b"linked": [number, number], b"unlinked": [number, number], b"reply": [number, number, captures.digits],
    b"took": [number, number, number],
}


class Move(NamedTuple):
    """A move: its word and its fields, and of `do` the form and the fields of the command."""
    word: str
    fields: Tuple[Field, ...]
    command: Command = ()


def read(octets: bytes) -> List[Move]:
    """The moves of a schedule; raises the first line that can't be read."""
    lines = octets.split(b"\n")
    rest = lines.pop()
    moves, length = [], 0
    for count, text in enumerate(lines + ([rest] if rest or not lines else []), 1):
        length += len(text) + 1
        if count > LINES or length > OCTETS or len(text) > LINE_OCTETS or count > len(lines):
            raise BadSchedule(count)
        try:
            if count > 1:
                moves.append(move_of(text))
            elif text != b"zre-schedule 1":
                raise BadSchedule(count)
        except BadCapture:
            raise BadSchedule(count) from None
    return moves


@lru_cache(KEPT)
def move_of(text: bytes) -> Move:
    """The move of a line; raises where it has none."""
    line = Line(text, LINE_OCTETS)
    word = line.word(*MOVES)
    fields = tuple(line.take(judge) for judge in MOVES[word])
    command: Command = captures.command(line) if word == b"do" else ()
    line.ends(True)
    return Move(word.decode(), fields, command)


class Incarnation(NamedTuple):
    """A node from one start to its crash."""
    number: int
    begun: int
    node: Node


class Way:
    """A connection: where it opened, the link that it carries with that link's node, and what it is to hand in."""

    def __init__(self, at: Incarnation, sender: Incarnation, link: Link) -> None:
        self.at, self.sender, self.link = at, sender, link
        self.pending = b""


class Network:
    """The nodes of a schedule after the moves so far."""

    def __init__(self) -> None:
        self.running: Dict[int, Incarnation] = {}
        self.ids: Dict[int, bytes] = {}
        self.beacons: List[Tuple[Incarnation, int]] = []
        self.links: List[Tuple[Incarnation, Link]] = []
        self.ways: List[Way] = []
        self.lines: List[str] = []

    def move(self, move: Move) -> None:
        """Makes a move; raises where it can't be made."""
        getattr(self, move.word)(*move.fields, *move.command)
        if sum(link.queued for _, link in self.links) > CARRIED or sum(len(way.pending) for way in self.ways) > CARRIED:
            raise BadSchedule

    def enter(self, whose: Incarnation, at: int, form: str, fields: Tuple[Field, ...]) -> None:
        """An entry at a node, and the events, beacons and links that it brings."""
        node = whose.node
        told, sent, made = len(node.lines), len(node.beacons), len(node.links)
        node.step(max(at, whose.begun), form, fields)
        self.lines += (f"{whose.number} {line}" for line in node.lines[told:])
        self.beacons += ((whose, port) for port in node.beacons[sent:])
        self.links += ((whose, link) for link in node.links[made:])

    def node(self, which: int) -> Incarnation:
        if which not in self.running:
            raise BadSchedule
        return self.running[which]

    def numbered(self, found: List[Thing], which: int) -> Thing:
        """What has this number, from 1."""
        if not 1 <= which <= len(found):
            raise BadSchedule
        return found[which - 1]

    def runs(self, whose: Incarnation) -> None:
        """An incarnation that is gone can't be given an entry."""
        if self.running.get(whose.number) is not whose:
            raise BadSchedule

    def start(self, which: int, at: int, own: bytes, name: bytes, host: str, port: int) -> None:
        others = [identity for other, identity in self.ids.items() if other != which]
        if which in self.running or own in others or self.ids.get(which, own) != own or port == 0:
            raise BadSchedule
        self.ids[which] = own
        self.running[which] = Incarnation(which, at, Node(Settings(own, name, host, port, EVASIVE, EXPIRED)))

    def crash(self, which: int) -> None:
        self.node(which)
        del self.running[which]

    def do(self, which: int, at: int, form: str, fields: Tuple[Field, ...]) -> None:
        self.enter(self.node(which), at, form, fields)

    def tick(self, which: int, at: int) -> None:
        self.enter(self.node(which), at, "tick", ())

    def beacon(self, beacon: int, which: int, at: int) -> None:
        sender, port = self.numbered(self.beacons, beacon)
        own = sender.node.settings
        self.enter(self.node(which), at, "datagram", (own.host, b"ZRE\x01" + own.id + port.to_bytes(2, "big")))

    def open(self, link: int, which: int, at: int) -> None:
        whose = self.node(which)
        self.ways.append(Way(whose, *self.numbered(self.links, link)))
        self.enter(whose, at, "opened", (len(self.ways),))

    def carry(self, which: int, part: Union[str, int]) -> None:
        way = self.numbered(self.ways, which)
        if isinstance(part, int):
            way.pending += self.numbered(way.link.messages, part)
        elif part == "greeting":
            way.pending += zmtp.greeting()
        else:
            way.pending += zmtp.ready(way.sender.node.settings.id)

    def piece(self, which: int, count: int, at: int) -> None:
        way = self.numbered(self.ways, which)
        self.runs(way.at)
        if count > len(way.pending):
            raise BadSchedule
        piece, way.pending = way.pending[:count], way.pending[count:]
        self.enter(way.at, at, "piece", (which, piece))

    def shut(self, which: int, at: int) -> None:
        way = self.numbered(self.ways, which)
        self.runs(way.at)
        self.enter(way.at, at, "shut", (which,))

    def on_link(self, which: int, at: int, form: str, *fields: Field) -> None:
        """An entry about a link at its node, which has a number of its own for it."""
        whose, link = self.numbered(self.links, which)
        self.runs(whose)
        self.enter(whose, at, form, (link.number, *fields))

    def linked(self, which: int, at: int) -> None:
        self.on_link(which, at, "linked")

    def unlinked(self, which: int, at: int) -> None:
        self.on_link(which, at, "unlinked")

    def reply(self, which: int, at: int, octets: bytes) -> None:
        self.on_link(which, at, "reply", octets)

    def took(self, which: int, count: int, at: int) -> None:
        self.on_link(which, at, "took", count)


def simulate(octets: bytes) -> List[str]:
    """What the nodes of a schedule tell, each line after the number of its node; raises the first bad line."""
    network = Network()
    for count, move in enumerate(read(octets), 2):
        try:
            network.move(move)
        except BadSchedule:
            raise BadSchedule(count) from None
    return network.lines
