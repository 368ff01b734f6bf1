"""Captures of both formats: their lines and fields, and the first one that isn't as it must be."""
from __future__ import annotations

import re
import urllib.parse
from dataclasses import dataclass
from functools import lru_cache
from typing import Callable, Dict, List, NamedTuple, Optional, Tuple, TypeVar

from messages import KEPT, quote
from node import Field, Settings

GREATEST = 2 ** 64 - 1
GREATEST_DIGITS = 20
LINE_OCTETS = {1: 4_194_304, 2: 4_194_324}
LONGEST_TIME = 86_400_000
NUMBER, DIGITS = re.compile(rb"0|[1-9][0-9]*"), re.compile(rb"(?:[0-9a-f]{2})+")
IDENTITY = re.compile(rb"[0-9A-F]{32}")
NAME_OCTETS, VALUE_OCTETS, HEADERS = 255, 1_024, 256
Value = TypeVar("Value")


class NotAsRequired(Exception):
    """A field isn't as required."""


@dataclass(eq=False)
class BadCapture(Exception):
    """The first line, and the first column of it, that is no capture; both from 1."""
    line: int
    column: int


class Entry(NamedTuple):
    """A reading of the clock, the words of a form, the values of its fields, and the text behind the reading."""
    at: int
    form: str
    fields: Tuple[Field, ...]
    text: bytes


@lru_cache(KEPT)
def number(field: bytes, least: int = 0, greatest: int = GREATEST) -> int:
    """A number in decimal without leading zeros."""
    value = int(field) if NUMBER.fullmatch(field) and len(field) <= GREATEST_DIGITS else -1
    if not least <= value <= greatest:
        raise NotAsRequired
    return value


@lru_cache(KEPT)
def address(field: bytes) -> str:
    parts = field.split(b".")
    if len(parts) != 4:
        raise NotAsRequired
    return ".".join(str(number(part, 0, 255)) for part in parts)


@lru_cache(KEPT)
def digits(field: bytes) -> bytes:
    """Octets as lower-case digits, two for each, or - for none."""
    if field == b"-":
        return b""
    if not DIGITS.fullmatch(field):
        raise NotAsRequired
    return bytes.fromhex(field.decode())


@lru_cache(KEPT)
def identity(field: bytes) -> bytes:
    if not IDENTITY.fullmatch(field):
        raise NotAsRequired
    return bytes.fromhex(field.decode())


@lru_cache(KEPT)
def quoted(field: bytes) -> bytes:
    """Octets that are quoted, each in the one way in which it can be."""
    octets = b"" if field == b"~" else urllib.parse.unquote_to_bytes(field)
    if quote(octets).encode() != field:
        raise NotAsRequired
    return octets


@lru_cache(KEPT)
def frames(field: bytes) -> Tuple[bytes, ...]:
    return () if field == b"%" else tuple(map(quoted, field.split(b",")))


def headers(field: bytes) -> Tuple[Tuple[bytes, bytes], ...]:
    """Headers of a node: their names are distinct, and all is within its limit."""
    if field == b"%":
        return ()
    pairs = []
    for member in field.split(b","):
        parts = [quoted(part) for part in member.split(b"=")]
        if len(parts) != 2 or len(parts[0]) > NAME_OCTETS or len(parts[1]) > VALUE_OCTETS:
            raise NotAsRequired
        pairs.append((parts[0], parts[1]))
    if len(pairs) > HEADERS or len(dict(pairs)) < len(pairs):
        raise NotAsRequired
    return tuple(pairs)


def name(field: bytes) -> bytes:
    octets = quoted(field)
    if len(octets) > NAME_OCTETS:
        raise NotAsRequired
    return octets


FORMS: Dict[bytes, List[Callable[[bytes], Field]]] = {
    b"datagram": [address, digits], b"opened": [number], b"shut": [number], b"piece": [number, digits],
    b"linked": [number], b"unlinked": [number], b"reply": [number, digits], b"took": [number, number],
    b"tick": [], b"end": [],
}
COMMANDS: Dict[bytes, List[Callable[[bytes], Field]]] = {
    b"join": [quoted], b"leave": [quoted], b"whisper": [identity, frames], b"shout": [quoted, frames],
    b"bad": [number], b"quit": [],
}


class Line:
    """The fields of one line, taken one after the other. Of a line that is too long there are those that are whole."""

    def __init__(self, octets: bytes, limit: int) -> None:
        self.octets = octets
        self.is_too_long = len(octets) > limit
        self.limit = limit
        self.fields = octets[:limit].split(b" ")
        if self.is_too_long and octets[limit:limit + 1] != b" ":
            self.fields.pop()
        self.at, self.column = 0, 1

    def take(self, judge: Callable[[bytes], Value]) -> Value:
        """The value of the next field. Raises the column of what is wrong with it."""
        if self.at == len(self.fields):
            raise BadCapture(0, self.end())
        field = self.fields[self.at]
        try:
            value = judge(field)
        except NotAsRequired:
            raise BadCapture(0, self.column) from None
        self.at += 1
        self.column += len(field) + 1
        return value

    def word(self, *words: bytes) -> bytes:
        """The next field, which is one of these words."""
        def judge(field: bytes) -> bytes:
            if field not in words:
                raise NotAsRequired
            return field
        return self.take(judge)

    def end(self) -> int:
        """The column behind the line, or behind what may stand in it."""
        return self.limit + 1 if self.is_too_long else len(self.octets) + 1

    def ends(self, has_feed: bool) -> None:
        """No further field may stand here, and a line feed must."""
        if self.at < len(self.fields):
            raise BadCapture(0, self.column)
        if self.is_too_long or not has_feed:
            raise BadCapture(0, self.end())


def command(line: Line) -> Tuple[str, Tuple[Field, ...]]:
    """The form and the fields of a command of the user."""
    word = line.word(*COMMANDS)
    return "do " + word.decode(), tuple(line.take(judge) for judge in COMMANDS[word])


class Capture:
    """A capture of format 1 or 2. Reading stops at the first bad place, with the entries before it."""

    def __init__(self, octets: bytes, form: int) -> None:
        self.form = form
        self.settings: Optional[Settings] = None
        self.entries: List[Entry] = []
        self.bad: Optional[BadCapture] = None
        self.clock = 0
        lines = octets.split(b"\n")
        rest = lines.pop()
        ended = [(line, True) for line in lines] + ([(rest, False)] if rest or not lines else [])
        for count, (line, has_feed) in enumerate(ended, 1):
            try:
                self._line(count, Line(line, LINE_OCTETS[form]), has_feed)
            except BadCapture as bad:
                self.bad = BadCapture(count, bad.column)
                return

    def _line(self, count: int, line: Line, has_feed: bool) -> None:
        if count > 1:
            entry = self._entry(line)
        else:
            settings = self._head(line)
        line.ends(has_feed)
        if count > 1:
            self.clock = entry.at
            self.entries.append(entry)
        else:
            self.settings = settings

    def _head(self, line: Line) -> Optional[Settings]:
        line.word(b"zre-capture")
        line.word(str(self.form).encode())
        if self.form == 1:
            return None
        own, called, host = line.take(identity), line.take(name), line.take(address)
        port = line.take(lambda field: number(field, 1, 65535))
        evasive = line.take(lambda field: number(field, 1, LONGEST_TIME))
        expired = line.take(lambda field: number(field, evasive, LONGEST_TIME))
        return Settings(own, called, host, port, evasive, expired, line.take(headers))

    def _entry(self, line: Line) -> Entry:
        at = line.take(number) if self.form == 1 else line.take(self._later)
        start = line.column - 2
        word = line.word(b"do", *FORMS)
        if word == b"do":
            form, fields = command(line)
        else:
            form, fields = word.decode(), tuple(line.take(judge) for judge in FORMS[word])
        return Entry(at, form, fields, line.octets[start:])

    def _later(self, field: bytes) -> int:
        """A reading that is written as what it differs by from the one before."""
        at = self.clock - number(field[1:], 1) if field[:1] == b"-" else self.clock + number(field)
        if not 0 <= at <= GREATEST:
            raise NotAsRequired
        return at
