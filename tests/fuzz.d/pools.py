"""Many small inputs at little cost: a batch makes some whole inputs, and each case is one of them, mostly changed."""
from __future__ import annotations

import os
import random
import re
import sys
from typing import Dict, List, NamedTuple, Pattern, Tuple

HERE = os.path.dirname(os.path.realpath(__file__))
sys.path.insert(0, os.path.join(HERE, "..", "second.d"))

import agreeing  # noqa: E402  (beside this file)
import journals  # noqa: E402  (in second.d)
import made  # noqa: E402
import talks  # noqa: E402

Words = Tuple[str, ...]
# An input that is larger isn't taken: what costs little is tried often.
MOST_OCTETS = 1600
NODE = ("id=" + "f" * 32, "host=10.0.0.1", "port=49153", "name=Me")
FOLLOW, SHOW = ("follow", "id=" + "a" * 32), ("show",)
REPLAY, UPGRADE = ("replay", *NODE), ("upgrade", *NODE)
TOLD, TABLE, AUDIT, SIMULATE = ("replay",), ("table", "group=chat"), ("audit",), ("simulate",)
READERS: Dict[str, List[Words]] = {
    "stream": [SHOW], "traffic": [FOLLOW], "first": [REPLAY, REPLAY, UPGRADE], "second": [TOLD, TOLD, TABLE, AUDIT],
    "two": [AUDIT], "schedule": [SIMULATE]}
ALL = [SHOW, FOLLOW, REPLAY, UPGRADE, TOLD, TABLE, AUDIT, SIMULATE]
DIGITS = re.compile(rb"(?<= )[0-9]+(?=[ \n])")
# Octets as digits, of which one is changed without another length; and the fields of lines.
HEX_RUN = re.compile(rb"[0-9a-f]{8,}")
HEX = b"0123456789abcdef"
KEYS = [b"id=", b"host=", b"port=", b"name=", b"evasive=", b"expired=", b"header=", b"group=", b"seed=", b""]
VALUES = [
    b"", b"0", b"1", b"65535", b"65536", b"86400000", b"86400001", b"10.0.0.1", b"10.0.0.256", b"01.0.0.1", b"a",
    b"g" * 256, b"X=y", b"=y", b"X", b"X=" + b"y" * 1025, b"f" * 31, b"F" * 32, b"0-0", b"\xff", b"%", b"~", b"a%20b",
    b"00010203-0405-0607-0809-0a0b0c0d0e0f", b"urn:uuid:00010203-0405-0607-0809-0a0b0c0d0e0f",
    b"{00010203-0405-0607-0809-0A0B0C0D0E0F}", b"{000102030405060708090a0b0c0d0e0f}",
    b"URN:UUID:00010203-0405-0607-0809-0a0b0c0d0e0f", b"urn:uuid:000102030405060708090a0b0c0d0e0f",
    b"18446744073709551615", b"18446744073709551616"]


class Case(NamedTuple):
    """The words of a command, how many octets a read gives at most (0: as many as fit), and the input."""
    words: Tuple[bytes, ...]
    most: int
    octets: bytes


class Base(NamedTuple):
    """An input to be changed."""
    words: List[Words]
    octets: bytes
    is_text: bool


def kept(folder: str, most: int = MOST_OCTETS) -> List[Base]:
    """The files of a folder with an INDEX of names and words, of at most so many octets."""
    bases = []
    with open(os.path.join(HERE, "..", folder, "INDEX"), encoding="ascii") as index:
        rows = [line.rstrip("\n").split("\t")[:2] for line in index]
    for name, words in rows:
        path = os.path.join(HERE, "..", folder, name)
        if os.path.getsize(path) <= most:
            with open(path, "rb") as file:
                named = tuple(words.split(" "))
                bases.append(Base([named], file.read(), named[0] not in ("show", "follow")))
    return bases


def a_base(chance: random.Random) -> Base:
    """A whole input of some kind."""
    way = chance.randrange(13)
    if way == 0:
        kind, octets = "stream", made.stream(chance, chance.randbytes(16))
    elif way == 1:
        kind, octets = "traffic", made.traffic(chance)
    elif way == 2:
        kind, octets = "first", made.captures(chance)[0]
    elif way == 3:
        kind, octets = "second", made.captures(chance)[1]
    elif way == 4:
        kind, octets = "two", made.two_captures(chance)
    elif way == 5:
        kind, octets = "schedule", made.Network(chance).schedule()
    elif way == 6:
        kind, octets = "schedule", agreeing.Network(chance).made(chance.choice([10, 20, 40]))
    elif way == 7:
        kind, octets = "stream", journals.stream(chance)
    elif way == 8:
        kind, octets = "traffic", journals.traffic(chance)
    elif way == 9:
        kind, octets = "two", b"".join(talks.talk(chance))
    elif way == 10:
        kind, octets = "second", talks.talk(chance)[0]
    else:
        return a_journal(chance)
    return Base(READERS[kind], octets, kind not in ("stream", "traffic"))


def a_journal(chance: random.Random) -> Base:
    """The beginning of a journal of many kinds of entries, in one of the formats."""
    words, first, second = journals.captures(chance)
    named = [("replay", *words), ("replay", *words), ("upgrade", *words)]
    readers, octets = chance.choice([(named, first), (READERS["second"], second)])
    lines = octets.split(b"\n")[:chance.choice([4, 12, 20])]
    return Base(readers, b"\n".join([*lines, b""]), True)


def some_bases(chance: random.Random, count: int, files: List[Base]) -> List[Base]:
    """So many small inputs, a fourth of them files that are kept."""
    bases = [chance.choice(files) for _ in range(count // 4)]
    while len(bases) < count:
        base = a_base(chance)
        if len(base.octets) <= MOST_OCTETS:
            bases.append(base)
    return bases


def with_other_octets(chance: random.Random, octets: bytes, other: bytes) -> bytes:
    """One change of octets: one flipped, some left out, doubled or from elsewhere, a length or number at an edge."""
    way, at = int(chance.random() * 8), int(chance.random() * (len(octets) + 1))
    end = at + (1, 1, 2, 8, 40)[int(chance.random() * 5)]
    if way < 2 and at < len(octets):
        return octets[:at] + bytes([octets[at] ^ 1 << int(chance.random() * 8)]) + octets[at + 1:]
    if way == 2:
        return octets[:at] + octets[end:]
    if way == 3:
        return octets[:end] + octets[at:]
    if way == 4:
        return octets[:at]
    if way == 5:
        place = int(chance.random() * (len(other) + 1))
        return octets[:at] + other[place:]
    if way == 6:
        return octets[:at] + bytes([(0, 1, 2, 4, 127, 128, 254, 255)[int(chance.random() * 8)]]) + octets[at + 1:]
    return octets[:at] + chance.randbytes(end - at) + octets[end:]


def a_span(chance: random.Random, pattern: Pattern[bytes], octets: bytes) -> Tuple[int, int]:
    """One of the places of a pattern; an empty one where there is none."""
    spans = [found.span() for found in pattern.finditer(octets)]
    return spans[int(chance.random() * len(spans))] if spans else (0, 0)


def with_other_number(chance: random.Random, octets: bytes) -> bytes:
    start, end = a_span(chance, DIGITS, octets)
    if start == end:
        return octets
    near = int(octets[start:end]) + chance.choice((1, -1, 2, 10, 1000, 6000)) if end - start < 20 else 0
    value = near if near >= 0 and chance.random() < 0.8 else chance.choice(made.NUMBERS)
    return octets[:start] + str(value).encode() + octets[end:]


def with_other_hex(chance: random.Random, octets: bytes) -> bytes:
    """One octet that stands as digits is another, left out, or doubled."""
    start, end = a_span(chance, HEX_RUN, octets)
    at = start + 2 * int(chance.random() * ((end - start) // 2))
    one, way = octets[at:at + 2], int(chance.random() * 6)
    if way < 4:
        digit = HEX[int(chance.random() * 16):][:1]
        one = digit + one[1:] if way < 2 else one[:1] + digit
    else:
        one = (b"", one + one)[way - 4]
    return octets[:at] + one + octets[at + 2:]


def with_other_lines(chance: random.Random, octets: bytes, other: bytes) -> bytes:
    """A line behind the first is left out, doubled, moved, or comes from elsewhere."""
    lines, way = octets.split(b"\n"), int(chance.random() * 4)
    at, to = (1 + int(chance.random() * (len(lines) - 1)) for _ in range(2))
    if len(lines) < 3 or at == len(lines) - 1 or to == len(lines):
        return octets
    if way == 0:
        del lines[at]
    elif way == 1:
        lines.insert(to, lines[at])
    elif way == 2:
        lines.insert(to, lines.pop(at))
    else:
        theirs = other.split(b"\n")[1:-1]
        lines[to:to] = theirs[int(chance.random() * len(theirs)):][:1]
    return b"\n".join(lines)


def changed(chance: random.Random, base: Base, octets: bytes, other: bytes) -> bytes:
    """One change. A text mostly stays one that can be read."""
    way = chance.random()
    if not base.is_text or way < 0.15:
        return with_other_octets(chance, octets, other)
    if way < 0.4:
        return with_other_number(chance, octets)
    return with_other_hex(chance, octets) if way < 0.7 else with_other_lines(chance, octets, other)


def with_other_words(chance: random.Random, words: Tuple[bytes, ...]) -> Tuple[bytes, ...]:
    """Words of which one is left out, doubled, another, or one too many."""
    others, at, way = list(words), int(chance.random() * len(words)), int(chance.random() * 4)
    one = chance.choice(KEYS) + chance.choice(VALUES)
    if way == 0:
        del others[at]
    elif way == 1:
        others.insert(at, others[at])
    elif way == 2 and at:
        others[at] = others[at].split(b"=")[0] + b"=" + chance.choice(VALUES)
    else:
        others.insert(at + 1, one)
    return tuple(others)


def an_exercise(chance: random.Random) -> Case:
    words = f"exercise seed={chance.choice(made.NUMBERS)} peers={chance.choice([0, 1, 2, 256, 257])} messages="
    return Case(tuple(f"{words}{chance.choice([0, 1, 20])}".encode().split(b" ")), 0, b"")


def a_case(chance: random.Random, bases: List[Base]) -> Case:
    """One of the bases, three in four of them changed once to four times; rarely with other words."""
    base = bases[int(chance.random() * len(bases))]
    octets = base.octets
    for _ in range((0, 1, 1, 1, 1, 2, 2, 4)[int(chance.random() * 8)]):
        other = bases[int(chance.random() * len(bases))].octets
        octets = changed(chance, base, octets, other)
    rare = chance.random()
    named = chance.choice(ALL) if rare < 0.02 else base.words[int(chance.random() * len(base.words))]
    words = tuple(word.encode() for word in named)
    if rare > 0.98:
        words = with_other_words(chance, words)
    elif rare > 0.978:
        return an_exercise(chance)
    if words and words[0] in (b"chat", b"gate"):
        words = (b"", *words)
    return Case(words, (1, 1, 2, 3, 7, 64, 200, 255)[int(chance.random() * 8)], octets)
