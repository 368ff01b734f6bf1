"""Captures of two nodes that talk: what each hears is mostly the beginning of what the other says, often writes of a
table."""
from __future__ import annotations

import os
import random
import sys
from typing import List, Tuple

sys.path.insert(0, os.path.join(os.path.dirname(os.path.realpath(__file__)), "..", "second.d"))

import messages  # noqa: E402  (in second.d)
import zmtp  # noqa: E402
from messages import Message, Said, quote, quote_list  # noqa: E402

NODES = [b"\xee" * 16, b"\xff" * 16]
GROUPS = [b"g", b"chat"]
Runs = List[List[Said]]


def content(chance: random.Random) -> Tuple[bytes, ...]:
    """Few frames, of few kinds: so writes meet, and lists begin alike."""
    writer = chance.choice(NODES).hex().upper().encode()
    keys, values = [b"k", b"~", b"l"], [b"a", b"b", b"~"]
    writes = [b" ".join([b"zre-set", number, writer, chance.choice(keys), chance.choice(values)])
              for number in (b"1", b"2", b"18446744073709551615", b"01")]
    return tuple(chance.choice([b"x", b"", *writes]) for _ in range(chance.choice([0, 1, 1, 1, 2])))


def said(chance: random.Random) -> Said:
    if chance.random() < 0.5:
        return Said(messages.WHISPER, b"", content(chance))
    return Said(messages.SHOUT, chance.choice(GROUPS), content(chance))


def asked(one: Said, other: bytes) -> str:
    """What the user types to say it."""
    if one.command == messages.WHISPER:
        return f"do whisper {other.hex().upper()} {quote_list(one.content)}"
    return f"do shout {quote(one.group)} {quote_list(one.content)}"


def spelled(one: Said, number: int) -> bytes:
    return zmtp.message(messages.spell(Message(one.command, number, one.group, 0, one.content)))


def capture(chance: random.Random, which: int, says: Runs, hears: Runs) -> List[str]:
    """The capture of one of the nodes: in each run it says some, and hears some."""
    own, other = NODES[which], NODES[1 - which]
    lines = [f"zre-capture 2 {own.hex().upper()} N{which} 10.0.0.{which + 1} 49152 5000 30000 %"]
    if chance.random() < 0.7:
        lines.append(f"0 datagram 10.0.0.{2 - which} {(b'ZRE' + bytes([1]) + other + bytes([192, 0])).hex()}")
    for conn, (saying, hearing) in enumerate(zip(says, hears), 1):
        endpoint = f"tcp://10.0.0.{2 - which}:49152".encode()
        hello = Message(messages.HELLO, 1, b"", 0, (), endpoint, b"N", tuple(GROUPS))
        first = zmtp.greeting() + zmtp.ready(other) + zmtp.message(messages.spell(hello))
        lines += [f"0 opened {conn}", f"1 piece {conn} {first.hex()}"]
        entries = [f"{chance.choice([0, 0, 9])} {asked(one, other)}" for one in saying]
        for number, one in enumerate(hearing, 2):
            entries.insert(chance.randrange(len(entries) + 1), f"0 piece {conn} {spelled(one, number).hex()}")
        lines += entries + [f"0 {chance.choice(['shut', 'unlinked'])} {conn}"]
    return lines


def talk(chance: random.Random) -> Tuple[bytes, bytes]:
    """The captures of both nodes."""
    count = chance.choice([1, 1, 2, 3])
    put: List[Runs] = [[[said(chance) for _ in range(chance.randrange(4))] for _ in range(count)] for _ in NODES]
    heard: List[Runs] = [[run[:chance.choice([9, 9, 1, 0])] for run in runs] for runs in put]
    if chance.random() < 0.4:
        chance.choice(chance.choice(heard)).append(said(chance))
    if chance.random() < 0.2:
        chance.shuffle(heard[0])
    first, second = (capture(chance, which, put[which], heard[1 - which]) for which in (0, 1))
    return ("\n".join(first) + "\n").encode(), ("\n".join(second) + "\n").encode()
