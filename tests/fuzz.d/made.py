"""Inputs for the fuzzer: streams, traffic, captures and schedules, mostly well formed, and mutations of them."""
from __future__ import annotations

import random
from typing import Callable, Dict, List, Set, Tuple


GREETING = bytes.fromhex("ff00000000000000017f03014e554c4c") + bytes(48)
NAMES = [b"Ann", b"Ben", b"", b"%", b"a b", b"\xc3\xa9", b"n" * 255]
GROUPS = [b"chat", b"g", b"", b"a b%", b"\xff", b"g" * 255]
# Numbers at the edges of their types and of the limits.
NUMBERS = [0, 1, 2, 9, 10, 255, 256, 1023, 1024, 65535, 65536, 1048576, 4194304, 2 ** 32, 2 ** 63, 2 ** 64 - 1, 2 ** 64]
# The octets that stand for themselves in a quoted text.
PLAIN = frozenset(range(0x21, 0x7f)) - frozenset(b"%~=,")


def string(octets: bytes) -> bytes:
    return bytes([len(octets)]) + octets


def long_string(octets: bytes) -> bytes:
    return len(octets).to_bytes(4, "big") + octets


def frame(body: bytes, flags: int = 0) -> bytes:
    """A frame of RFC 23: short where it can be."""
    if len(body) > 255:
        return bytes([flags | 2]) + len(body).to_bytes(8, "big") + body
    return bytes([flags, len(body)]) + body


def command(name: bytes, rest: bytes) -> bytes:
    return frame(string(name) + rest, 4)


def metadata(pairs: List[Tuple[bytes, bytes]]) -> bytes:
    return b"".join(string(name) + long_string(value) for name, value in pairs)


def ready(identity: bytes, kind: bytes = b"DEALER") -> bytes:
    return command(b"READY", metadata([(b"Socket-Type", kind), (b"Identity", b"\x01" + identity)]))


def message(frames: List[bytes]) -> bytes:
    last = len(frames) - 1
    return b"".join(frame(body, 1 if at < last else 0) for at, body in enumerate(frames))


def hello(chance: random.Random, number: int) -> List[bytes]:
    groups = [chance.choice(GROUPS) for _ in range(chance.choice([0, 0, 1, 2, 5]))]
    headers = [(chance.choice(NAMES), chance.choice(GROUPS)) for _ in range(chance.choice([0, 0, 1, 3]))]
    endpoint = chance.choice([b"tcp://10.0.0.2:49152", b"tcp://10.0.0.2:49152", b"", b"tcp://256.0.0.1:1", b"ipc://x"])
    body = b"\xaa\xa1\x01\x02" + number.to_bytes(2, "big") + string(endpoint)
    body += len(groups).to_bytes(4, "big") + b"".join(map(long_string, groups))
    body += bytes([chance.randrange(256)]) + string(chance.choice(NAMES))
    body += len(headers).to_bytes(4, "big") + metadata(headers)
    return [body]


def said(chance: random.Random, number: int) -> List[bytes]:
    """The frames of a message that isn't HELLO."""
    kind = chance.choice([2, 3, 3, 4, 4, 5, 6, 7])
    body = b"\xaa\xa1" + bytes([kind, 2]) + number.to_bytes(2, "big")
    if kind in (3, 4, 5):
        body += string(chance.choice(GROUPS))
    if kind in (4, 5):
        body += bytes([chance.randrange(256)])
    content = [chance.randbytes(chance.choice([0, 1, 5, 300])) for _ in range(chance.choice([0, 1, 1, 2, 4]))]
    return [body] + (content if kind in (2, 3) else [])


def traffic(chance: random.Random) -> bytes:
    """Messages of one sender, now and then with one lost, repeated or out of place, and PINGs between frames."""
    parts = []
    number = 1
    for at in range(chance.randrange(1, 12)):
        frames = hello(chance, number % 65536) if at == 0 else said(chance, number % 65536)
        parts.append(message(frames))
        if chance.random() < 0.2:
            parts.append(command(b"PING", bytes(2) + chance.randbytes(chance.randrange(18))))
        number += chance.choice([1] * 30 + [0, 2, 65535])
    return b"".join(parts)


def stream(chance: random.Random, identity: bytes) -> bytes:
    return GREETING + ready(identity, chance.choice([b"DEALER"] * 9 + [b"ROUTER"])) + traffic(chance)


def quoted(octets: bytes) -> str:
    return "".join(chr(o) if o in PLAIN else f"%{o:02X}" for o in octets) or "~"


def piece(octets: bytes) -> str:
    return octets.hex() or "-"


class Journal:
    """Entries of a journal, line by line, with the identities of three peers."""

    def __init__(self, chance: random.Random) -> None:
        self.chance = chance
        self.peers = [bytes([0x10 * at + 1]) * 16 for at in range(1, 4)]
        self.streams: Dict[int, bytes] = {}

    def datagram(self) -> str:
        at = self.chance.randrange(3)
        port = self.chance.choice([b"\xc0\x00"] * 5 + [b"\x00\x00"])
        return f"datagram 10.0.0.{at + 2} {(b'ZRE' + bytes([1]) + self.peers[at] + port).hex()}"

    def opened(self) -> str:
        number = self.chance.randrange(1, 6)
        self.streams[number] = stream(self.chance, self.chance.choice(self.peers))
        return f"opened {number}"

    def piece(self) -> str:
        if not self.streams:
            return self.opened()
        number = self.chance.choice(list(self.streams))
        octets = self.streams[number]
        cut = self.chance.choice([1, 7, 64, 200, len(octets)])
        self.streams[number] = octets[cut:]
        return f"piece {number} {piece(octets[:cut])}"

    def shut(self) -> str:
        return f"shut {self.chance.randrange(1, 6)}"

    def link(self) -> str:
        number = self.chance.randrange(1, 5)
        octets = GREETING + ready(b"", b"ROUTER") + command(b"PING", bytes(2) + b"x")
        return self.chance.choice([
            f"linked {number}", f"linked {number}", f"unlinked {number}",
            f"took {number} {self.chance.choice(NUMBERS[:-1])}",
            f"reply {number} {piece(octets[:self.chance.choice([0, 20, 64, len(octets)])])}",
        ])

    def wish(self) -> str:
        group = quoted(self.chance.choice(GROUPS))
        peer = self.chance.choice(self.peers).hex().upper()
        table = quoted(f"zre-set {self.chance.randrange(4)} {peer} k {self.chance.choice('abc')}".encode())
        return "do " + self.chance.choice([
            f"join {group}", f"leave {group}", f"shout {group} {table}", f"shout {group} x,~,y",
            f"whisper {peer} {table}", f"bad {self.chance.choice(NUMBERS[:-1])}",
        ])

    def entry(self) -> str:
        chance = self.chance
        if chance.random() < 0.02:
            return chance.choice(["do quit", "end"])
        ways: List[Callable[[], str]] = [
            self.datagram, self.opened, self.piece, self.piece, self.piece, self.shut, self.link, self.link, self.wish,
            lambda: "tick"]
        return chance.choice(ways)()


def captures(chance: random.Random) -> Tuple[bytes, bytes]:
    """The same entries as a capture of format 1 and of format 2."""
    journal = Journal(chance)
    first = ["zre-capture 1"]
    second = [f"zre-capture 2 {'F' * 32} Me 10.0.0.1 49153 5000 30000 %"]
    clock = 0
    for _ in range(chance.randrange(0, 25)):
        step = chance.choice([0, 0, 1, 100, 6000, 31000, -50])
        step = max(step, -clock)
        clock += step
        entry = journal.entry()
        first.append(f"{clock} {entry}")
        second.append(f"{step} {entry}")
    return "".join(f"{line}\n" for line in first).encode(), "".join(f"{line}\n" for line in second).encode()


def two_captures(chance: random.Random) -> bytes:
    """Captures of format 2 of two nodes, one after the other; now and then both of one node."""
    other = chance.choice(["E", "E", "E", "F"]) * 32
    return captures(chance)[1] + captures(chance)[1].replace(b"F" * 32, other.encode(), 1)


class Network:
    """Moves of a schedule of three nodes, most of which can be made."""

    def __init__(self, chance: random.Random) -> None:
        self.chance = chance
        self.beacons: List[int] = []
        self.links: List[int] = []
        self.known: Set[Tuple[int, int]] = set()
        self.conns = 0
        self.moves = [f"start {node} 0 {str(node) * 32} n{node} 10.0.0.{node} 5000" for node in (1, 2, 3)]

    def tick(self) -> str:
        node = self.chance.randrange(1, 4)
        self.beacons.append(node)
        return f"tick {node} {self.chance.choice([0, 0, 100, 5000])}"

    def beacon(self) -> str:
        if not self.beacons:
            return self.tick()
        number = self.chance.randrange(len(self.beacons)) + 1
        sender, node = self.beacons[number - 1], self.chance.randrange(1, 4)
        if sender != node and (node, sender) not in self.known:
            self.known.add((node, sender))
            self.links.append(sender)
        return f"beacon {number} {node} 0"

    def open(self) -> str:
        if not self.links:
            return self.beacon()
        self.conns += 1
        number = self.chance.randrange(len(self.links)) + 1
        return f"open {number} {self.links[number - 1]} 0"

    def carry(self) -> str:
        if not self.conns:
            return self.open()
        number = self.chance.randrange(self.conns) + 1
        return f"carry {number} {self.chance.choice(['greeting', 'ready', 1, 1, 1, 2, 3])}"

    def handed(self) -> str:
        """A whole beginning of a connection: its greeting, READY and HELLO, in one piece or two."""
        first = self.open()
        if not first.startswith("open"):
            return first
        size, cut = 64 + 60 + 40, self.chance.choice([0, 10, 64, 120])
        self.moves += [first, *(f"carry {self.conns} {part}" for part in ("greeting", "ready", 1))]
        self.moves += [f"piece {self.conns} {cut} 0"] if cut else []
        return f"piece {self.conns} {size - cut} 0"

    def link(self) -> str:
        if not self.links:
            return self.beacon()
        number = self.chance.randrange(len(self.links)) + 1
        return self.chance.choice([f"linked {number} 0", f"took {number} {self.chance.randrange(300)} 0",
                                   f"reply {number} 0 {piece(GREETING[:self.chance.choice([0, 9, 64])])}"])

    def wish(self) -> str:
        node, other = self.chance.randrange(1, 4), self.chance.randrange(1, 4)
        whisper = f"whisper {str(other) * 32} y"
        return f"do {node} 0 " + self.chance.choice(["join g", "leave g", "shout g x", whisper, "bad 7"])

    def end(self) -> str:
        node = self.chance.randrange(1, 4)
        number = self.chance.randrange(self.conns or 1) + 1
        return self.chance.choice([f"shut {number} 0", f"crash {node}", f"do {node} 0 quit",
                                   f"start {node} 0 {str(node) * 32} n{node} 10.0.0.{node} 5000"])

    def schedule(self) -> bytes:
        ways = [
            self.tick, self.beacon, self.beacon, self.handed, self.handed, self.carry, self.link, self.wish, self.wish]
        for _ in range(self.chance.randrange(4, 30)):
            self.moves.append(self.end() if self.chance.random() < 0.04 else self.chance.choice(ways)())
        return ("\n".join(["zre-schedule 1", *self.moves]) + "\n").encode()


def mutated(chance: random.Random, octets: bytes) -> bytes:
    """One to three changes: octets changed, left out, put in, doubled, or a number that is at an edge."""
    changed = bytearray(octets)
    for _ in range(chance.choice([1, 1, 2, 3])):
        at = chance.randrange(len(changed) + 1)
        end = min(len(changed), at + chance.choice([1, 1, 2, 8, 40]))
        kind = chance.randrange(7)
        if kind == 0:
            changed[at:end] = chance.randbytes(end - at)
        elif kind == 1:
            del changed[at:end]
        elif kind == 2:
            changed[at:at] = chance.randbytes(chance.choice([1, 2, 9]))
        elif kind == 3:
            changed[at:at] = changed[at:end]
        elif kind == 4:
            changed[at:end] = str(chance.choice(NUMBERS)).encode()
        elif kind == 5 and at < len(changed):
            changed[at] ^= 1 << chance.randrange(8)
        else:
            del changed[at:]
    return bytes(changed)
