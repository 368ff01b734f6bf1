"""Random streams and journals: mostly well formed, with something wrong now and then, in every layer."""
from __future__ import annotations

import random
from typing import Dict, List, Tuple

OWN = b"\xff" * 16
SIGNATURE = b"\xff" + bytes(8) + b"\x7f"
NAMES = [b"Ann", b"Ben", b"", b"%", b"a b", b"\xc3\xa9", b"~", b"=,", b"n" * 255]
GROUPS = [b"chat", b"g", b"h", b"", b"a b%", b"\xff", b"g" * 255]
ENDPOINTS = [b"tcp://10.0.0.2:49152"] * 40 + [
    b"tcp://255.255.255.255:65535", b"tcp://0.0.0.0:1", b"tcp://10.0.0.2:0", b"tcp://10.0.0.2:65536",
    b"tcp://256.0.0.1:1", b"tcp://01.0.0.1:1", b"tcp://1.0.0.1:01", b"tcp://1.0.0:1", b"tcp://1.0.0.1.1:1",
    b"tcp://1.0.0.1:1 ", b"TCP://1.0.0.1:1", b"ipc://x", b"", b"tcp://1.0.0.1", b"tcp://1.0.0.1:", b"tcp://1..0.1:5",
    b"tcp://10.0.0.2:49152\n", b"tcp://+1.0.0.1:1"]
STEPS = [0] * 8 + [1, 40, 99, 100, 101, 500, 999, 1000, 1001, 5000, 30000, -1, -700]


def number(value: int, octets: int) -> bytes:
    return value.to_bytes(octets, "big")


def string(octets: bytes) -> bytes:
    return number(len(octets), 1) + octets


def long_string(octets: bytes) -> bytes:
    return number(len(octets), 4) + octets


def frame(chance: random.Random, body: bytes, flags: int = 0) -> bytes:
    """A frame in its short form, or where it must and now and then in its long one."""
    if len(body) > 255 or chance.random() < 0.05:
        return bytes([flags | 2]) + number(len(body), 8) + body
    return bytes([flags]) + string(body)


def greeting(chance: random.Random) -> bytes:
    """A greeting with any octets where any may be; rarely with a wrong one."""
    octets = bytearray(SIGNATURE + b"\x03\x01NULL" + bytes(48))
    if chance.random() < 0.3:
        octets[1:9], octets[11:12], octets[32:] = chance.randbytes(8), chance.randbytes(1), chance.randbytes(32)
        octets[10] = chance.choice([3, 4, 255])
    if chance.random() < 0.05:
        octets[chance.randrange(64)] = chance.randrange(256)
    return bytes(octets)


def metadata(pairs: List[Tuple[bytes, bytes]]) -> bytes:
    return b"".join(string(name) + long_string(value) for name, value in pairs)


def ready(chance: random.Random, kind: bytes, identity: bytes) -> bytes:
    """READY, now and then with further properties, repeated ones, others than are wanted, or none at all."""
    pairs = [(b"Socket-Type", kind), (b"Identity", b"\x01" + identity)]
    if chance.random() < 0.3:
        other = chance.choice([b"", b"\x02" + identity, identity, b"\x01" + OWN])
        more = [(b"socket-TYPE", kind), (b"X-a_b.c+1", b""), (b"IDENTITY", b"\x01" + identity), (b"a b", b""),
                (b"Socket-Type", b"PUB"), (b"Identity", other), (b"", b"x")]
        pairs.insert(chance.randrange(3), chance.choice(more))
    if chance.random() < 0.05:
        del pairs[chance.randrange(len(pairs))]
    body = string(b"READY") + metadata(pairs)
    if chance.random() < 0.03:
        others = [string(b"ERROR") + b"\x01x", string(b"HELLO"), string(b"ready"), b""]
        body = chance.choice([body[:-1], body + b"\x01", *others])
    return frame(chance, body, 4)


def command(chance: random.Random) -> bytes:
    """A command after READY: PING of any size, or another; rarely one without a name."""
    body = string(b"PING") + chance.randbytes(chance.choice([0, 1, 2, 3, 10, 17, 18, 19, 20]))
    if chance.random() < 0.3:
        name = chance.choice([b"PONG", b"READY", b"ERROR", b"ping", b"SUBSCRIBE", b"\xff", b" "])
        body = string(name) + chance.randbytes(3)
    if chance.random() < 0.03:
        body = chance.choice([b"", b"\x00", b"\x05PING", b"\x01"])
    return frame(chance, body, 4)


def hello(chance: random.Random) -> Tuple[int, bytes]:
    """The command octet and the fields of HELLO."""
    groups = [chance.choice(GROUPS) for _ in range(chance.choice([0, 0, 1, 2, 5]))]
    headers = [(chance.choice(NAMES), chance.choice(GROUPS)) for _ in range(chance.choice([0, 0, 1, 3]))]
    if chance.random() < 0.03:
        groups.append(b"x" * chance.choice([255, 256, 300]))
    if chance.random() < 0.02:
        groups += [number(which, 2) for which in range(chance.choice([1020, 1024, 1025]))]
    if chance.random() < 0.02:
        headers += [(number(which, 2), b"") for which in range(chance.choice([250, 256, 257]))]
    body = string(chance.choice(ENDPOINTS)) + number(len(groups), 4) + b"".join(map(long_string, groups))
    body += chance.randbytes(1) + string(chance.choice(NAMES)) + number(len(headers), 4) + metadata(headers)
    return 1, body


def said(chance: random.Random) -> Tuple[int, bytes]:
    """The command octet and the fields of a message that isn't HELLO."""
    kind = chance.choice([2, 2, 3, 3, 4, 4, 4, 5, 5, 6, 7, 0, 8, 255])
    body = string(chance.choice(GROUPS)) if kind in (3, 4, 5) else b""
    return kind, body + (chance.randbytes(1) if kind in (4, 5) else b"")


class Sender:
    """Who sends on one connection, and numbers its messages."""

    def __init__(self, chance: random.Random, goes_wrong: float) -> None:
        self.chance, self.goes_wrong, self.next = chance, goes_wrong, 1

    def message(self) -> bytes:
        """The next message; now and then another one than is due, or one that means nothing."""
        chance, wrong = self.chance, self.chance.random() < self.goes_wrong
        kind, fields = hello(chance) if self.next == 1 or (wrong and chance.random() < 0.2) else said(chance)
        sequence = self.next + (chance.choice([0, 0, 0, 1, -1, 5, 65535, 32768]) if wrong else 0)
        first = b"\xaa\xa1" + bytes([kind, 2]) + number(sequence % 65536, 2) + fields
        more = [chance.randbytes(chance.choice([0, 1, 5, 300])) for _ in range(chance.choice([0, 1, 1, 2, 4]))]
        frames = [first, *(more if kind in (2, 3) or kind in (0, 8, 255) else [])]
        if wrong and chance.random() < 0.5:
            short, version = first[:chance.randrange(len(first))], first[:3] + b"\x03" + first[4:]
            signatures = [b"", b"\xaa" + first, b"\xaa\xa2" + first[2:]]
            frames[0] = chance.choice([short, version, first, first + b"x", *signatures])
            frames += [b""] if chance.random() < 0.3 else []
        elif sequence == self.next:
            self.next += 1
        parts = []
        for at, body in enumerate(frames):
            parts += [command(chance)] if chance.random() < 0.05 else []
            parts.append(frame(chance, body, 1 if at < len(frames) - 1 else 0))
        if wrong and chance.random() < 0.1:
            sizes = [b"\x02" + b"\xff" * 8, b"\x06" + number(65537, 8)]
            parts.append(chance.choice([b"\x05\x00", b"\x08", b"\x07\x01", *sizes]))
        return b"".join(parts)

    def messages(self, count: int) -> bytes:
        return b"".join(self.message() for _ in range(count))


def traffic(chance: random.Random) -> bytes:
    return Sender(chance, chance.choice([0.0, 0.02, 0.2])).messages(chance.randrange(1, 30))


def stream(chance: random.Random) -> bytes:
    kind = chance.choice([b"DEALER", b"ROUTER", b"PUB"])
    return greeting(chance) + ready(chance, kind, chance.randbytes(16)) + traffic(chance)


def quoted(octets: bytes) -> str:
    return "".join(chr(o) if 0x21 <= o <= 0x7e and o not in b"%~=," else f"%{o:02X}" for o in octets) or "~"


class Journal:
    """What comes to a node, entry by entry."""

    def __init__(self, chance: random.Random) -> None:
        self.chance = chance
        self.peers = [bytes([0x10 + at]) * 16 for at in range(chance.choice([1, 2, 3, 6]))]
        self.conns: Dict[int, Tuple[Sender, bytes]] = {}
        self.opened = 0
        self.births = 1
        self.goes_wrong = chance.choice([0.0, 0.01, 0.1])

    def peer(self) -> bytes:
        return OWN if self.chance.random() < 0.02 else self.chance.choice(self.peers)

    def datagram(self) -> str:
        chance = self.chance
        self.births += 1
        octets = b"ZRE\x01" + self.peer() + chance.choice([b"\xc0\x00"] * 5 + [b"\x00\x01", b"\x00\x00"])
        if chance.random() < 0.05:
            versions = [b"ZRE\x02" + octets[4:], b"ZRE\x03" + octets[4:]]
            octets = chance.choice([octets[:-1], octets + b"\x00", b"", *versions])
        return f"datagram 10.0.0.{chance.randrange(256)} {octets.hex() or '-'}"

    def open(self) -> List[str]:
        """A connection opens, and mostly comes as far as HELLO."""
        chance = self.chance
        which = self.opened + chance.choice([1] * 12 + [2, 0, -1])
        if which < 0:
            which = 0
        self.opened = max(self.opened, which)
        self.births += 1
        sender = Sender(chance, self.goes_wrong)
        octets = greeting(chance) + ready(chance, chance.choice([b"DEALER"] * 15 + [b"ROUTER"]), self.peer())
        self.conns[which] = (sender, octets + sender.messages(chance.choice([0, 1, 1, 2, 5])))
        return [f"opened {which}", *([self.piece(which)] if chance.random() < 0.8 else [])]

    def piece(self, which: int) -> str:
        """Some or all of what a connection has to hand in, or further messages."""
        chance = self.chance
        sender, octets = self.conns[which]
        octets += sender.messages(chance.choice([0, 1, 2])) if len(octets) < 200 else b""
        cut = chance.choice([len(octets)] * 6 + [0, 1, 10, 64, chance.randrange(len(octets) + 1)])
        self.conns[which] = (sender, octets[cut:])
        return f"piece {which} {octets[:cut].hex() or '-'}"

    def link(self) -> List[str]:
        """Something about a link, whose number is a guess: it stands and is answered, takes octets, or breaks."""
        chance = self.chance
        which = chance.choice([1, 1, 2, 3, chance.randrange(self.births + 1)])
        way = chance.randrange(6)
        if way == 0:
            return [f"took {which} {chance.choice([0, 1, 64, 124, 200, 2 ** 64 - 1])}"]
        if way == 1 and chance.random() < 0.3:
            return [f"unlinked {which}"]
        octets = b""
        if way <= 3:
            octets = greeting(chance) + ready(chance, chance.choice([b"ROUTER"] * 15 + [b"DEALER"]), b"")
        for _ in range(chance.choice([0, 1, 3])):
            octets += chance.choice([command(chance), Sender(chance, self.goes_wrong).message()])
        reply = f"reply {which} {octets[:chance.choice([len(octets), len(octets), 20])].hex() or '-'}"
        return [f"linked {which}", reply] if way <= 3 else [reply]

    def wish(self) -> str:
        chance = self.chance
        group = quoted(chance.choice(GROUPS + [b"x" * 256]))
        content = [chance.randbytes(chance.choice([0, 1, 9])) for _ in range(chance.choice([0, 1, 1, 2]))]
        frames = ",".join(map(quoted, content)) or "%"
        whisper, bad = f"whisper {self.peer().hex().upper()} {frames}", f"bad {chance.choice([0, 1, 2 ** 64 - 1])}"
        return "do " + chance.choice([f"join {group}", f"leave {group}", f"shout {group} {frames}", whisper, bad])

    def crowd(self) -> List[str]:
        """Peers and connections up to about as many as a node takes."""
        chance = self.chance
        born = [f"datagram 10.0.1.1 {(b'ZRE' + bytes([1, 0xaa]) * 2 + number(which, 13) + bytes([1, 1])).hex()}"
                for which in range(chance.choice([0, 250, 255, 256, 257]))]
        self.births += len(born)
        self.opened = chance.choice([0, 505, 511, 512, 513])
        return born + [f"opened {which + 1}" for which in range(self.opened)]

    def entries(self) -> List[str]:
        """The entries that come next."""
        chance, way = self.chance, self.chance.randrange(20)
        if way < 3 or not self.conns:
            return self.open()
        if way < 10:
            return [self.piece(chance.choice(list(self.conns)))]
        if way < 12:
            return [self.datagram()]
        if way < 14:
            return ["tick"]
        if way < 16:
            return self.link()
        if way < 19:
            return [self.wish()]
        rare = ["do quit", "end"] if chance.random() < 0.1 else [f"shut {chance.choice(list(self.conns) + [7])}"]
        return [chance.choice(rare)]


def settings(chance: random.Random) -> Tuple[List[str], str]:
    """The words of a node, and the head of format 2 with the same settings."""
    evasive, expired = chance.choice([(5000, 30000), (5000, 30000), (100, 1000), (1, 1), (1000, 1000), (500, 86400000)])
    some: List[List[str]] = [[], [], ["X-A=b"], ["X-A=b", "C=d e"]]
    headers = chance.choice(some)
    words = [f"id={OWN.hex()}", "host=10.0.0.1", "port=49153", "name=Me", f"evasive={evasive}", f"expired={expired}"]
    shown = ",".join(header.replace(" ", "%20") for header in headers) or "%"
    head = f"zre-capture 2 {OWN.hex().upper()} Me 10.0.0.1 49153 {evasive} {expired} {shown}"
    return words + [f"header={header}" for header in headers], head


def captures(chance: random.Random) -> Tuple[List[str], bytes, bytes]:
    """The words of a node, and one journal as a capture of format 1 and of format 2."""
    words, head = settings(chance)
    journal, first, second, clock = Journal(chance), ["zre-capture 1"], [head], 0
    for which in range(chance.choice([5, 20, 60, 150])):
        for entry in journal.crowd() if which == 0 and chance.random() < 0.02 else journal.entries():
            step = max(chance.choice(STEPS), -clock)
            clock += step
            first.append(f"{clock} {entry}")
            second.append(f"{step} {entry}")
    return words, ("\n".join(first) + "\n").encode(), ("\n".join(second) + "\n").encode()


def rearranged(chance: random.Random, capture: bytes) -> bytes:
    """A text with some of its lines left out, doubled or moved. The first line stays."""
    head, *lines = capture.split(b"\n")[:-1]
    for _ in range(chance.choice([1, 2, 5])):
        if len(lines) > 1:
            line = lines.pop(chance.randrange(len(lines)))
            for _ in range(chance.choice([0, 1, 2])):
                lines.insert(chance.randrange(len(lines) + 1), line)
    return b"\n".join([head, *lines, b""])
