#!/usr/bin/env python3
"""Writes a capture of format 2 of a node among many peers, as large as is asked for.

    tests/timeline.d/made.py PEERS SECONDS MESSAGES > made.capture

The peers come within the first tenth of the time, join one of four groups and `all`, and send whispers and shouts in
turn, in bursts; every seventh leaves by its last beacon and comes again; the last one is silent in the middle. Each
tenth message is one of the node's own user. Their identities differ in the last digits alone.
"""
import random
import sys
from typing import List, Tuple

ME, HOST, PORT = "F" * 32, "10.0.0.1", 49152
GREETING = bytes.fromhex("ff00000000000000007f03004e554c4c") + bytes(48)


def string(octets: bytes) -> bytes:
    """A string of a message: its length in one octet, and its octets."""
    return bytes([len(octets)]) + octets


def frames(*bodies: bytes) -> bytes:
    """A message of short frames."""
    return b"".join(bytes([at < len(bodies) - 1, len(body)]) + body for at, body in enumerate(bodies))


class Peer:
    """A peer, and what it says."""

    def __init__(self, number: int) -> None:
        self.id = bytes.fromhex(f"A0000000000000000000{number:012X}")
        self.host, self.name = f"10.1.{number // 250}.{number % 250 + 1}", f"peer {number}".encode()
        self.group = b"group %d" % (number % 4)
        self.conn, self.sequence = 0, 0

    def beacon(self, port: int) -> str:
        """An entry: its beacon."""
        return f"datagram {self.host} {(b'ZRE' + bytes([1]) + self.id + port.to_bytes(2, 'big')).hex()}"

    def message(self, command: int, fields: bytes, *contents: bytes) -> bytes:
        """Its next message."""
        self.sequence += 1
        return frames(b"\xaa\xa1" + bytes([command, 2]) + self.sequence.to_bytes(2, "big") + fields, *contents)

    def entering(self, conn: int) -> List[str]:
        """The entries by which it comes, on this connection."""
        self.conn, self.sequence = conn, 0
        pairs = [(b"Socket-Type", b"DEALER"), (b"Identity", b"\x01" + self.id)]
        ready = string(b"READY") + b"".join(
            string(name) + len(value).to_bytes(4, "big") + value for name, value in pairs
        )
        hello = self.message(1, string(f"tcp://{self.host}:{PORT}".encode()) + bytes(5) + string(self.name) + bytes(4))
        joins = self.message(4, string(b"all") + b"\1") + self.message(4, string(self.group) + b"\2")
        return [
            self.beacon(PORT),
            f"opened {conn}",
            f"piece {conn} {(GREETING + bytes([4, len(ready)]) + ready + hello + joins).hex()}",
        ]

    def says(self, at: int) -> str:
        """An entry: a whisper, or a shout to one of its groups."""
        text = b"message %d of %s" % (at, self.name)
        spoken = (
            self.message(2, b"", text) if at % 3 == 0 else self.message(3, string((self.group, b"all")[at % 2]), text)
        )
        return f"piece {self.conn} {spoken.hex()}"


def plan_of(peers: int, length: int, messages: int) -> List[Tuple[int, int, str]]:
    """What happens, in order: when, of which peer, and what."""
    chance = random.Random(7)
    plan = []
    for number in range(peers):
        plan.append((length * number // (10 * peers) + 5, number, "comes"))
        plan += [(time, number, "beacon") for time in range(4000 + number, length, 4000)]
        if number % 7 == 6:
            plan += [(length * 6 // 10, number, "goes"), (length * 7 // 10, number, "comes")]
    for at in range(messages):
        time = length * (at + 1) * 8 // (10 * messages) + length // 8 + chance.randrange(2000) // 400 * 400
        plan.append((min(length - 1, time), at % peers, "own" if at % 10 == 9 else "says"))
    return sorted(plan, key=lambda step: step[0])


def entries_of(peers: int, length: int, messages: int) -> List[Tuple[int, str]]:
    """The entries with their readings, in order."""
    everyone = [Peer(number) for number in range(peers)]
    found = [
        (0, "do join all"),
        (0, "do join group%200"),
        (length // 2, "do leave group%200"),
        (length // 3, "do leave none"),
        (length, "do quit"),
    ]
    found += [(at, "tick") for at in range(0, length, 1000)]
    here, conns = set(), 0
    for at, (time, number, what) in enumerate(plan_of(peers, length, messages)):
        peer = everyone[number]
        is_silent = number == peers - 1 and length * 45 // 100 < time < length * 5 // 10
        if what == "comes":
            conns += 1
            found += [(time, entry) for entry in peer.entering(conns)]
            here.add(number)
        elif what == "goes":
            found += [(time, peer.beacon(0)), (time, f"shut {peer.conn}")]
            here.discard(number)
        elif what == "own":
            found.append(
                (time, f"do shout all to%20all%20{at}" if at % 20 < 15 else f"do whisper {peer.id.hex().upper()} {at}")
            )
        elif number in here and not is_silent:
            found.append((time, peer.beacon(PORT) if what == "beacon" else peer.says(at)))
    return sorted(found, key=lambda entry: entry[0])


def main() -> None:
    peers, seconds, messages = (int(word) for word in sys.argv[1:])
    before, lines = 0, [f"zre-capture 2 {ME} Me {HOST} {PORT} 5000 30000 %"]
    for time, entry in entries_of(peers, seconds * 1000, messages):
        lines.append(f"{time - before} {entry}")
        before = time
    sys.stdout.write("".join(line + "\n" for line in lines))


if __name__ == "__main__":
    main()
