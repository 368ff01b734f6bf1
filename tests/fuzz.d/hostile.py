"""A hostile client beside a chat, in a network namespace of its own, where one can be had.

Two good peers shout numbered lines to the node that is beset, and are shouted at by it. Each must be told every line of
each other, in order, and the node must end with status 0.
"""
from __future__ import annotations

import os
import random
import re
import socket
import subprocess
import sys
import threading
import time
from typing import Callable, Iterator, List, Optional, Tuple

import made

SOON = 20
LINES = 60
CONNECTIONS = 600
NODES = {"beset": ("A" * 32, "127.0.0.1"), "second": ("B" * 32, "127.0.0.2"), "third": ("C" * 32, "127.0.0.3")}
PORT = 49152
# Where the connections come from in turn, since one address may have a part of them alone.
STRANGERS = [f"127.0.1.{last}" for last in range(1, 11)]


class Node:
    """A running chat, with the lines that it has written so far."""

    def __init__(self, program: str, name: str) -> None:
        self.name = name
        own, host = NODES[name]
        words = ["chat", f"id={own}", f"host={host}", f"port={PORT}", f"listen={host}", f"name={name}",
                 "interval=100", "evasive=20000", "expired=40000"]
        words += [f"to={at}" for _, at in NODES.values() if at != host]
        self.process = subprocess.Popen([program, *words], stdin=subprocess.PIPE, stdout=subprocess.PIPE)
        self.lines: List[str] = []
        self.reader = threading.Thread(target=self.read, daemon=True)
        self.reader.start()

    def read(self) -> None:
        assert self.process.stdout is not None
        for line in self.process.stdout:
            self.lines.append(line.decode().rstrip("\n"))

    def types(self, line: str) -> None:
        assert self.process.stdin is not None
        self.process.stdin.write(line.encode() + b"\n")
        self.process.stdin.flush()

    def has(self, beginning: str) -> bool:
        return any(line.startswith(beginning) for line in list(self.lines))

    def shouts_of(self, name: str) -> List[int]:
        found = (re.fullmatch(rf"SHOUT {NODES[name][0]} {name} g ([0-9]+)", line) for line in list(self.lines))
        return [int(one[1]) for one in found if one]


def soon(holds: Callable[[], bool]) -> bool:
    end = time.monotonic() + SOON
    while time.monotonic() < end:
        if holds():
            return True
        time.sleep(0.02)
    return False


def connected(which: int = 0) -> socket.socket:
    source = (STRANGERS[which % len(STRANGERS)], 0)
    client = socket.create_connection((NODES["beset"][1], PORT), timeout=5, source_address=source)
    client.settimeout(5)
    return client


def hand(octets: bytes, pause: Optional[float] = None) -> socket.socket:
    """A connection on which these octets were sent, as far as they could be: at once, or one after the other."""
    client = connected()
    try:
        for piece in [octets] if pause is None else [octets[at:at + 1] for at in range(len(octets))]:
            client.sendall(piece)
            if pause is not None:
                time.sleep(pause)
    except OSError:
        pass
    return client


def hostile_octets(chance: random.Random) -> Iterator[Tuple[bytes, Optional[float]]]:
    """What is sent on a connection each, and how slowly."""
    shaken = made.GREETING + made.ready(b"\xdd" * 16)
    yield chance.randbytes(5000), None
    yield made.GREETING[:20], None
    yield made.GREETING[:63], None
    yield made.GREETING + chance.randbytes(3000), None
    yield shaken[:90], 0.002
    yield shaken + b"\x02" + (2 ** 63 - 1).to_bytes(8, "big"), None
    yield shaken + b"\x06" + (2 ** 63 - 1).to_bytes(8, "big"), None
    yield shaken + b"\x01\x00" * 1024 + b"\x01", None
    yield shaken + made.message(made.said(chance, 1)), None
    yield shaken + made.message(made.hello(chance, 1))[:-2], None
    yield made.GREETING + made.ready(b"\xaa" * 16), None
    yield made.GREETING + made.ready(b"\xdd" * 16, b"ROUTER"), None
    for _ in range(20):
        yield made.mutated(chance, made.stream(chance, b"\xdd" * 16)), None


def beset(seed: int) -> int:
    """All of the hostile octets, and then more connections than a node keeps, held open for a moment."""
    chance = random.Random(seed)
    clients = [hand(octets, pause) for octets, pause in hostile_octets(chance)]
    for which in range(CONNECTIONS):
        try:
            clients.append(connected(which))
        except OSError:
            break
    time.sleep(0.3)
    for client in clients:
        client.close()
    return len(clients)


def talk(program: str) -> Iterator[Tuple[str, bool]]:
    """Each thing that must hold, with whether it did."""
    nodes = {name: Node(program, name) for name in NODES}
    all_nodes = list(nodes.values())
    for node in all_nodes:
        node.types("join g")
    for node in all_nodes:
        for name, (own, _) in NODES.items():
            if name != node.name:
                yield f"{node.name} sees {name}", soon(lambda: node.has(f"JOIN {own} {name} g"))
    attack = threading.Thread(target=beset, args=(36,))
    attack.start()
    for number in range(LINES):
        for node in all_nodes:
            node.types(f"shout g {number}")
        time.sleep(0.03)
    attack.join()
    wanted = list(range(LINES))
    for node in all_nodes:
        for name in NODES:
            if name != node.name:
                yield f"{node.name} is told all that {name} says", soon(lambda: node.shouts_of(name) == wanted)
    refused = [line for line in nodes["beset"].lines if line.startswith("CLOSED ")]
    yield "hostile connections are closed with their reasons", len(refused) > 20
    yield "connections past the limit are closed", any(line.endswith(" TooMany") for line in refused)
    for node in all_nodes:
        ended = [line for line in node.lines if line.startswith("EXIT ")]
        lost = [line for line in ended if any(own in line for own, _ in NODES.values())]
        yield f"{node.name} loses no good peer", not lost
    for node in all_nodes:
        node.types("quit")
        yield f"{node.name} ends with 0", node.process.wait(SOON) == 0


def main(program: str) -> None:
    passed = failed = 0
    for what, holds in talk(program):
        if holds:
            passed += 1
        else:
            failed += 1
            print(f"a hostile client: {what}: FAILED", flush=True)
    print(passed, failed)


def try_chat(program: str) -> Tuple[int, int]:
    """How many checks passed, and how many failed; none where no network namespace can be had."""
    for way in "-n", "-rn":
        room = ["unshare", way, "sh", "-c", 'ip link set lo up && exec "$@"', "room"]
        if subprocess.run([*room, "true"], stderr=subprocess.DEVNULL, check=False).returncode == 0:
            break
    else:
        print("SKIPPED: no network namespace can be had: a hostile client", flush=True)
        return 0, 0
    words = [*room, "timeout", "-k", "3", "90", sys.executable, os.path.realpath(__file__), program]
    around = {**os.environ, "PYTHONDONTWRITEBYTECODE": "1"}
    ended = subprocess.run(words, stdout=subprocess.PIPE, check=False, env=around)
    *told, last = ended.stdout.decode().split("\n")[:-1] or ["0 0"]
    for line in told:
        print(line, flush=True)
    if ended.returncode != 0:
        print(f"a hostile client: it ended with {ended.returncode}", flush=True)
        return 0, 1
    passed, failed = map(int, last.split())
    return passed, failed


if __name__ == "__main__":
    main(sys.argv[1])
