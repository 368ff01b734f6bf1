"""The attacks of tests/hostile and bench/hostile, each a function that tells what it saw as figures."""
import contextlib
import multiprocessing
import random
import selectors
import socket
import threading
import time
from typing import Any, Callable, Dict, List, Optional, Sequence, Tuple

import made
from greeter import Greeter
from lab import (
    BEACONS, FRIEND, NODE, PING, PORT, STRANGERS, Cell, Friend, Program, beacon, hello, node_words, pings, said,
)

ANN, BEN = "A" * 32, "B" * 32
Figures = Dict[str, Any]


def chat(program: str, cell: Cell, which: int, *more: str, quiet: bool = False) -> Program:
    """The node under attack, or a good one at the friend's address."""
    identity, host, name = [(ANN, NODE, "ann"), (BEN, FRIEND, "ben")][which]
    return Program(cell, which, node_words(program, identity, host, name, *more), quiet)


def blocked(program: str, number: int, block: Sequence[int], how: str, seconds: float, watch: float) -> Figures:
    """Two nodes of which one can't connect to the other at first. When each hears the other's whispers, counted from
    the end of the block; None: not in the time that is watched."""
    cell = Cell(number)
    nodes: List[Program] = []
    try:
        for which in block:
            cell.block(which, how)
        nodes = [chat(program, cell, which) for which in (0, 1)]
        time.sleep(seconds)
        for which in block:
            cell.unblock(which)
        free = time.monotonic()
        heard: List[Optional[float]] = [None, None]
        while time.monotonic() < free + watch and None in heard:
            nodes[0].says(f"whisper {BEN} hello")
            nodes[1].says(f"whisper {ANN} hello")
            time.sleep(0.1)
            for which, other in enumerate((BEN, ANN)):
                came = [at for at, line in list(nodes[which].lines)
                        if line.startswith(f"WHISPER {other}") and at >= free]
                if came and heard[which] is None:
                    heard[which] = came[0] - free
        time.sleep(1)
        exits = sum(node.count("EXIT", free) for node in nodes)
        return {"heard": heard, "exits": exits, "statuses": [node.end() for node in nodes]}
    finally:
        for node in nodes:
            if node.process.poll() is None:
                node.process.kill()
        cell.close()


def _all_blocked(job: Tuple[str, int, Sequence[int], str, float, float]) -> Figures:
    return blocked(*job)


def blocked_often(
    program: str, block: Sequence[int], how: str, seconds: float, times: int, watch: float
) -> List[Figures]:
    """The same so many times, beside each other."""
    base = 1000 * (1 + sum(block)) + int(seconds)
    with multiprocessing.get_context("fork").Pool(times) as pool:
        return pool.map(_all_blocked, [(program, 100 * base + k, block, how, seconds, watch) for k in range(times)], 1)


def _answer(mailbox: socket.socket) -> None:
    """Greets whoever connects, as a ROUTER, and reads what comes."""
    ready = made.GREETING + made.command(b"READY", made.metadata([(b"Socket-Type", b"ROUTER")]))
    readers = selectors.DefaultSelector()
    readers.register(mailbox, selectors.EVENT_READ, mailbox)
    while True:
        for key, _ in readers.select():
            one: socket.socket = key.data
            with contextlib.suppress(OSError):
                if one is mailbox:
                    link, _ = mailbox.accept()
                    link.sendall(ready)
                    readers.register(link, selectors.EVENT_READ, link)
                elif not one.recv(1 << 20):
                    readers.unregister(one)
                    one.close()


def _flood(cell: Cell, count: int, identities: bool, ready: Any, stop: Any) -> None:
    """Sends at full speed on so many connections until it is told to stop."""
    flood, octets = selectors.DefaultSelector(), b""
    sockets: List[socket.socket] = []
    for host in STRANGERS if identities else []:
        with cell.inside(1):
            mailbox = socket.create_server((host, 50000), backlog=512)
        threading.Thread(target=_answer, args=(mailbox,), daemon=True).start()
    for k in range(count):
        host = STRANGERS[k // 100]
        with contextlib.suppress(OSError):
            one = cell.connect(host)
            own = bytes([0xdd, k // 256, k % 256]) + bytes(13)
            one.sendall(made.GREETING + made.ready(own))
            if identities:
                one.sendall(hello(host, 50000))
            one.setblocking(False)
            sockets.append(one)
    # whispers of one frame each, numbered as RFC 36 wants it where they are counted
    numbered = b"".join(said(2, number, b"x" * 40) for number in range(2, 65538)) if identities else b""
    numbered = numbered or b"".join(said(2, number, b"x" * 40) for number in range(2, 4000))
    at = {one: 0 for one in sockets}
    for one in sockets:
        flood.register(one, selectors.EVENT_WRITE, one)
    ready.set()
    while not stop.is_set() and at:
        for key, _ in flood.select(0.2):
            one = key.data
            try:
                at[one] = (at[one] + one.send(numbered[at[one]:at[one] + 65536])) % len(numbered)
            except BlockingIOError:
                pass
            except OSError:
                flood.unregister(one)
                del at[one]
    for one in sockets:
        one.close()


def flooded(program: str, cell: Cell, count: int, identities: bool, times: int = 150, most: float = 1000) -> Figures:
    """What a friend's PING takes beside so many connections at full speed: so many PINGs, in so many seconds at
    most."""
    node = chat(program, cell, 0, quiet=True)
    context = multiprocessing.get_context("fork")
    ready, stop = context.Event(), context.Event()
    friend = Friend(cell, FRIEND, PORT, b"\xbb" * 16)
    child = context.Process(target=_flood, args=(cell, count, identities, ready, stop), daemon=True)
    try:
        time.sleep(0.3)
        friend.beacon()
        friend.greet()
        if not friend.takes(5):
            return {"entered": False}
        before = pings(friend, 30, most)
        child.start()
        ready.wait(60)
        time.sleep(0.5)
        beside = pings(friend, times, most)
        return {"entered": True, "before": before, "beside": beside, "memory": node.memory()}
    finally:
        stop.set()
        if child.pid:
            child.join(5)
            child.kill()
        friend.close()
        node.end()


def storm(program: str, peer: str, cell: Cell, seconds: int) -> Figures:
    """A stranger says HELLO with the identity of a peer over libzmq. How often the node enters that peer from then
    on."""
    node = chat(program, cell, 0)
    other = Program(cell, 1, [peer, BEN, FRIEND, str(PORT), "ben", "10.78.255.255"])
    try:
        if node.first("ENTER", 15) is None or other.first("ENTER", 15) is None:
            return {"entered": False}
        time.sleep(1)
        begun = time.monotonic()
        stranger = cell.connect(STRANGERS[0])
        stranger.sendall(made.GREETING + made.ready(bytes.fromhex(BEN)) + hello(FRIEND, PORT))
        for number in range(seconds):
            node.says(f"whisper {BEN} {number}")
            other.says(f"whisper {ANN} {number}")
            time.sleep(1)
        enters = [node.count("ENTER", begun + at, begun + at + 1) for at in range(seconds)]
        time.sleep(3)
        told: Figures = {"entered": True, "enters": sum(enters), "most": max(enters), "last": sum(enters[-5:])}
        told["quiet"] = max([0.0, *(at - begun for at, line in list(node.lines)
                                    if at >= begun and line.startswith("ENTER"))])
        told.update(whispers=(other.count("WHISPER", begun), node.count("WHISPER", begun)), of=seconds)
        stranger.close()
        return told
    finally:
        other.end()
        node.end()


def regreeted(program: str, cell: Cell, seconds: float) -> Figures:
    """The same of a raw peer that greets anew whenever it is greeted: how often the node enters it, and when for the
    last time."""
    node = chat(program, cell, 0)
    peer = Greeter(cell, FRIEND, PORT, bytes.fromhex(BEN))
    stranger = None
    try:
        if node.first(f"ENTER {BEN}", 15) is None:
            return {"entered": False}
        time.sleep(1)
        begun, greetings = time.monotonic(), peer.greetings
        stranger = cell.connect(STRANGERS[0])
        stranger.sendall(made.GREETING + made.ready(bytes.fromhex(BEN)) + hello(FRIEND, PORT))
        time.sleep(seconds)
        enters = [at - begun for at, line in list(node.lines) if at >= begun and line.startswith("ENTER")]
        stands = node.count("ENTER", begun) + 1 - node.count("EXIT", begun)
        told = {"entered": True, "enters": len(enters), "quiet": max([0.0, *enters]), "stands": stands == 1}
        told["greetings"] = peer.greetings - greetings
        return told
    finally:
        if stranger is not None:
            stranger.close()
        peer.close()
        node.end()


def newcomer(program: str, cell: Cell, patience: float, attack: Callable[[Cell], Any]) -> Figures:
    """How many seconds a friend waits for the node's link beside an attack, and whether its PING is answered then."""
    node = chat(program, cell, 0)
    friend = Friend(cell, FRIEND, PORT, b"\xbb" * 16)
    held = None
    try:
        time.sleep(0.5)
        held = attack(cell)
        begun = time.monotonic()
        friend.greet()
        while time.monotonic() < begun + patience:
            friend.beacon()
            if friend.takes(1):
                break
        took = time.monotonic() - begun
        answered = friend.link is not None and friend.ping() is not None
        return {"took": took if answered else None, "memory": node.memory(), "closed": node.count("CLOSED")}
    finally:
        if held is not None:
            held()
        friend.close()
        node.end()


def silent_sockets(cell: Cell, count: int = 510) -> Callable[[], None]:
    """So many connections from one address that say nothing."""
    sockets = []
    for _ in range(count):
        with contextlib.suppress(OSError):
            sockets.append(cell.connect(STRANGERS[0], timeout=1))

    def close() -> None:
        for one in sockets:
            one.close()

    return close


def forged_beacons(cell: Cell, rate: float, identities: int = 256, head: float = 10) -> Callable[[], None]:
    """Beacons of so many identities from one address, so many a second, from some seconds before the call returns
    on."""
    out, stop = cell.udp(STRANGERS[0]), threading.Event()

    def send() -> None:
        number = 0
        while not stop.is_set():
            own = bytes([0xee, number % identities % 256, number % identities // 256]) + bytes(13)
            with contextlib.suppress(OSError):
                out.sendto(beacon(own, 40000 + number % identities), (NODE, BEACONS))
            number += 1
            time.sleep(1 / rate if rate else 0)

    thread = threading.Thread(target=send, daemon=True)
    thread.start()
    time.sleep(head)

    def close() -> None:
        stop.set()
        thread.join(2)
        out.close()

    return close


def connected_often(program: str, cell: Cell, count: int, seconds: float) -> Figures:
    """A stranger opens and closes connections. How many of them the node reads, as it tells of their octets by
    CLOSED."""
    node = chat(program, cell, 0)
    try:
        time.sleep(0.5)
        begun = time.monotonic()
        for number in range(count):
            with contextlib.suppress(OSError):
                one = cell.connect(STRANGERS[0], timeout=1)
                one.sendall(bytes(70))
                one.close()
            time.sleep(max(0, begun + number * seconds / count - time.monotonic()))
        took = time.monotonic() - begun
        at_end = node.count("CLOSED", begun, begun + took)
        time.sleep(10)
        return {"seconds": took, "read": at_end, "later": node.count("CLOSED", begun)}
    finally:
        node.end()


def few_descriptors(program: str, cell: Cell, count: int) -> Tuple[Optional[int], str]:
    """The status of a node that may have so few descriptors, None where it goes on, and what it says on standard
    error."""
    words = node_words(program, ANN, NODE, "ann")
    node = Program(cell, 0, ["sh", "-c", f'ulimit -n {count}; exec "$@"', "sh", *words])
    try:
        with contextlib.suppress(Exception):
            node.process.wait(3)
        return node.process.poll(), node.said()
    finally:
        node.end()


def _pestered(cell: Cell, seconds: float) -> None:
    """Strangers at a low rate: garbage, half greetings, connections that stay silent, forged beacons, each some times a
    second."""
    chance, out, end = random.Random(1), cell.udp(STRANGERS[0]), time.monotonic() + seconds
    silent: List[socket.socket] = []
    number = 0
    while time.monotonic() < end:
        number += 1
        with contextlib.suppress(OSError):
            own = bytes([0xee, number % 256]) + bytes(14)
            out.sendto(beacon(own, 40000 + number % 256), (NODE, BEACONS))
            out.sendto(chance.randbytes(chance.randrange(64)), (NODE, BEACONS))
            one = cell.connect(STRANGERS[number % len(STRANGERS)], timeout=1)
            kind = number % 4
            if kind == 0:
                one.sendall(chance.randbytes(chance.randrange(1, 500)))
            elif kind == 1:
                one.sendall((made.GREETING + made.ready(bytes([0xcc]) + bytes(15)))[:chance.randrange(1, 100)])
            elif kind == 2:
                one.sendall(made.GREETING + made.ready(bytes([0xcd, number % 256]) + bytes(14)) + said(2, 1, b"x"))
            if kind == 3 and len(silent) < 100:
                silent.append(one)
            else:
                one.close()
        time.sleep(0.2)
    for one in silent:
        one.close()
    out.close()


def _missed(node: Program, other: str) -> Tuple[int, int]:
    """How many whispers of the other came, and how many times the next one wasn't the next number."""
    beginning, numbers = f"WHISPER {other} ", []
    for _, line in list(node.lines):
        if line.startswith(beginning):
            numbers.append(int(line.split(" ")[3]))
    return len(numbers), sum(1 for before, after in zip([0, *numbers], numbers) if after != before + 1)


def soak(program: str, cell: Cell, seconds: float, rate: float = 20) -> Figures:
    """Two nodes whisper numbers to each other beside strangers. How many came, and how many weren't the next ones."""
    nodes = [chat(program, cell, 0), chat(program, cell, 1)]
    try:
        if nodes[0].first(f"ENTER {BEN}", 15) is None or nodes[1].first(f"ENTER {ANN}", 15) is None:
            return {"entered": False}
        begun, number = time.monotonic(), 0
        strangers = threading.Thread(target=_pestered, args=(cell, seconds), daemon=True)
        strangers.start()
        early = late = nodes[0].memory()
        while time.monotonic() < begun + seconds:
            number += 1
            nodes[0].says(f"whisper {BEN} {number}")
            nodes[1].says(f"whisper {ANN} {number}")
            if number == int(60 * rate):
                early = nodes[0].memory()
            time.sleep(max(0, begun + number / rate - time.monotonic()))
        strangers.join(10)
        time.sleep(2)
        late = nodes[0].memory()
        came = [_missed(nodes[0], BEN), _missed(nodes[1], ANN)]
        exits = nodes[0].count(f"EXIT {BEN}") + nodes[1].count(f"EXIT {ANN}")
        told: Figures = {"entered": True, "sent": 2 * number, "came": came[0][0] + came[1][0]}
        told["gaps"] = came[0][1] + came[1][1]
        told.update(exits=exits, early=early, late=late, statuses=[nodes[1].end(), nodes[0].end()])
        return told
    finally:
        for node in nodes:
            if node.process.poll() is None:
                node.process.kill()
