"""A network of two namespaces for tests/hostile and bench/hostile, and a raw peer that lives in one of them.

The node under attack is at 10.78.0.1 in the first namespace. Whoever talks to it, friends and strangers, is in the
second one, which has many addresses, so that a stranger can come from another address than a friend. Sockets are made
by a thread that enters a namespace for a moment: a socket stays where it was made.
"""
import contextlib
import ctypes
import os
import select
import socket
import struct
import subprocess
import sys
import tempfile
import threading
import time
from typing import Dict, Iterator, List, Optional, Tuple

sys.path.insert(0, os.path.join(os.path.dirname(os.path.dirname(os.path.realpath(__file__))), "fuzz.d"))
import made  # noqa: E402  (beside this folder)

NODE, FRIEND, BROADCAST, PORT, BEACONS = "10.78.0.1", "10.78.0.2", "10.78.255.255", 49152, 5670
# A stranger's addresses: 10.78.1.1, 10.78.1.2 and so on.
STRANGERS = [f"10.78.1.{last}" for last in range(1, 9)]
CLONE_NEWNET = 0x40000000
PING, PING_OK = 6, 7
# The seconds between two PINGs of a friend.
PAUSE = 0.02


class Skipped(Exception):
    """The machine lacks something."""


def must(*words: str) -> None:
    """Runs a command that a namespace needs."""
    ended = subprocess.run(words, stdin=subprocess.DEVNULL, stdout=subprocess.PIPE, stderr=subprocess.STDOUT,
                           check=False)
    if ended.returncode != 0:
        raise Skipped(f"{' '.join(words)}: {ended.stdout.decode(errors='replace').strip()}")


class Cell:
    """Two namespaces joined by a veth pair."""

    def __init__(self, number: int = 0) -> None:
        self.names = [f"zre-hostile-{os.getpid()}-{number}-{which}" for which in "ab"]
        near, far = self.names
        for name in self.names:
            must("ip", "netns", "add", name)
        must("ip", "-n", near, "link", "add", "veth0", "type", "veth", "peer", "name", "veth0", "netns", far)
        for name, hosts in zip(self.names, ([NODE], [FRIEND, *STRANGERS])):
            for host in hosts:
                must("ip", "-n", name, "addr", "add", f"{host}/16", "broadcast", BROADCAST, "dev", "veth0")
            must("ip", "-n", name, "link", "set", "lo", "up")
            must("ip", "-n", name, "link", "set", "veth0", "up")

    def close(self) -> None:
        """Takes the namespaces away."""
        for name in self.names:
            subprocess.run(["ip", "netns", "del", name], stderr=subprocess.DEVNULL, check=False)

    def block(self, which: int, how: str = "reject with tcp reset") -> None:
        """From now on a namespace refuses, or drops, connections that others open to a mailbox in it."""
        rules = "add table inet t; add chain inet t in { type filter hook input priority 0; }; "
        rules += f"add rule inet t in tcp dport {PORT} tcp flags & (syn | ack) == syn {how}"
        must("ip", "netns", "exec", self.names[which], "nft", rules)

    def unblock(self, which: int) -> None:
        """No more."""
        must("ip", "netns", "exec", self.names[which], "nft", "delete table inet t")

    @contextlib.contextmanager
    def inside(self, which: int) -> Iterator[None]:
        """This thread makes its sockets in a namespace."""
        libc = ctypes.CDLL(None, use_errno=True)
        with open("/proc/thread-self/ns/net", "rb") as own, open(f"/var/run/netns/{self.names[which]}", "rb") as there:
            if libc.setns(there.fileno(), CLONE_NEWNET) != 0:
                raise Skipped("a namespace can't be entered")
            try:
                yield
            finally:
                libc.setns(own.fileno(), CLONE_NEWNET)

    def connect(self, host: str, to: Tuple[str, int] = (NODE, PORT), timeout: float = 5) -> socket.socket:
        """A connection from an address of the second namespace to the node."""
        with self.inside(1):
            client = socket.socket()
        client.settimeout(timeout)
        try:
            client.bind((host, 0))
            client.connect(to)
            client.setsockopt(socket.IPPROTO_TCP, socket.TCP_NODELAY, 1)
        except OSError:
            client.close()
            raise
        return client

    def udp(self, host: str) -> socket.socket:
        """A socket for beacons of an address of the second namespace."""
        with self.inside(1):
            out = socket.socket(socket.AF_INET, socket.SOCK_DGRAM)
        out.bind((host, 0))
        return out


class Program:
    """A chat in a namespace, with the lines that it writes and when they came."""

    def __init__(self, cell: Cell, which: int, words: List[str], quiet: bool = False) -> None:
        self.lines: List[Tuple[float, str]] = []
        self.error = tempfile.TemporaryFile()
        out = subprocess.DEVNULL if quiet else subprocess.PIPE
        words = ["ip", "netns", "exec", cell.names[which], *words]
        self.process = subprocess.Popen(words, stdin=subprocess.PIPE, stdout=out, stderr=self.error)
        self.begun = time.monotonic()
        if not quiet:
            threading.Thread(target=self._read, daemon=True).start()

    def _read(self) -> None:
        assert self.process.stdout is not None
        for line in self.process.stdout:
            self.lines.append((time.monotonic(), line.decode(errors="replace").rstrip("\n")))

    def says(self, line: str) -> None:
        """Types a line."""
        assert self.process.stdin is not None
        with contextlib.suppress(BrokenPipeError):
            self.process.stdin.write(line.encode() + b"\n")
            self.process.stdin.flush()

    def count(self, beginning: str, since: float = 0, until: float = float("inf")) -> int:
        """How many lines with this beginning came in a span of time."""
        return sum(1 for at, line in list(self.lines) if since <= at < until and line.startswith(beginning))

    def first(self, beginning: str, seconds: float) -> Optional[float]:
        """When the first line with this beginning came, in seconds since the program began; None: not in time."""
        end = time.monotonic() + seconds
        while True:
            for at, line in list(self.lines):
                if line.startswith(beginning):
                    return at - self.begun
            if time.monotonic() > end:
                return None
            time.sleep(0.01)

    def said(self) -> str:
        """Its standard error."""
        self.error.seek(0)
        return self.error.read().decode(errors="replace")

    def memory(self) -> float:
        """Resident memory in MB."""
        with open(f"/proc/{self.process.pid}/status", encoding="ascii") as status:
            for line in status:
                if line.startswith("VmRSS"):
                    return int(line.split()[1]) / 1000
        return 0.0

    def end(self) -> Optional[int]:
        """Lets it quit; its status, or None where it had to be killed."""
        self.says("quit")
        try:
            status = self.process.wait(10)
        except subprocess.TimeoutExpired:
            self.process.kill()
            self.process.wait()
            status = None
        assert self.process.stdin is not None
        with contextlib.suppress(OSError):
            self.process.stdin.close()
        self.error.close()
        return status


def node_words(program: str, identity: str, host: str, name: str, *more: str) -> List[str]:
    """The words of a chat."""
    words = [program, "chat", f"id={identity}", f"host={host}", f"port={PORT}", f"name={name}", f"to={BROADCAST}"]
    return words + list(more)


def frames_in(octets: bytes) -> Tuple[List[Tuple[int, bytes]], bytes]:
    """The frames of ZMTP that are whole, each with its flags, and the rest."""
    frames = []
    while len(octets) >= 2:
        flags, size, head = octets[0], octets[1], 2
        if flags & 2:
            if len(octets) < 9:
                break
            size, head = struct.unpack(">Q", octets[1:9])[0], 9
        if len(octets) < head + size:
            break
        frames.append((flags, octets[head:head + size]))
        octets = octets[head + size:]
    return frames, octets


def beacon(identity: bytes, port: int) -> bytes:
    """A beacon of RFC 36."""
    return b"ZRE\x01" + identity + port.to_bytes(2, "big")


def hello(host: str, port: int, number: int = 1) -> bytes:
    """A HELLO without groups and headers, as a message of ZMTP."""
    endpoint = f"tcp://{host}:{port}".encode()
    body = b"\xaa\xa1\x01\x02" + number.to_bytes(2, "big") + made.string(endpoint) + bytes(4) + b"\x00"
    return made.frame(body + made.string(b"raw") + bytes(4))


def said(kind: int, number: int, content: Optional[bytes] = None) -> bytes:
    """A message without fields, or one with a frame of content."""
    head = b"\xaa\xa1" + bytes([kind, 2]) + (number % 65536).to_bytes(2, "big")
    return made.message([head] if content is None else [head, content])


class Friend:
    """A raw peer at an address of the second namespace: it has a mailbox, sends beacons, and asks the node by PING."""

    def __init__(self, cell: Cell, host: str, port: int, identity: bytes) -> None:
        self.cell, self.host, self.port, self.identity = cell, host, port, identity
        self.number = 1
        with cell.inside(1):
            self.mailbox = socket.create_server((host, port))
        self.out = cell.udp(host)
        self.link: Optional[socket.socket] = None
        self.dealer: Optional[socket.socket] = None
        self.rest = b""

    def beacon(self) -> None:
        """Sends a beacon."""
        self.out.sendto(beacon(self.identity, self.port), (NODE, BEACONS))

    def greet(self) -> socket.socket:
        """Connects, and says HELLO."""
        self.dealer = self.cell.connect(self.host)
        self.dealer.sendall(made.GREETING + made.ready(self.identity) + hello(self.host, self.port))
        return self.dealer

    def takes(self, seconds: float) -> bool:
        """Whether the node's link came in time, and greeted."""
        self.mailbox.settimeout(seconds)
        try:
            self.link, _ = self.mailbox.accept()
        except OSError:
            return False
        self.link.settimeout(seconds)
        self.link.setsockopt(socket.IPPROTO_TCP, socket.TCP_NODELAY, 1)
        self.link.sendall(made.GREETING + made.command(b"READY", made.metadata([(b"Socket-Type", b"ROUTER")])))
        self.rest = b""
        got = b""
        with contextlib.suppress(OSError):
            while len(got) < 64:
                piece = self.link.recv(65536)
                if not piece:
                    return False
                got += piece
        self.rest = got[64:]
        return len(got) >= 64

    def _kinds(self) -> List[int]:
        frames, self.rest = frames_in(self.rest)
        return [body[2] for flags, body in frames if not flags & 4 and body[:2] == b"\xaa\xa1" and len(body) > 2]

    def ping(self, seconds: float = 5) -> Optional[float]:
        """How many milliseconds the node takes to answer; None: it doesn't in time."""
        self.number += 1
        begun, dealer, link = time.monotonic(), self.dealer, self.link
        assert dealer is not None and link is not None
        try:
            dealer.sendall(said(PING, self.number))
        except OSError:
            return None
        while PING_OK not in self._kinds():
            left = begun + seconds - time.monotonic()
            if left <= 0 or not select.select([link], [], [], left)[0]:
                return None
            try:
                piece = link.recv(65536)
            except OSError:
                return None
            if not piece:
                return None
            self.rest += piece
        return (time.monotonic() - begun) * 1000

    def close(self) -> None:
        """Closes its sockets."""
        for one in self.mailbox, self.out, self.link, self.dealer:
            if one is not None:
                one.close()


def percentile(values: List[float], part: float) -> float:
    """The value below which this part of the values lies."""
    ordered = sorted(values)
    return ordered[min(len(ordered) - 1, int(part * len(ordered)))]


def pings(friend: Friend, count: int, most: float) -> Dict[str, float]:
    """The median, the 95th percentile and the maximum of so many answers, in milliseconds, how many didn't come, and
    how many were asked for: no further one after so many seconds."""
    lost, end = 0, time.monotonic() + most
    times: List[float] = []
    while len(times) + lost < count and time.monotonic() < end:
        took = friend.ping()
        if took is None:
            lost += 1
        else:
            times.append(took)
        time.sleep(PAUSE)
    seen = times or [float("inf")]
    told = {"median": percentile(seen, 0.5), "p95": percentile(seen, 0.95), "max": max(seen), "lost": lost}
    told["count"] = len(times) + lost
    return told
