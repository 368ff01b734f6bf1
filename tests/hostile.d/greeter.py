"""A raw peer that greets anew whenever it is greeted, as zyre does over libzmq: at a HELLO of a node that it holds for
entered it forgets that node, closes its connection to it and opens another one, with a HELLO. As libzmq it says nothing
but its greeting on a connection before the node's greeting came, and HELLO only after the node's READY.
"""
import contextlib
import socket
import threading
import time
from typing import Optional

import made
from lab import BEACONS, NODE, Cell, beacon, frames_in, hello

ROUTER = made.command(b"READY", made.metadata([(b"Socket-Type", b"ROUTER")]))


def receive(one: socket.socket, size: int) -> bytes:
    """So many octets at least, or fewer where the other end closes."""
    octets = b""
    with contextlib.suppress(OSError):
        while len(octets) < size:
            piece = one.recv(65536)
            if not piece:
                break
            octets += piece
    return octets


class Greeter:
    """The peer, with threads of its own: one beacons, one takes the node's links, and one for each connection talks."""

    def __init__(self, cell: Cell, host: str, port: int, identity: bytes) -> None:
        self.cell, self.host, self.port, self.identity = cell, host, port, identity
        with cell.inside(1):
            self.mailbox = socket.create_server((host, port))
        self.out = cell.udp(host)
        self.dealer: Optional[socket.socket] = None
        self.greetings = 0
        self.is_over = False
        for work in self._beacons, self._takes:
            threading.Thread(target=work, daemon=True).start()

    def _beacons(self) -> None:
        while not self.is_over:
            with contextlib.suppress(OSError):
                self.out.sendto(beacon(self.identity, self.port), (NODE, BEACONS))
            time.sleep(0.5)

    def _takes(self) -> None:
        with contextlib.suppress(OSError):
            while not self.is_over:
                link, _ = self.mailbox.accept()
                threading.Thread(target=self._hears, args=(link,), daemon=True).start()

    def _hears(self, link: socket.socket) -> None:
        """What the node says on a link: each HELLO is answered by a connection of its own, and the one before is
        closed."""
        with link, contextlib.suppress(OSError):
            link.sendall(made.GREETING + ROUTER)
            rest = receive(link, 64)[64:]
            while not self.is_over:
                frames, rest = frames_in(rest)
                if any(body[:3] == b"\xaa\xa1\x01" for flags, body in frames if not flags & 4):
                    self._greets()
                piece = link.recv(65536)
                if not piece:
                    return
                rest += piece

    def _greets(self) -> None:
        self.greetings += 1
        if self.dealer is not None:
            self.dealer.close()
        self.dealer = self.cell.connect(self.host)
        threading.Thread(target=self._introduces, args=(self.dealer,), daemon=True).start()

    def _introduces(self, one: socket.socket) -> None:
        with contextlib.suppress(OSError):
            one.sendall(made.GREETING)
            got = receive(one, 64)
            one.sendall(made.ready(self.identity))
            # (the shortest READY of a node)
            receive(one, 64 + 20 - len(got))
            one.sendall(hello(self.host, self.port))

    def close(self) -> None:
        """Ends it."""
        self.is_over = True
        for one in self.mailbox, self.out, self.dealer:
            if one is not None:
                one.close()
