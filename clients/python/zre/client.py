"""A client of the hub: its socket, the lines that it sent, and the octets that wait for it."""
import socket
from collections import deque
from typing import Deque, List, Union

from .lines import BadLine

_PIECE = 65_536
_MOST = 1 << 18  # Octets that one client is sent in one turn.


class Gone(Exception):
    """The connection is gone."""


class Client:
    """Neither end waits: the socket doesn't block, and what can't be sent is kept."""

    def __init__(self, place: socket.socket, number: int, line: int) -> None:
        self.socket, self.number, self._line = place, number, line
        place.setblocking(False)
        self.lines: Deque[Union[bytes, BadLine]] = deque()  # complete lines that weren't taken
        self.waiting = 0  # lines that were taken and aren't answered
        self.heard = 0  # events of the current piece that it was given
        self.unsent = 0
        self.is_in_turn = False  # whether the hub will take a line of it
        self._queue: Deque[bytes] = deque()
        self._first = 0  # octets of the first of the queue that were sent
        self._unfinished = b""
        self._is_passing_over = self._has_ended = False

    @property
    def is_read(self) -> bool:
        """Whether more of what it sends is wanted."""
        return not self.lines and not self._has_ended

    @property
    def is_finished(self) -> bool:
        """Whether all is answered and sent, and nothing more comes."""
        return self._has_ended and not self.lines and not self.waiting and not self.unsent

    def quits(self) -> None:
        """What it sent after the line before isn't read."""
        self._has_ended = True
        self.lines.clear()

    def receive(self) -> None:
        """Reads what came, where that is wanted. Raises Gone."""
        if not self.is_read:
            return
        try:
            piece = self.socket.recv(_PIECE)
        except BlockingIOError:
            return
        except OSError:
            raise Gone from None
        *whole, rest = (self._unfinished + piece).split(b"\n")
        if not piece:
            self._has_ended = True
            whole, rest = ([rest] if rest else []), b""
        for line in whole:
            self._add(line)
        if len(rest) > self._line and not self._is_passing_over:
            self._add(rest)
            self._is_passing_over = True
        self._unfinished = b"" if self._is_passing_over else rest

    def _add(self, line: bytes) -> None:
        if self._is_passing_over:  # the end of a line that was refused
            self._is_passing_over = False
        else:
            self.lines.append(
                line if len(line) <= self._line else BadLine(f"the line has more than {self._line} octets")
            )

    def put(self, octets: bytes) -> None:
        """Keeps octets to be sent."""
        if octets:
            self._queue.append(octets)
            self.unsent += len(octets)

    def send(self) -> None:
        """Sends as much as the socket takes, up to a bound. Raises Gone."""
        left = _MOST
        try:
            while self._queue and left > 0:
                pieces: List[memoryview] = []
                for place, octets in zip(range(16), self._queue):
                    pieces.append(memoryview(octets)[0 if place else self._first :])
                sent = self.socket.sendmsg(pieces)
                left -= sent
                self._take_off(sent)
        except BlockingIOError:
            return
        except OSError:
            raise Gone from None

    def _take_off(self, sent: int) -> None:
        self.unsent -= sent
        sent += self._first
        while self._queue and sent >= len(self._queue[0]):
            sent -= len(self._queue.popleft())
        self._first = sent

    def close(self) -> None:
        self.socket.close()
