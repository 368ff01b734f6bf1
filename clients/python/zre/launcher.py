"""`zre node`: a chat with its address, its port and its identity found, which signals end as `quit` does.

The program ignores INT, TERM and HUP; this process takes them, and ends the program's input. What is typed is passed
on in whole lines; the program writes to the same standard output and standard error as this process.
"""
import argparse
import os
import select
import subprocess
import sys
from typing import List, Optional

from .options import SIGNALS, add_options, from_options, woken
from .settings import find_program

_PIECE = 65_536


def main(words: List[str]) -> int:
    """Runs the node. The exit status is the program's, or 128 and the signal that ended it."""
    parser = argparse.ArgumentParser(
        "zre-node",
        description="A node in a terminal or under a script: zre chat, with"
        " address, port and identity found. It takes the lines of zre chat.",
    )
    add_options(parser)
    parser.add_argument("--stay", action="store_true", help="go on where the input ends; signals end it")
    options = parser.parse_args(words)
    program = find_program()
    wake = woken()  # before anyone is told that the node is there
    return Launcher(from_options(options).command(program), options.stay, wake).run()


class Launcher:
    """The program, its input, and the signals."""

    def __init__(self, command: List[bytes], stays: bool, wake: int) -> None:
        self._command, self._stays, self._wake = command, stays, wake
        self._unsent = self._unfinished = b""
        self._signals = 0
        self._own_input: Optional[int] = sys.stdin.fileno() if sys.stdin is not None else None

    def run(self) -> int:
        """Runs the program to its end."""
        self._program = subprocess.Popen(self._command, stdin=subprocess.PIPE, bufsize=0)
        assert self._program.stdin is not None
        self._input = self._program.stdin
        os.set_blocking(self._input.fileno(), False)
        if self._own_input is None and not self._stays:
            self._finish()
        while self._program.poll() is None:
            self._turn()
        status = self._program.returncode
        return status if status >= 0 else 128 - status

    def _turn(self) -> None:
        """Waits for one thing to happen, and does what follows."""
        reads = [self._wake]
        if self._own_input is not None and len(self._unsent) < _PIECE and not self._input.closed:
            reads.append(self._own_input)
        writes = [self._input] if self._unsent and not self._input.closed else []
        readable, writable, _ = select.select(reads, writes, [])
        if self._wake in readable:
            self._take_signals(os.read(self._wake, 64))
        if writable and not self._input.closed:
            self._write()
        if self._own_input in readable:
            self._read()

    def _take_signals(self, numbers: bytes) -> None:
        self._signals += sum(number in SIGNALS for number in numbers)
        if self._signals > 1 and self._program.poll() is None:
            self._program.kill()
        elif self._signals:
            self._input.close()

    def _read(self) -> None:
        assert self._own_input is not None
        try:
            piece = os.read(self._own_input, _PIECE)
        except OSError:  # a terminal that is gone
            piece = b""
        whole, feed, rest = (self._unfinished + piece).rpartition(b"\n")
        if len(rest) > 2 * _PIECE or not piece:
            whole, feed, rest = whole + feed + rest, b"", b""  # too long for a command, or the last line
        self._unsent += whole + feed
        self._unfinished = rest
        if not piece:
            self._own_input = None
            if not self._stays and not self._unsent:
                self._finish()
            elif self._stays and self._unsent and not self._unsent.endswith(b"\n"):
                self._unsent += b"\n"

    def _write(self) -> None:
        try:
            self._unsent = self._unsent[os.write(self._input.fileno(), self._unsent[:_PIECE]) :]
        except BlockingIOError:
            return
        except BrokenPipeError:
            self._unsent = b""
            self._finish()
            return
        if not self._unsent and self._own_input is None and not self._stays:
            self._finish()

    def _finish(self) -> None:
        self._input.close()
