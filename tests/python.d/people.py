"""The terminal client in a terminal, and the examples."""
from __future__ import annotations

import os
import pty
import re
import select
import signal
import subprocess
import sys
import time

import zre
from nodes import BEN, SOON, due, hears_a_beacon, node, subject
from tools import options

HERE = os.path.dirname(os.path.realpath(__file__))
EXAMPLES = os.path.join(HERE, "..", "..", "examples", "python")


def a_person_talks() -> None:
    """In a terminal: events come above a line that is half typed, which stays as it is."""
    ben = node("Bén édicte", BEN)
    process, terminal = pty.fork()
    if process == 0:
        words = ["talk", "--id=new", "--name=Ann", "--group=chat", *options()]
        os.environ["COLUMNS"], os.environ["LINES"] = "100", "30"
        os.execv(sys.executable, [sys.executable, "-m", "zre", *words])
    try:
        peer = subject(ben.recv(SOON))
        due(ben, zre.Join(peer, b"Ann", b"chat"))
        shows(terminal, "Bén édicte is here, at tcp://127.0.0.42:")
        os.write(terminal, "/w B\tpsst é\x1b[D\x1b[D\x7fT \r".encode())
        due(ben, zre.Whisper(peer, b"Ann", ("pssT  é".encode(),)))
        shows(terminal, "to Bén édicte: pssT  é")
        os.write(terminal, b"half a")
        shows(terminal, "chat> half a")
        ben.join("chat")
        ben.shouts("chat", "hello\x1b[2J all")
        shows(terminal, "[chat] Bén édicte: hello\\x1b[2J all\r\n\r\x1b[Kchat> half a")
        os.write(terminal, b" line\r")
        due(ben, zre.Shout(peer, b"Ann", b"chat", (b"half a line",)))
        os.write(terminal, "/join café\r/leave nowhere\r/w Nobody x\r/who\r".encode())
        due(ben, zre.Join(peer, b"Ann", "café".encode()))
        shows(terminal, "the node isn't in this group")
        os.write(terminal, b"\x03")
        gone = ben.recv(SOON)
        assert isinstance(gone, zre.Exit), gone
        assert os.waitstatus_to_exitcode(os.waitpid(process, 0)[1]) == 0
        process = 0
    finally:
        if process:
            os.kill(process, signal.SIGKILL)
            os.waitpid(process, 0)
        os.close(terminal)


def shows(terminal: int, text: str, seconds: float = SOON) -> None:
    """Waits until a terminal was written this text."""
    seen, end = b"", time.monotonic() + seconds
    while text.encode() not in seen:
        assert select.select([terminal], [], [], max(0, end - time.monotonic()))[
            0
        ], f"{text!r} isn't in {seen.decode()!r}"
        seen += os.read(terminal, 65536)


# ---- examples ----


def example(name: str, *words: str) -> str:
    command = [sys.executable, os.path.join(EXAMPLES, name), *words]
    ran = subprocess.run(command, capture_output=True, timeout=18, env={**os.environ, "PYTHONPATH": ""})
    assert ran.returncode == 0 and not ran.stderr, ran
    return ran.stdout.decode()


def the_registry_finds_services() -> None:
    assert example("registry.py") == (
        "printers: tcp://10.0.0.7:9100, tcp://10.0.0.8:9100\nclocks: udp://10.0.0.8:123\n"
        "printers, one stopped: tcp://10.0.0.8:9100\n"
    )


def a_file_comes_over() -> None:
    for size in 1, 3_000_000:
        assert re.search(
            f"^{size} octets in .* SHA-256 [0-9a-f]{{64}} on both sides$", example("send_file.py", str(size)), re.M
        )


def the_first_program_is_there_until_an_interrupt() -> None:
    command = [sys.executable, os.path.join(EXAMPLES, "hello.py")]
    ran = subprocess.Popen(command, stdout=subprocess.PIPE, env={**os.environ, "PYTHONPATH": ""})
    assert ran.stdout is not None
    try:
        hears_a_beacon()
        ran.send_signal(signal.SIGINT)
        assert ran.wait(SOON) == 0
        assert ran.stdout.read() == b""
    finally:
        if ran.poll() is None:
            ran.kill()
            ran.wait()
        ran.stdout.close()


CASES = [
    a_person_talks,
    the_registry_finds_services,
    a_file_comes_over,
    the_first_program_is_there_until_an_interrupt,
]
