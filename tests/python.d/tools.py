"""The tool node as a program of its own."""
from __future__ import annotations

import argparse
import contextlib
import io
import os
import signal
import stat
import subprocess
import sys
import time
import uuid
from typing import IO, Iterator, List, Optional, Tuple

import zre
import zre.options
from nodes import ANN, BEN, HOSTS, SOON, due, fails, node, subject
from zre.settings import Settings


class Tool(subprocess.Popen[bytes]):
    """A tool that runs with three pipes, and what was read of its standard error."""
    stdin: IO[bytes]
    stdout: IO[bytes]
    stderr: IO[bytes]
    said = ""


def options(who: uuid.UUID = ANN, *more: str, look: str = "0") -> List[str]:
    addresses = [f"--to={host}" for host in HOSTS.values()]
    return [f"--host={HOSTS[who]}", f"--listen={HOSTS[who]}", *addresses, "--interval=100", f"--look={look}", *more]


@contextlib.contextmanager
def tool(*words: str, wait_for: Optional[str] = None) -> Iterator[Tool]:
    """A tool that runs, and is killed in the end where it still does. What it says is read up to this text."""
    pipe = subprocess.PIPE
    ran = Tool([sys.executable, "-m", "zre", *words], stdin=pipe, stdout=pipe, stderr=pipe, bufsize=0)
    try:
        while wait_for and wait_for not in ran.said:
            line = ran.stderr.readline().decode()
            assert line, f"it ended with {ran.wait()}: {ran.said}"
            ran.said += line
        yield ran
    finally:
        if ran.poll() is None:
            ran.kill()
        ran.wait()
        for stream in ran.stdin, ran.stdout, ran.stderr:
            with contextlib.suppress(BrokenPipeError):
                stream.close()


def ended(*words: str, status: int) -> Tuple[str, str]:
    ran = subprocess.run(
        [sys.executable, "-m", "zre", *words], stdin=subprocess.DEVNULL, capture_output=True, timeout=15
    )
    assert ran.returncode == status, ran
    return ran.stdout.decode(), ran.stderr.decode()


def signals_end_a_node_as_quit_does() -> None:
    ben = node("Ben", BEN)
    times = []
    for one in signal.SIGINT, signal.SIGTERM, signal.SIGHUP:
        with tool("node", "--id=new", "--name=Ann", *options(), wait_for="beacons to") as ran:
            ran.stdin.write(b"join g\njoin half")  # half a line isn't sent
            entered = ben.recv(SOON)
            due(ben, zre.Join(subject(entered), b"Ann", b"g"))
            begun = time.monotonic()
            ran.send_signal(one)
            gone = ben.recv(SOON)
            times.append(time.monotonic() - begun)
            assert isinstance(gone, zre.Exit) and gone.cause.word in ("shut", "link", "beacon"), gone
            assert ran.wait(SOON) == 0
            told = ran.stdout.read().decode().split("\n")
            assert told[-3:] == [f"EXIT {'%032X' % BEN.int} Ben stop", "STOP", ""], told
    # a tenth of a second where the machine is idle; without the signal's being taken it is the 30 seconds of expired
    assert max(times) < 5, times
    print("tests/python: a peer is told of a signal after", *(f"{1000 * one:.0f}" for one in times), "ms")


def a_node_passes_its_input_on() -> None:
    ben = node("Ben", BEN)
    with tool("node", "--id=new", "--name=Ann", *options(), wait_for="beacons to") as ran:
        peer = subject(ben.recv(SOON))
        ran.stdin.write(b"".join(b"whisper %032X %d\n" % (BEN.int, number) for number in range(3000)) + b"join last")
        ran.stdin.close()
        due(
            ben,
            *(zre.Whisper(peer, b"Ann", (b"%d" % number,)) for number in range(3000)),
            zre.Join(peer, b"Ann", b"last"),
        )
        assert ran.wait(SOON) == 0
    with tool("node", "--id=new", "--name=Ann", "--stay", *options(), wait_for="beacons to") as ran:
        ran.stdin.close()
        assert isinstance(ben.recv(SOON), zre.Exit)
        assert isinstance(ben.recv(SOON), zre.Enter)
        assert ben.recv(0.5) is None  # it stays
        ran.terminate()
        assert ran.wait(SOON) == 0 and isinstance(ben.recv(SOON), zre.Exit)


def settled(*words: str) -> Tuple[Settings, str]:
    """The settings of a node by options, and what is said of them, without starting it."""
    parser = argparse.ArgumentParser()
    zre.options.add_options(parser)
    zre.options._kept = None  # the identity of the time before is free again
    with contextlib.redirect_stderr(io.StringIO()) as said:
        made = zre.options.from_options(parser.parse_args(words))
    return made, said.getvalue()


def an_identity_is_kept_for_its_name() -> None:
    (ann, said), (ben, _) = settled("--name=Ann", *options()), settled("--name=Ben", *options())
    line = (
        f"zre: Ann {ann.uuid.hex.upper()} at tcp://127.0.0.41:{ann.port}, beacons to 127.0.0.41:5670, 127.0.0.42:5670\n"
    )
    assert said.startswith(line), said
    new, _ = settled("--name=Ann", "--id=new", *options())
    assert len({ann.uuid, ben.uuid, new.uuid}) == 3
    with tool("node", "--name=Ann", *options(), wait_for="beacons to") as ran:
        assert f"Ann {ann.uuid.hex.upper()} at" in ran.said
        assert "in use by a running node" in str(fails(zre.options.ToolError, settled, "--name=Ann", *options()))
        ran.terminate()
        assert ran.wait(SOON) == 0
    assert settled("--name=Ann", *options())[0].uuid == ann.uuid
    kept = os.path.join(os.environ["XDG_STATE_HOME"], "zre", "Ann.id")
    assert stat.S_IMODE(os.stat(kept).st_mode) == 0o600
    with open(kept, "w") as file:
        file.write("rubbish")
    assert "Ann.id: 'rubbish' is no identity" in str(fails(zre.options.ToolError, settled, "--name=Ann", *options()))


def what_is_odd_is_warned_of() -> None:
    for words, warning in (
        (["--to=-"], "it sends no beacons (--to)"),
        (["--host=0.0.0.0", "--to=127.255.255.255"], "peers are told the address 0.0.0.0 (--host)"),
        (
            ["--host=127.0.0.41", "--to=10.0.0.9"],
            "10.0.0.9 (--to) is no broadcast address of this machine (127.255.255.255)",
        ),
    ):
        said = settled("--id=new", *words)[1]
        assert said.count("warning") == 1 and warning in said, said
    assert "warning" not in settled("--id=new")[1]
    for word, why in {
        "--interface=none0": "no interface none0",
        "--host=10.9.9.9": "10.9.9.9: Cannot assign",
        "--id=7": "--id 7: 32 hexadecimal digits",
        "--header=x": "--header x: NAME=VALUE is wanted",
    }.items():
        assert why in str(fails(zre.options.ToolError, settled, "--id=new", word))
    taken = ended("node", "--id=new", "--host=127.0.0.41", "--listen=10.9.9.9", status=6)[1]
    assert "zre: cannot hear beacons on 10.9.9.9:5670" in taken, taken
    assert "usage" in ended("fly", status=2)[1] and "no interface" in ended("node", "--interface=none0", status=2)[1]


def the_same_identity_elsewhere_is_warned_of() -> None:
    node("Ann", BEN)
    said = settled(f"--id={BEN}", *options(look="8"))[1]
    assert "warning: a node at 127.0.0.42 has the same identity" in said, said


CASES = [
    signals_end_a_node_as_quit_does,
    a_node_passes_its_input_on,
    an_identity_is_kept_for_its_name,
    what_is_odd_is_warned_of,
    the_same_identity_elsewhere_is_warned_of,
]
