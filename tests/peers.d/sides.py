"""Two sides in network namespaces of their own, joined by a veth pair: zre, and a peer over libzmq (peer.c)."""
from __future__ import annotations

import contextlib
import importlib.machinery
import importlib.util
import os
import queue
import shutil
import signal
import subprocess
import sys
import tempfile
import threading
import time
from typing import Iterator, List, Optional, Sequence, Tuple, Union

sys.dont_write_bytecode = True
# The folder of the tests.
HERE = os.path.dirname(os.path.dirname(os.path.realpath(__file__)))
loader = importlib.machinery.SourceFileLoader("real", os.path.join(HERE, "real"))
spec = importlib.util.spec_from_loader("real", loader)
assert spec is not None
real = importlib.util.module_from_spec(spec)
loader.exec_module(real)

PACKAGES = ["libzmq3-dev", "gcc", "libc6-dev", "iproute2"]
# Seconds that a line may take.
SOON = 15
# A line that is due, or several of which one is.
Due = Union[str, Tuple[str, ...]]

NODE = "A0000000000000000000000000000001"
PEER = "B0000000000000000000000000000002"
OTHER = "C0000000000000000000000000000003"
NODE_HOST, PEER_HOST, BROADCAST = "10.77.0.1", "10.77.0.2", "10.77.0.255"
NODE_ENDPOINT, PEER_ENDPOINT = f"tcp://{NODE_HOST}:49152", f"tcp://{PEER_HOST}:49153"
NODE_WORDS = [f"id={NODE}", f"host={NODE_HOST}", "port=49152", "name=node", "header=X-K=v"]
NETWORK_WORDS = [f"to={BROADCAST}", "interval=200"]
# Milliseconds between heartbeats of libzmq, and PING of ZMTP as it then comes.
BEATS, BEAT = 200, b"0407" + b"\x04PING".hex().encode()
# On a busy machine a program may stand still for some seconds.
PATIENT = ["evasive=20000", "expired=30000"]
PEER_WORDS = [PEER, PEER_HOST, "49153", "a peer", BROADCAST, "X-Kind=real, over libzmq"]
ENTER_NODE = f"ENTER {NODE} node {NODE_ENDPOINT} X-K=v"
ENTER_PEER = f"ENTER {PEER} a%20peer {PEER_ENDPOINT} X-Kind=real%2C%20over%20libzmq"
OF_NODE, OF_PEER = f"{NODE} node", f"{PEER} a%20peer"
# The TCP port of a gate.
DOOR = 49170


class Skipped(Exception):
    pass


class Wrong(Exception):
    pass


def quiet(*words: str, timeout: float = 20) -> Tuple[bool, str]:
    """Whether a command ends well, and what it says."""
    try:
        ended = subprocess.run(words, stdin=subprocess.DEVNULL, stdout=subprocess.PIPE, stderr=subprocess.STDOUT,
                               timeout=timeout)
    except (OSError, subprocess.TimeoutExpired) as why:
        return False, str(why)
    return ended.returncode == 0, ended.stdout.decode(errors="replace").strip()


def compiled(to: str) -> Tuple[bool, str]:
    """Compiles the peer, and beside it one whose sockets have heartbeats."""
    source = os.path.join(HERE, "peers.d", "peer.c")
    words = ["gcc", "-std=gnu11", "-O1", "-Wall", "-Wextra", source]
    done, said = quiet(*words, "-o", to, "-lzmq", timeout=60)
    return quiet(*words, f"-DBEATS={BEATS}", "-o", f"{to}-beating", "-lzmq", timeout=60) if done else (done, said)


def prepared(peer: str) -> None:
    """Compiles the peer, and installs what is missing for it."""
    if os.geteuid() != 0:
        raise Skipped("namespaces are made by root alone")
    if shutil.which("ip") and compiled(peer)[0]:
        return
    quiet("apt-get", "update", timeout=120)
    os.environ["DEBIAN_FRONTEND"] = "noninteractive"
    done, said = quiet("apt-get", "install", "-y", "--no-install-recommends", *PACKAGES, timeout=300)
    if not done:
        raise Skipped(f"no packages {' '.join(PACKAGES)}: {said[-200:]}")
    done, said = compiled(peer)
    if not done:
        raise Wrong(f"the peer can't be compiled: {said}")


@contextlib.contextmanager
def namespaces() -> Iterator[List[str]]:
    """Two namespaces with a veth pair between them. Their names are of this run alone."""
    names = [f"zre-peers-{os.getpid()}-{which}" for which in "ab"]
    try:
        for name in names:
            must("ip", "netns", "add", name)
        must("ip", "-n", names[0], "link", "add", "veth0", "type", "veth", "peer", "name", "veth0", "netns", names[1])
        for name, host in zip(names, (NODE_HOST, PEER_HOST)):
            must("ip", "-n", name, "addr", "add", f"{host}/24", "broadcast", BROADCAST, "dev", "veth0")
            must("ip", "-n", name, "link", "set", "lo", "up")
            must("ip", "-n", name, "link", "set", "veth0", "up")
        must("ip", "netns", "exec", names[0], "true")
        yield names
    finally:
        for name in names:
            quiet("ip", "netns", "del", name)


def must(*words: str) -> None:
    done, said = quiet(*words)
    if not done:
        raise Skipped(f"no namespaces: {' '.join(words)}: {said}")


class Side:
    """A program in a namespace: what is put on its input, the lines that it writes, and what it says on standard
    error."""

    def __init__(self, called: str, namespace: str, words: Sequence[str]) -> None:
        self.called, self.error = called, tempfile.TemporaryFile()
        self.lines: queue.Queue[Optional[bytes]] = queue.Queue()
        self.text: List[bytes] = []
        words = ["ip", "netns", "exec", namespace, *words]
        self.program = subprocess.Popen(words, stdin=subprocess.PIPE, stdout=subprocess.PIPE, stderr=self.error)
        assert self.program.stdin is not None and self.program.stdout is not None
        self.input, self.output = self.program.stdin, self.program.stdout
        threading.Thread(target=self.listen, daemon=True).start()

    def listen(self) -> None:
        for line in self.output:
            self.lines.put(line)
        self.lines.put(None)

    def put(self, *lines: str) -> None:
        try:
            self.input.write("".join(line + "\n" for line in lines).encode())
            self.input.flush()
        except BrokenPipeError:
            raise Wrong(f"the {self.called} reads no more lines; its status is {self.program.wait(SOON)}") from None

    def next(self, seconds: float) -> Optional[str]:
        """The next line; None at the end."""
        line = self.lines.get(timeout=seconds)
        if line is None:
            self.lines.put(None)
            return None
        self.text.append(line)
        return line.decode(errors="replace").rstrip("\n")

    def tells(self, *lines: Due, besides: Optional[str] = None) -> None:
        """Waits for these lines, and for no others between them but `besides`. A tuple is lines of which one comes."""
        for line in lines:
            wanted = line if isinstance(line, tuple) else (line,)
            got = self.soon()
            while got is not None and got not in wanted and got == besides:
                got = self.soon()
            if got not in wanted:
                due = " or ".join(shown(w) for w in wanted)
                raise Wrong(f"the {self.called} was to write\n  {due}\nand wrote\n  {shown(got)}")

    def soon(self) -> Optional[str]:
        try:
            return self.next(SOON)
        except queue.Empty:
            return "nothing in time"

    def tells_only(self, line: Optional[str], seconds: float) -> int:
        """For so long nothing is told but this line, or nothing at all. How often it was."""
        count, end = 0, time.monotonic() + seconds
        while True:
            try:
                got = self.next(max(0, end - time.monotonic()))
            except queue.Empty:
                return count
            if got is None or got != line:
                raise Wrong(f"the {self.called} was to write {line or 'nothing'}, and wrote\n  {shown(got)}")
            count += 1

    def stops(self, *lines: Due) -> None:
        """It is told to quit, writes these lines and STOP, and ends."""
        self.put("quit")
        self.tells(*lines, "STOP")
        self.ends(0)

    def ends(self, status: int, seconds: float = SOON) -> None:
        """It ends with this status, and writes nothing more."""
        try:
            got = self.program.wait(seconds)
            rest = self.next(seconds)
        except (subprocess.TimeoutExpired, queue.Empty):
            raise Wrong(f"the {self.called} doesn't end") from None
        if rest is not None:
            raise Wrong(f"the {self.called} was to end, and wrote\n  {shown(rest)}")
        if got != status:
            raise Wrong(f"the {self.called} ended with status {got} and not {status}")

    def said(self) -> str:
        """What it said on standard error so far."""
        self.error.seek(0)
        text: bytes = self.error.read()
        return text.decode(errors="replace")

    def ticks(self) -> float:
        """Seconds of processor time so far, of all threads."""
        with open(f"/proc/{self.program.pid}/stat", encoding="ascii") as stat:
            fields = stat.read().rpartition(")")[2].split()
        return (int(fields[11]) + int(fields[12])) / os.sysconf("SC_CLK_TCK")

    def kill(self) -> None:
        if self.program.poll() is None:
            self.program.kill()
        self.program.wait()
        self.error.close()
        with contextlib.suppress(BrokenPipeError):
            self.input.close()


def shown(line: Optional[str]) -> str:
    if line is None:
        return "the end"
    return line if len(line) < 400 else f"{line[:380]}.. ({len(line)} octets)"


class Bench:
    """What the cases start, and end whatever happens."""

    def __init__(self, peer: str, names: List[str], folder: str) -> None:
        self.peer_program, self.names, self.folder = peer, names, folder
        self.sides: List[Side] = []

    def side(self, called: str, which: int, *words: str) -> Side:
        side = Side(called, self.names[which], words)
        self.sides.append(side)
        return side

    def node(self, patience: List[str] = PATIENT) -> Side:
        words = [*NODE_WORDS, *patience, *NETWORK_WORDS, f"capture={self.capture()}"]
        return self.side("node", 0, real.PROGRAM, "chat", *words)

    def gate(self) -> Side:
        words = [*NODE_WORDS, *PATIENT, *NETWORK_WORDS, f"capture={self.capture()}"]
        return self.side("gate", 0, real.PROGRAM, "gate", *words, "clients=2", f"local=127.0.0.1:{DOOR}")

    def peer(self) -> Side:
        return self.side("peer", 1, self.peer_program, *PEER_WORDS)

    def beating_peer(self) -> Side:
        return self.side("peer", 1, f"{self.peer_program}-beating", *PEER_WORDS)

    def capture(self) -> str:
        return os.path.join(self.folder, "capture")

    def replays(self, node: Side) -> None:
        """What the node printed is what its capture tells."""
        wanted = b"".join(node.text), 0
        got = real.from_file(["replay"], self.capture())
        if got[1] == "none in time":
            raise Wrong("the replay of the capture doesn't end")
        if got != wanted:
            raise Wrong(f"the capture is replayed otherwise than printed: {real.difference(got, wanted)}")

    def ended(self) -> List[str]:
        statuses = [(side.called, side.program.poll(), side.said()) for side in self.sides]
        return [f"(the {called} has ended, with status {status}) {said}"
                for called, status, said in statuses if status is not None]

    def clear(self) -> None:
        for side in self.sides:
            side.kill()
        self.sides.clear()
        with contextlib.suppress(FileNotFoundError):
            os.remove(self.capture())
