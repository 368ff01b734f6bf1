"""What the three tools share: their options, the identity that is kept, and the warnings before a node starts."""
import argparse
import fcntl
import os
import signal
import socket
import sys
import time
from pathlib import Path
from typing import Dict, List, Optional
from urllib.parse import quote as in_a_file_name
from uuid import UUID, uuid4

from . import network
from .events import as_text, digits
from .lines import BadLine, read_id
from .settings import Settings, identity, settings

SIGNALS = (signal.SIGINT, signal.SIGTERM, signal.SIGHUP)  # Those that end a node as `quit` does.
BEACON_PORT = 5670
LOOK = 1.2  # Seconds for which beacons of the own identity are looked for: a little more than one interval of a node.
_TIMES = {"interval": "between beacons", "evasive": "of silence until EVASIVE", "expired": "of silence until EXIT"}


class ToolError(Exception):
    """What ends a tool at once: a line for people, and the exit status."""

    def __init__(self, text: str, status: int = 2) -> None:
        super().__init__(text)
        self.status = status


def report(text: str) -> None:
    """A line on standard error."""
    print(f"zre: {text}", file=sys.stderr, flush=True)


def woken() -> int:
    """A pipe in which the numbers of signals come from now on: of SIGNALS and CHLD, which have no other effect."""
    reading, writing = os.pipe()
    os.set_blocking(writing, False)
    signal.set_wakeup_fd(writing, warn_on_full_buffer=False)
    for one in (*SIGNALS, signal.SIGCHLD):
        signal.signal(one, lambda *_: None)
    return reading


def add_options(parser: argparse.ArgumentParser) -> None:
    """The options that say what node it is."""
    parser.add_argument("--name", help="the name that peers are told (by default the first six digits of the identity)")
    parser.add_argument("--header", action="append", default=[], metavar="NAME=VALUE", help="a header; may stand often")
    parser.add_argument(
        "--interface", help="the interface to use (by default that of the default route, else loopback)"
    )
    parser.add_argument("--host", help="the IPv4 address of the mailbox (by default that of the interface)")
    parser.add_argument("--port", type=int, help="its TCP port (by default a free one)")
    parser.add_argument(
        "--to",
        action="append",
        metavar="ADDRESS",
        help="where beacons go; may stand often, and - is"
        " nowhere (by default the broadcast address of the interface)",
    )
    parser.add_argument("--listen", metavar="ADDRESS", help="where beacons are heard (by default 0.0.0.0)")
    parser.add_argument(
        "--beacon", type=int, metavar="PORT", help=f"the UDP port of beacons (by default {BEACON_PORT})"
    )
    for key, text in _TIMES.items():
        parser.add_argument(f"--{key}", type=int, metavar="MS", help=f"milliseconds {text}")
    parser.add_argument("--capture", metavar="FILE", help="keep the journal in this file")
    parser.add_argument(
        "--id",
        metavar="ID",
        help="the identity, or new for another at each start (by default the one that"
        " is kept for the name in $XDG_STATE_HOME/zre, or ~/.local/state/zre)",
    )
    parser.add_argument(
        "--look",
        type=float,
        default=LOOK,
        metavar="SECONDS",
        help="how long another node of the same"
        f" identity is looked for before the start (by default {LOOK}; 0: not)",
    )


class Kept:
    """The identity of this user's node of a name, in a file that is locked while the node runs."""

    def __init__(self, name: str) -> None:
        state = os.environ.get("XDG_STATE_HOME", "")
        folder = (Path(state) if os.path.isabs(state) else Path.home() / ".local" / "state") / "zre"
        self.path = folder / (in_a_file_name(name, safe=" ")[:200] + ".id" if name else "id")
        try:
            folder.mkdir(parents=True, exist_ok=True)
            self._file = open(os.open(self.path, os.O_RDWR | os.O_CREAT, 0o600), "r+b")
        except OSError as why:
            raise ToolError(
                f"the identity can't be kept in {self.path}: {why.strerror}; --id new does without"
            ) from None
        try:
            fcntl.flock(self._file, fcntl.LOCK_EX | fcntl.LOCK_NB)
        except OSError:
            raise ToolError(
                f"the identity in {self.path} is in use by a running node: take another --name, or --id new"
            ) from None
        text = self._file.read(100).strip()
        self.is_new = not text
        if self.is_new:
            self.uuid = uuid4()
            self._file.write(digits(self.uuid).encode() + b"\n")
            self._file.flush()
            return
        try:
            self.uuid = read_id(text)
        except BadLine as why:
            raise ToolError(f"{self.path}: {why}") from None


def from_options(options: argparse.Namespace) -> Settings:
    """The settings by the options. Says who the node is and what is odd about it, on standard error."""
    headers: Dict[bytes, bytes] = {}
    for header in options.header:
        name, equals, value = os.fsencode(header).partition(b"=")
        if not equals:
            raise ToolError(f"--header {header}: NAME=VALUE is wanted")
        headers[name] = value
    uuid, is_new = _identity(options)
    try:
        made = settings(
            None if options.name is None else os.fsencode(options.name),
            headers,
            options.interface,
            uuid=uuid,
            host=options.host,
            port=options.port,
            to=None if options.to is None else [one for one in options.to if one != "-"],
            **{key: getattr(options, key) for key in ("listen", "beacon", "capture", *_TIMES)},
        )
        made.words()
    except (OSError, ValueError) as why:
        what = (
            f"{options.host or options.interface or 'network'}: " if isinstance(why, OSError) and why.strerror else ""
        )
        raise ToolError(f"{what}{(why.strerror if isinstance(why, OSError) else None) or why}") from None
    report(introduction(made))
    for warning in warnings(made):
        report(f"warning: {warning}")
    if options.look > 0 and not is_new:
        _look(made, options.look)
    return made


def _identity(options: argparse.Namespace) -> "tuple[UUID, bool]":
    """The identity, and whether it was made just now."""
    if options.id == "new":
        return uuid4(), True
    if options.id is not None:
        try:
            return identity(options.id), False
        except ValueError:
            raise ToolError(f"--id {options.id}: 32 hexadecimal digits are wanted, or new") from None
    global _kept
    _kept = Kept(options.name or "")
    return _kept.uuid, _kept.is_new


_kept: Optional[Kept] = None  # Its file stays locked until the process ends.


def introduction(made: Settings) -> str:
    """Who a node is and where, in a line."""
    port = made.beacon or BEACON_PORT
    to = ", ".join(f"{address}:{port}" for address in made.to)
    where = f"at {made.endpoint}, {'beacons to ' + to if to else 'no beacons'}"
    return f"{as_text(made.shown_name)} {digits(made.uuid)} {where}"


def warnings(made: Settings) -> List[str]:
    """What is odd about the settings of a node, and is silent else."""
    found = []
    if not made.to:
        found.append("it sends no beacons (--to): it finds others, and nobody finds it by itself")
    if made.host == "0.0.0.0":
        found.append("peers are told the address 0.0.0.0 (--host), at which they can't reach this machine")
    known = network.broadcasts()
    for address in made.to:
        if address not in known:
            which = ", ".join(sorted(known - {"255.255.255.255"})) or "it has none"
            found.append(
                f"{address} (--to) is no broadcast address of this machine ({which}): zyre and pyre don't hear it there"
            )
    return found


def _look(made: Settings, seconds: float) -> None:
    place = made.listen or "0.0.0.0", made.beacon or BEACON_PORT
    other = same_identity(made.uuid, place, seconds)
    if other is not None:
        report(
            f"warning: a node at {other} has the same identity: they don't see each other, and peers take them for one"
        )


def same_identity(uuid: UUID, place: "tuple[str, int]", seconds: float) -> Optional[str]:
    """The address of a node of this identity that sends beacons to this place meanwhile; None where none is heard.

    Where the place is taken, nothing is heard: then no node can be started there either.
    """
    end = time.monotonic() + seconds
    with socket.socket(socket.AF_INET, socket.SOCK_DGRAM) as ear:
        try:
            ear.bind(place)
        except OSError:
            return None
        while True:
            left = end - time.monotonic()
            if left <= 0:
                return None
            ear.settimeout(left)
            try:
                octets, (address, _) = ear.recvfrom(64)
            except OSError:
                return None
            if octets[:20] == b"ZRE\x01" + uuid.bytes and octets[20:] not in (b"", b"\0\0"):
                return str(address)
