"""Where clients of the hub connect: a Unix socket of mode 0600, or a port of the loopback interface."""
import errno
import ipaddress
import os
import resource
import socket
import stat
from contextlib import contextmanager
from typing import Iterator, List

from .options import ToolError, report

_BACKLOG = 1024


class Listener:
    """A listening socket."""

    def __init__(self, place: socket.socket) -> None:
        self.socket = place
        self.is_full = False  # whether no file descriptor is left for a further connection
        place.setblocking(False)

    def accept(self) -> List[socket.socket]:
        """The connections that wait. Reports when the process has no file descriptor left."""
        found: List[socket.socket] = []
        for _ in range(_BACKLOG):
            try:
                found.append(self.socket.accept()[0])
            except BlockingIOError:
                break
            except OSError as why:
                if why.errno in (errno.EMFILE, errno.ENFILE):
                    self.is_full = True
                    report("hub: no file descriptor is left for more clients; they wait")
                break
        return found


@contextmanager
def listen(place: str) -> Iterator[Listener]:
    """Listens at a path, removed in the end, or at ADDRESS:PORT of the loopback interface. Raises ToolError."""
    soft, hard = resource.getrlimit(resource.RLIMIT_NOFILE)
    resource.setrlimit(resource.RLIMIT_NOFILE, (hard, hard))
    address, colon, port = place.rpartition(":")
    is_port = bool(colon) and port.isdigit() and "/" not in place
    try:
        made = _at_port(address, int(port)) if is_port else _at_path(place)
    except OSError as why:
        raise ToolError(f"{place}: {why.strerror or why}", 10) from None
    try:
        yield Listener(made)
    finally:
        made.close()
        if not is_port:
            os.unlink(place)


def _at_port(address: str, port: int) -> socket.socket:
    try:
        is_loopback = ipaddress.IPv4Address(address).is_loopback
    except ValueError:
        is_loopback = False
    if not is_loopback or not 1 <= port <= 65535:
        raise ToolError(
            f"{address}:{port}: an address of the loopback interface and a port are wanted, as 127.0.0.1:7000"
        )
    made = socket.socket(socket.AF_INET, socket.SOCK_STREAM)
    made.setsockopt(socket.SOL_SOCKET, socket.SO_REUSEADDR, 1)
    made.bind((address, port))
    made.listen(_BACKLOG)
    return made


def _at_path(path: str) -> socket.socket:
    """A socket there, in place of one at which nobody listens any more."""
    made = socket.socket(socket.AF_UNIX, socket.SOCK_STREAM)
    try:
        if stat.S_ISSOCK(os.lstat(path).st_mode):
            with socket.socket(socket.AF_UNIX, socket.SOCK_STREAM) as tried:
                if tried.connect_ex(path) == 0:
                    raise ToolError(f"{path}: another hub listens there", 10)
            os.unlink(path)
    except FileNotFoundError:
        pass
    before = os.umask(0o177)
    try:
        made.bind(path)
    finally:
        os.umask(before)
    made.listen(_BACKLOG)
    return made
