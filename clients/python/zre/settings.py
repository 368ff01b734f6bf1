"""The settings of a node, and the words of `zre chat` that say them."""
import os
from dataclasses import dataclass, field
from pathlib import Path
from shutil import which
from typing import Dict, Iterable, List, Mapping, Optional, Tuple, Union
from uuid import UUID, uuid4

from . import network
from .events import digits

Octets = Union[bytes, str]
Peer = Union[UUID, bytes, str]
Headers = Union[Mapping[str, str], Mapping[bytes, bytes], Mapping[str, bytes], Mapping[Octets, Octets]]

# The shell has the program ignore these signals: it is ended by the end of its input.
SHIELD = ["/bin/sh", "-c", 'trap "" INT TERM HUP; exec "$@"', "zre"]


class NoProgram(OSError):
    """The program `zre` can't be found."""


def octets(text: Octets) -> bytes:
    """A text as octets: UTF-8, and bytes as they are."""
    return text.encode() if isinstance(text, str) else bytes(text)


def identity(peer: Peer) -> UUID:
    """An identity given as a UUID, as its 16 octets, or as 32 digits with or without hyphens. Raises ValueError."""
    if isinstance(peer, UUID):
        return peer
    return UUID(bytes=bytes(peer)) if isinstance(peer, (bytes, bytearray)) else UUID(peer)


def find_program() -> str:
    """The program: $ZRE, else what the checkout of this package has built, else its release, else `zre` on the path.

    Raises NoProgram where none of them is there.
    """
    given = os.environ.get("ZRE")
    if given:
        found = which(given)
        if not found:
            raise NoProgram(f"ZRE is {given}, and that is no program")
        return found
    top = Path(__file__).resolve().parents[3]
    for place in (top / "crates" / "zre_cli" / "out" / "zre_cli", top / "release" / "zre-x86_64-linux"):
        if os.access(place, os.X_OK) and place.is_file():
            return str(place)
    found = which("zre")
    if found:
        return found
    built = f"; ./zre in {top} builds it" if (top / "zre").exists() else ""
    raise NoProgram(f"no program zre: neither in ZRE, nor beside this package, nor on the path{built}")


@dataclass(frozen=True)
class Settings:
    """What `zre chat` is told of a node. Times are milliseconds; None stands for the program's own default."""

    uuid: UUID
    host: str
    port: int
    name: Optional[bytes] = None
    headers: Mapping[bytes, bytes] = field(default_factory=dict)
    to: Tuple[str, ...] = ()
    listen: Optional[str] = None
    beacon: Optional[int] = None
    interval: Optional[int] = None
    evasive: Optional[int] = None
    expired: Optional[int] = None
    capture: Optional[str] = None

    @property
    def shown_name(self) -> bytes:
        """The name that peers are told: without one it is the first six digits of the identity."""
        return digits(self.uuid)[:6].encode() if self.name is None else self.name

    @property
    def endpoint(self) -> str:
        return f"tcp://{self.host}:{self.port}"

    def words(self) -> List[bytes]:
        """The words after `zre chat`. Raises ValueError for what no word can say: another text than UTF-8, or NUL."""
        words = [f"id={digits(self.uuid)}".encode(), f"host={self.host}".encode(), b"port=%d" % self.port]
        if self.name is not None:
            words.append(b"name=" + self.name)
        words += [b"header=" + name + b"=" + value for name, value in self.headers.items()]
        words += [f"to={address}".encode() for address in self.to]
        for key in ("listen", "beacon", "interval", "evasive", "expired", "capture"):
            value = getattr(self, key)
            if value is not None:
                words.append(os.fsencode(f"{key}={value}"))
        for word in words:
            if b"\0" in word:
                raise ValueError(f"no word can have a NUL: {word!r}")
            try:
                word.decode()
            except UnicodeDecodeError:
                raise ValueError(f"a word must be UTF-8: {word!r}") from None
        if any(b"=" in name for name in self.headers):
            raise ValueError("the name of a header can't have a =")
        return words

    def command(self, program: Optional[str] = None) -> List[bytes]:
        """The command line of a chat that ignores the signals INT, TERM and HUP, so that its input alone ends it."""
        return [os.fsencode(part) for part in [*SHIELD, program or find_program(), "chat"]] + self.words()


def settings(
    name: Optional[Octets] = None,
    headers: Optional[Headers] = None,
    interface: Optional[str] = None,
    *,
    uuid: Optional[Peer] = None,
    host: Optional[str] = None,
    port: Optional[int] = None,
    to: Optional[Iterable[str]] = None,
    **rest: Union[str, int, None],
) -> Settings:
    """Settings with what is left out found here.

    Without `host` it is the address of `interface`, or of the interface of the default route, or of the loopback
    interface. Without `to` it is the broadcast address of that network. Without `port` a free one is picked, and
    without `uuid` a new identity is made. Raises NoInterface where no address is found, OSError where the address
    isn't one of this machine.
    """
    if host is None:
        place: Optional[network.Interface] = network.interface(interface) if interface else network.default_interface()
    else:
        place = network.interface(interface) if interface else network.interface_of(host)
    address = host if host is not None or place is None else place.address
    assert address is not None
    if to is None:
        to = [place.broadcast] if place is not None and place.broadcast else []
    known: Dict[str, Union[str, int, None]] = {key: value for key, value in rest.items() if value is not None}
    return Settings(
        uuid4() if uuid is None else identity(uuid),
        address,
        network.free_port(address) if port is None else port,
        None if name is None else octets(name),
        {octets(one): octets(value) for one, value in (headers or {}).items()},
        tuple(to),
        **known,  # type: ignore[arg-type]
    )
