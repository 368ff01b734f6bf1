"""Addresses of this machine, by the standard library alone (Linux): interfaces, broadcast addresses, a free port."""
import fcntl
import ipaddress
import re
import socket
import struct
from dataclasses import dataclass
from typing import List, Optional, Set

_GET_FLAGS, _GET_ADDRESS, _GET_BROADCAST, _GET_NETMASK = 0x8913, 0x8915, 0x8919, 0x891B
_IS_UP, _HAS_BROADCAST, _IS_LOOPBACK = 0x1, 0x2, 0x8
_LOOPBACK = "127.0.0.1"


class NoInterface(OSError):
    """The machine has no such interface, or it has no IPv4 address."""


@dataclass(frozen=True)
class Interface:
    """An interface that is up: its name, its first IPv4 address, and the broadcast address of that network."""

    name: str
    address: str
    broadcast: Optional[str]
    is_loopback: bool


def _asked(name: str, what: int) -> Optional[bytes]:
    """The 16 octets that the system answers about an interface; None where it has no such thing."""
    with socket.socket(socket.AF_INET, socket.SOCK_DGRAM) as any_socket:
        try:
            return fcntl.ioctl(any_socket, what, struct.pack("256s", name.encode()[:15]))[16:32]
        except OSError:
            return None


def _address(name: str, what: int) -> Optional[str]:
    answer = _asked(name, what)
    return None if answer is None else socket.inet_ntoa(answer[4:8])


def interface(name: str) -> Interface:
    """The interface of this name. Raises NoInterface where it isn't there, is down or has no IPv4 address."""
    answer = _asked(name, _GET_FLAGS)
    if answer is None:
        raise NoInterface(f"no interface {name}: there are {', '.join(one for _, one in socket.if_nameindex())}")
    flags = struct.unpack("H", answer[:2])[0]
    address = _address(name, _GET_ADDRESS)
    if not flags & _IS_UP or address is None:
        raise NoInterface(f"the interface {name} {'has no IPv4 address' if flags & _IS_UP else 'is down'}")
    broadcast = _address(name, _GET_BROADCAST) if flags & _HAS_BROADCAST else None
    if flags & _IS_LOOPBACK:
        broadcast = str(
            ipaddress.ip_network(f"{address}/{_address(name, _GET_NETMASK)}", strict=False).broadcast_address
        )
    return Interface(name, address, None if broadcast == "0.0.0.0" else broadcast, bool(flags & _IS_LOOPBACK))


def interfaces() -> List[Interface]:
    """All interfaces that are up and have an IPv4 address."""
    found = []
    for _, name in socket.if_nameindex():
        try:
            found.append(interface(name))
        except NoInterface:
            continue
    return found


def default_interface() -> Interface:
    """The interface of the default route, else the loopback interface. Raises NoInterface where neither is up."""
    routes = []
    try:
        with open("/proc/net/route", encoding="ascii") as table:
            rows = [line.split() for line in table][1:]
        routes = sorted((int(row[6]), row[0]) for row in rows if row[1] == row[7] == "00000000")
    except (OSError, ValueError, IndexError):
        pass
    for _, name in routes:
        try:
            return interface(name)
        except NoInterface:
            continue
    for one in interfaces():
        if one.is_loopback:
            return one
    raise NoInterface("no interface of this machine is up and has an IPv4 address")


def interface_of(address: str) -> Optional[Interface]:
    """The interface whose first address is this; None where there is none."""
    return next((one for one in interfaces() if one.address == address), None)


def broadcasts() -> Set[str]:
    """All addresses of this machine's networks that reach every host of one."""
    found = {"255.255.255.255", *(one.broadcast for one in interfaces() if one.broadcast)}
    try:
        with open("/proc/net/fib_trie", encoding="ascii") as table:
            found.update(re.findall(r"\|-- ([0-9.]+)\n\s+/32 link BROADCAST", table.read()))
    except OSError:
        pass
    return found


def free_port(host: str) -> int:
    """A TCP port that is free at this address now. Raises OSError where the address isn't one of the machine."""
    with socket.socket(socket.AF_INET, socket.SOCK_STREAM) as place:
        place.bind((host, 0))
        port: int = place.getsockname()[1]
        return port
