"""Beacons: what a datagram says, and what is odd about those that were heard."""
import statistics
from typing import Dict, List, NamedTuple, Optional, Tuple

from .words import clock

PORT = 5670


class Beacon(NamedTuple):
    """A beacon: identity in upper-case digits, and the port of the mailbox; 0 says good-bye."""

    identity: str
    port: int


def beacon_of(octets: bytes) -> Optional[Beacon]:
    """The beacon that a datagram is, or none."""
    if len(octets) != 22 or octets[:4] != b"ZRE\x01":
        return None
    return Beacon(octets[4:20].hex().upper(), int.from_bytes(octets[20:], "big"))


class Heard:
    """What was heard of one identity at one mailbox, or as good-bye: readings in milliseconds."""

    def __init__(self, host: str, port: int) -> None:
        self.host, self.port = host, port
        self.times: List[float] = []
        self.left: Optional[float] = None

    def interval(self) -> Optional[float]:
        """The median of the times between two beacons, where there are three at least."""
        steps = [later - earlier for earlier, later in zip(self.times, self.times[1:])]
        return statistics.median(steps) if len(steps) > 1 else None

    def longest(self) -> float:
        """The longest time without a beacon."""
        return max((later - earlier for earlier, later in zip(self.times, self.times[1:])), default=0.0)


class Network:
    """Who is on a network, by the beacons of all."""

    def __init__(self, interval: float) -> None:
        self.wanted = interval
        self.nodes: Dict[str, Dict[Tuple[str, int], Heard]] = {}
        self.strangers: Dict[str, int] = {}

    def take(self, host: str, octets: bytes, time: float) -> str:
        """A datagram; the answer says what is new by it, or nothing."""
        beacon = beacon_of(octets)
        if beacon is None:
            self.strangers[host] = self.strangers.get(host, 0) + 1
            return f"no beacon, {len(octets)} octets, from {host}" if self.strangers[host] == 1 else ""
        places = self.nodes.setdefault(beacon.identity, {})
        if beacon.port == 0:
            for heard in places.values():
                if heard.host == host:
                    heard.left = time
            if not places:
                places[host, 0] = Heard(host, 0)
                places[host, 0].left = time
            return f"{beacon.identity} of {host} leaves"
        places.pop((host, 0), None)
        is_new = (host, beacon.port) not in places
        heard = places.setdefault((host, beacon.port), Heard(host, beacon.port))
        is_back, heard.left = heard.left is not None, None
        heard.times.append(time)
        word = "is there" if is_new else "is back"
        return f"{beacon.identity} {word} at {host}:{beacon.port}" if is_new or is_back else ""

    def faults(self, identity: str) -> List[str]:
        """What is odd about an identity."""
        places = list(self.nodes[identity].values())
        found = []
        hosts = sorted({heard.host for heard in places})
        if len(hosts) > 1:
            found.append(f"DOUBLE: beacons of this identity come from {' and '.join(hosts)}")
        for host in hosts:
            ports = [str(heard.port) for heard in places if heard.host == host and heard.port]
            if len(ports) > 1:
                found.append(f"PORT: its mailbox at {host} is told as {' and '.join(ports)}")
        for heard in places:
            others = [
                other for other, there in self.nodes.items() if other != identity and (heard.host, heard.port) in there
            ]
            if heard.port and others:
                found.append(f"PORT: {heard.host}:{heard.port} is the mailbox of {' and '.join(others)} too")
            found += self.timing(heard)
        return found

    def timing(self, heard: Heard) -> List[str]:
        """What is odd about the times between beacons."""
        median = heard.interval()
        if median is None:
            return []
        if not self.wanted / 1.5 <= median <= self.wanted * 1.5:
            return [f"INTERVAL: a beacon each {median:.0f} ms, and {self.wanted:.0f} were expected"]
        if heard.longest() > 3 * self.wanted:
            return [f"INTERVAL: none for {heard.longest():.0f} ms, and {self.wanted:.0f} were expected"]
        return []

    def table(self) -> str:
        """A line for each identity and mailbox, in the order of coming, and below it what is odd."""
        lines = []
        for identity, places in self.nodes.items():
            for heard in places.values():
                median = heard.interval()
                parts = [
                    identity,
                    f"{heard.host}:{heard.port}" if heard.port else heard.host,
                    f"{len(heard.times)} beacons",
                ]
                parts += [f"each {median:.0f} ms"] if median is not None else []
                parts += [f"since {clock(round(heard.times[0]))}"] if heard.times else []
                parts += [f"left at {clock(round(heard.left))}"] if heard.left is not None else []
                lines.append("  ".join(parts))
            lines += [f"    {fault}" for fault in self.faults(identity)]
        for host, count in self.strangers.items():
            lines.append(f"{host}: {count} datagrams that are no beacons")
        return "".join(line + "\n" for line in lines) or "nobody\n"
