"""Recordings of a network: packets of pcap and pcapng files, and what IPv4, TCP and UDP say of them."""
import struct
from typing import Dict, Iterator, List, NamedTuple, Optional, Tuple

from .program import Trouble

# The link types that are read, with where their payload begins and where the type of the payload stands, if it does.
ETHERNET, LOOPBACK, LOOP, COOKED, COOKED_2, RAW = 1, 0, 108, 113, 276, (12, 14, 101, 228)
LINKS = (ETHERNET, LOOPBACK, LOOP, COOKED, COOKED_2, *RAW)
IPV4 = 0x0800
# The least octets in a block of a pcapng file that describes an interface, or that holds a packet in short or in full.
LEAST = {1: 8, 3: 4, 6: 20}
VLANS = (0x8100, 0x88A8)


class Packet(NamedTuple):
    """A packet: its time in microseconds since 1970, its link type, its octets as far as they were kept."""

    time: int
    link: int
    octets: bytes


class Segment(NamedTuple):
    """What TCP or UDP carries: time, protocol (6 or 17), both ends as (address, port), the payload as far as it was
    kept, how long it was, and of TCP sequence, acknowledged number and flags."""

    time: int
    protocol: int
    source: Tuple[str, int]
    target: Tuple[str, int]
    payload: bytes
    length: int
    sequence: int = 0
    acknowledged: int = 0
    flags: int = 0


class Left(NamedTuple):
    """What couldn't be read: how many packets, by why."""

    counts: Dict[str, int]

    def note(self, why: str) -> None:
        """One more."""
        self.counts[why] = self.counts.get(why, 0) + 1


def packets(data: bytes) -> Iterator[Packet]:
    """The packets of a pcap or pcapng file. A file that ends within a packet ends with the one before, and then
    `Trouble` says so."""
    magic = data[:4]
    for order in "<>":
        for number, scale in ((0xA1B2C3D4, 1), (0xA1B23C4D, 1000)):
            if magic == struct.pack(order + "I", number):
                return classic(data, order, scale)
    if magic == b"\x0a\x0d\x0d\x0a":
        return blocks(data)
    raise Trouble("neither a pcap nor a pcapng file")


def classic(data: bytes, order: str, scale: int) -> Iterator[Packet]:
    """The packets of a pcap file, whose fractions of a second are so many to a microsecond."""
    if len(data) < 24:
        raise Trouble("the file ends within its head")
    link, at = struct.unpack(order + "I", data[20:24])[0] & 0xFFFF, 24
    while at < len(data):
        if at + 16 > len(data):
            raise Trouble(f"the file ends within a packet's head, at octet {at}")
        seconds, fraction, kept, _ = struct.unpack(order + "4I", data[at : at + 16])
        if at + 16 + kept > len(data):
            raise Trouble(f"the file ends within a packet, at octet {at}")
        yield Packet(seconds * 1000000 + fraction // scale, link, data[at + 16 : at + 16 + kept])
        at += 16 + kept


def blocks(data: bytes) -> Iterator[Packet]:
    """The packets of a pcapng file."""
    order, at, links = "<", 0, []  # type: str, int, List[Tuple[int, float]]
    while at < len(data):
        if at + 12 > len(data):
            raise Trouble(f"the file ends within a block's head, at octet {at}")
        if data[at : at + 4] == b"\x0a\x0d\x0d\x0a":
            order, links = ("<" if data[at + 8 : at + 12] == b"\x4d\x3c\x2b\x1a" else ">"), []
        kind, size = struct.unpack(order + "2I", data[at : at + 8])
        if size < 12 or size % 4 or at + size > len(data):
            raise Trouble(f"the file ends within a block, or its size is bad, at octet {at}")
        body = data[at + 8 : at + size - 4]
        if len(body) < LEAST.get(kind, 0):
            raise Trouble(f"a block is too short, at octet {at}")
        if kind == 1:
            links.append((struct.unpack(order + "H", body[:2])[0], ticks_of(body[8:], order)))
        elif kind == 6:
            number, high, low, kept, _ = struct.unpack(order + "5I", body[:20])
            if number >= len(links) or 20 + kept > len(body):
                raise Trouble(f"a packet of no interface, or past its block, at octet {at}")
            link, ticks = links[number]
            yield Packet(int((high << 32 | low) * 1000000 / ticks), link, body[20 : 20 + kept])
        elif kind == 3 and links:
            length = struct.unpack(order + "I", body[:4])[0]
            yield Packet(0, links[0][0], body[4 : 4 + length])
        at += size


def ticks_of(options: bytes, order: str) -> float:
    """How many ticks a second has on an interface: the option if_tsresol, by default 1,000,000."""
    at = 0
    while at + 4 <= len(options):
        code, size = struct.unpack(order + "2H", options[at : at + 4])
        if code == 9 and size == 1:
            value = options[at + 4]
            return 2.0 ** (value & 0x7F) if value & 0x80 else 10.0**value
        if code == 0:
            break
        at += 4 + (size + 3) // 4 * 4
    return 1e6


def network(packet: Packet) -> Optional[bytes]:
    """The IPv4 packet in it, or none."""
    link, octets = packet.link, packet.octets
    if link == ETHERNET:
        at = 12
        while octets[at : at + 2] and int.from_bytes(octets[at : at + 2], "big") in VLANS:
            at += 4
        return octets[at + 2 :] if int.from_bytes(octets[at : at + 2], "big") == IPV4 else None
    if link == COOKED:
        return octets[16:] if int.from_bytes(octets[14:16], "big") == IPV4 else None
    if link == COOKED_2:
        return octets[20:] if int.from_bytes(octets[:2], "big") == IPV4 else None
    if link in (LOOPBACK, LOOP):
        return octets[4:] if 2 in (octets[0:1] + octets[3:4]) and octets[4:5] and octets[4] >> 4 == 4 else None
    return octets if octets[:1] and octets[0] >> 4 == 4 else None


def segment(packet: Packet, left: Left) -> Optional[Segment]:
    """What TCP or UDP carries in a packet, or none; what couldn't be read is noted."""
    if packet.link not in LINKS:
        left.note(f"the link type {packet.link}; Ethernet, Linux cooked, loopback and raw IP are read")
        return None
    octets = network(packet)
    if octets is None:
        left.note("not IPv4")
        return None
    head = (octets[0] & 15) * 4 if octets else 0
    if len(octets) < 20 or head < 20 or len(octets) < head:
        left.note("cut within their IPv4 head")
        return None
    total, fragment = struct.unpack(">2xH2xH", octets[:8])
    if fragment & 0x3FFF:
        left.note("fragments of IPv4 packets")
        return None
    protocol = octets[9]
    body = octets[head : max(head, total)] if total else octets[head:]
    size = max(0, total - head) if total else len(body)
    if protocol not in (6, 17) or len(body) < (20 if protocol == 6 else 8):
        left.note("neither TCP nor UDP" if protocol not in (6, 17) else "cut within their TCP or UDP head")
        return None
    ends = tuple(
        (".".join(map(str, octets[at : at + 4])), int.from_bytes(body[port : port + 2], "big"))
        for at, port in ((12, 0), (16, 2))
    )
    if protocol == 17:
        return Segment(packet.time, 17, ends[0], ends[1], body[8:], size - 8)
    data = (body[12] >> 4) * 4
    sequence, acknowledged = struct.unpack(">2I", body[4:12])
    return Segment(packet.time, 6, ends[0], ends[1], body[data:], max(0, size - data), sequence, acknowledged, body[13])
