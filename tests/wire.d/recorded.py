"""Recordings as they might have been made of known streams, in each kind of file."""
import struct
from typing import Iterable, List, NamedTuple, Optional, Tuple

A, B = ("10.77.0.1", 40000), ("10.77.0.2", 49152)
ETHERNET, LOOPBACK, COOKED, COOKED_2, RAW = 1, 0, 113, 276, 101
FIN, SYN, PUSH, ACK = 1, 2, 8, 16
BEGIN = 1700000000


class Part(NamedTuple):
    """A packet: whether it goes from A to B, the place of its payload in that stream, the payload, and flags."""

    forth: bool
    place: int
    payload: bytes
    flags: int = ACK | PUSH


def address(host: str) -> bytes:
    """Its four octets."""
    return bytes(int(part) for part in host.split("."))


def ipv4(source: str, target: str, protocol: int, body: bytes) -> bytes:
    """An IPv4 packet."""
    head = struct.pack(">BBHHHBBH", 0x45, 0, 20 + len(body), 0, 0x4000, 64, protocol, 0)
    return head + address(source) + address(target) + body


def tcp(part: Part, starts: Tuple[int, int]) -> bytes:
    """The IPv4 packet of a segment; `starts` are the numbers of SYN of both sides."""
    source, target = (A, B) if part.forth else (B, A)
    start = starts[0 if part.forth else 1]
    sequence = (start + (0 if part.flags & SYN else 1 + part.place)) & 0xFFFFFFFF
    head = struct.pack(">HHIIBBHHH", source[1], target[1], sequence, 0, 0x50, part.flags, 65535, 0, 0)
    return ipv4(source[0], target[0], 6, head + part.payload)


def udp(source: str, target: str, payload: bytes, port: int = 5670) -> bytes:
    """The IPv4 packet of a datagram."""
    return ipv4(source, target, 17, struct.pack(">HHHH", port, port, 8 + len(payload), 0) + payload)


def framed(packet: bytes, link: int, vlan: bool = False) -> bytes:
    """A packet as a link carries it. Short ones are padded on Ethernet."""
    if link == ETHERNET:
        return (bytes(12) + (b"\x81\x00\x00\x07" if vlan else b"") + b"\x08\x00" + packet).ljust(60, b"\0")
    heads = {
        LOOPBACK: struct.pack("<I", 2),
        COOKED: bytes(14) + b"\x08\x00",
        COOKED_2: b"\x08\x00" + bytes(18),
        RAW: b"",
    }
    return heads[link] + packet


def pcap(
    packets: Iterable[bytes], link: int, order: str = "<", nano: bool = False, kept: Optional[int] = None
) -> bytes:
    """A pcap file, with a packet each millisecond, of which so many octets are kept."""
    magic, scale = (0xA1B23C4D, 1000000) if nano else (0xA1B2C3D4, 1000)
    out = [struct.pack(order + "IHHiIII", magic, 2, 4, 0, 0, 262144, link)]
    for number, packet in enumerate(packets):
        front = packet[:kept]
        out += [
            struct.pack(order + "IIII", BEGIN + number // 1000, number % 1000 * scale, len(front), len(packet)),
            front,
        ]
    return b"".join(out)


def block(kind: int, body: bytes) -> bytes:
    """A block of a pcapng file."""
    size = 12 + len(body) + -len(body) % 4
    return struct.pack("<II", kind, size) + body + bytes(-len(body) % 4) + struct.pack("<I", size)


def pcapng(packets: Iterable[bytes], link: int) -> bytes:
    """A pcapng file, with times in nanoseconds, and a block that is to be skipped."""
    out = [
        block(0x0A0D0D0A, struct.pack("<IHHq", 0x1A2B3C4D, 1, 0, -1)),
        block(0x0BAD, b"skip me"),
        block(1, struct.pack("<HHI", link, 0, 0) + struct.pack("<HHB3x", 9, 1, 9) + bytes(4)),
    ]
    for number, packet in enumerate(packets):
        time = BEGIN * 10**9 + number * 10**6
        head = struct.pack("<IIIII", 0, time >> 32, time & 0xFFFFFFFF, len(packet), len(packet))
        out.append(block(6, head + packet + bytes(-len(packet) % 4)))
    return b"".join(out)


def parts(forth: bytes, back: bytes, size: int = 1400) -> List[Part]:
    """The segments of a whole connection: opened, both streams by turns, closed."""
    sides = [
        [Part(is_forth, at, stream[at : at + size]) for at in range(0, len(stream), size)]
        for is_forth, stream in ((True, forth), (False, back))
    ]
    turns = [part for number in range(max(map(len, sides))) for side in sides for part in side[number : number + 1]]
    begin = [Part(True, 0, b"", SYN), Part(False, 0, b"", SYN | ACK), Part(True, 0, b"", ACK)]
    return begin + turns + [Part(True, len(forth), b"", FIN | ACK), Part(False, len(back), b"", FIN | ACK)]
