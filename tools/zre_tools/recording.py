"""A recording of a network in words: beacons, and the streams of its connections."""
import datetime
from typing import List, NamedTuple, Tuple

from .beacons import beacon_of
from .pcap import Left, Segment, packets, segment
from .program import Refused, Trouble, run
from .tcp import Connection, Connections, Direction, End
from .words import clock
from .zmtp import item_ends


class Recording:
    """What a recording holds: datagrams that are beacons or went to their port, connections, and what wasn't read."""

    def __init__(self, data: bytes, port: int) -> None:
        self.datagrams: List[Segment] = []
        self.connections, self.left, self.trouble = Connections(), Left({}), ""
        self.count, self.begin, self.last = 0, 0, 0
        try:
            for packet in packets(data):
                self.begin = packet.time if self.count == 0 else self.begin
                self.count, self.last = self.count + 1, max(self.last, packet.time)
                part = segment(packet, self.left)
                if part and part.protocol == 6:
                    self.connections.take(part)
                elif part and (port in (part.source[1], part.target[1]) or part.payload[:3] == b"ZRE"):
                    self.datagrams.append(part)
        except Trouble as trouble:
            if self.count == 0:
                raise
            # what stands before the damage is shown
            self.trouble = str(trouble)

    def clock(self, time: int) -> str:
        """A time since the first packet."""
        return clock(max(0, time - self.begin) // 1000)

    def head(self) -> List[str]:
        """When it was recorded, and what wasn't read."""
        try:
            date = datetime.datetime.fromtimestamp(self.begin / 1e6, datetime.timezone.utc)
            began = f"{date:%Y-%m-%d %H:%M:%S.%f} UTC"
        except (ValueError, OverflowError, OSError):
            began = f"second {self.begin // 1000000}, which is no date,"
        lines = [f"{self.count:,} packets from {began} on, over {self.clock(self.last)}"]
        return lines + [f"{count:,} packets aren't read: {why}" for why, count in self.left.counts.items()]

    def beacons(self) -> List[str]:
        """A line for each beacon, and for each other datagram at their port."""
        lines = []
        for part in self.datagrams:
            beacon = beacon_of(part.payload[: part.length])
            told = f"no beacon, {part.length} octets"
            if beacon:
                told = f"{beacon.identity} " + (f"mailbox {beacon.port}" if beacon.port else "says good-bye")
            lines.append(f"{self.clock(part.time)}  {of(part.source)} > {of(part.target)}  {told}")
        return lines

    def streams(self, width: int) -> List[str]:
        """Each connection: a line, and then those of both directions by their times, cut at so many characters."""
        lines: List[str] = []
        for number, connection in enumerate(self.connections.all, 1):
            lines += ["", self.title(number, connection)]
            items = [
                item
                for end, arrow in ((connection.opener, ">"), (connection.acceptor, "<"))
                for item in self.items(connection.directions[end], connection.is_whole, arrow)
            ]
            for time, arrow, text in sorted(items, key=lambda item: item.time):
                cut = text if width == 0 or len(text) <= width else f"{text[:width - 1]}… ({len(text):,} characters)"
                lines.append(f"{self.clock(time)} {arrow} {cut}")
        return lines

    def title(self, number: int, connection: Connection) -> str:
        """Who connected to whom, and how it ended."""
        how = "opened" if connection.is_whole else "seen from"
        ends = [f"{text} at {self.clock(time)}" for time, text in connection.ends] or ["open at the end"]
        return (
            f"connection {number}: {of(connection.opener)} to {of(connection.acceptor)}, {how} "
            f"{self.clock(connection.begin)}, {', '.join(ends)}"
        )

    def items(self, direction: Direction, is_whole: bool, arrow: str) -> List["Item"]:
        """What one direction says, as `zre show` writes it, and what of it is missing."""
        octets, times, gaps = direction.stream()
        last = times[-1][1] if times else 0
        if not octets and not gaps:
            return []
        if octets[:1] != b"\xff" or octets[9:10] not in (b"", b"\x7f"):
            why = "no ZMTP" if is_whole else "the begin isn't in the recording, so this can't be read"
            return [Item(times[0][1] if times else gaps[0].time, arrow, f"{why}: {len(octets):,} octets")]
        items = shown(octets, times, arrow, bool(gaps))
        for gap in gaps:
            items.append(
                Item(
                    max(last, gap.time),
                    arrow,
                    f"MISSING: {gap.size:,} octets from octet {gap.place:,} on aren't in "
                    "the recording; what follows them isn't read",
                )
            )
        if direction.differing:
            items.append(
                Item(last, arrow, f"DIFFERENT: {direction.differing:,} octets that came again weren't the same")
            )
        return items


class Item(NamedTuple):
    """A line of a connection: when it was whole, in which direction, and its text."""

    time: int
    arrow: str
    text: str


def of(end: End) -> str:
    """An address and a port."""
    return f"{end[0]}:{end[1]}"


def time_at(times: List[Tuple[int, int]], place: int) -> int:
    """When the octet before this place came."""
    return max((time for begin, time in times if begin < place), default=times[0][1])


def shown(octets: bytes, times: List[Tuple[int, int]], arrow: str, is_cut: bool) -> List[Item]:
    """The lines of `zre show`, each at the time at which its last octet came."""
    place = -1
    try:
        lines = run(["show"], octets).decode("ascii").splitlines()
    except Refused as refused:
        lines, place = refused.before.decode("ascii").splitlines(), refused.place[0]
    ends, at, items = item_ends(octets), 0, []
    for number, line in enumerate(lines):
        end = ends[number] if number < len(ends) else len(octets)
        while at + 1 < len(times) and times[at + 1][0] < end:
            at += 1
        items.append(Item(times[at][1], arrow, line))
    if place == len(octets) and not is_cut:
        items.append(Item(times[-1][1], arrow, f"ENDS at octet {place:,}, inside a greeting, a frame or a message"))
    elif 0 <= place < len(octets):
        items.append(Item(time_at(times, place + 1), arrow, f"FAULT at octet {place:,}: no ZMTP from there on"))
    return items
