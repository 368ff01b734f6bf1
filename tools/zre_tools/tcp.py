"""TCP connections of a recording, each with the octets of both directions put together again."""
from typing import Dict, FrozenSet, List, NamedTuple, Optional, Tuple

from .pcap import Segment

FIN, SYN, RST, ACK = 1, 2, 4, 16
End = Tuple[str, int]


class Gap(NamedTuple):
    """Octets that aren't in the recording: from where, how many, and when what follows them was seen."""

    place: int
    size: int
    time: int


class Direction:
    """One direction of a connection: segments in the order of their coming, and the octets up to the first gap."""

    def __init__(self) -> None:
        self.first: Optional[int] = None
        self.has_begin = False
        self.segments: List[Tuple[int, Segment]] = []
        self.end: Optional[int] = None
        self.acknowledged = 0
        self.again = self.differing = 0
        self.furthest = 0

    def place(self, sequence: int) -> int:
        """The place in the stream, from 0, of a sequence number, which is one of 32 bits near the furthest place."""
        return self.furthest + ((sequence - (self.first or 0) - self.furthest + 0x80000000) & 0xFFFFFFFF) - 0x80000000

    def take(self, segment: Segment) -> None:
        """A segment that went in this direction."""
        if segment.flags & SYN:
            self.first, self.has_begin = (segment.sequence + 1) & 0xFFFFFFFF, True
        elif self.first is None:
            self.first = segment.sequence
        sequence = segment.sequence + (1 if segment.flags & SYN else 0)
        place = self.place(sequence)
        if segment.length > 0 and place + segment.length > 0:
            self.segments.append((place, segment))
            self.furthest = max(self.furthest, place + segment.length)
        if segment.flags & FIN:
            self.end = place + segment.length

    def hears(self, acknowledged: int) -> None:
        """The other side has all octets before this number."""
        if self.first is not None:
            self.acknowledged = max(self.acknowledged, self.place(acknowledged))

    def stream(self) -> Tuple[bytes, List[Tuple[int, int]], List[Gap]]:
        """The octets up to the first gap; from which place on they came at which time; and the gaps."""
        octets, times, gaps = bytearray(), [], []
        reach, clock = 0, 0
        for place, part in sorted(self.segments, key=lambda item: (item[0], item[1].time)):
            kept = part.payload[: part.length]
            if place > reach:
                gaps.append(Gap(reach, place - reach, part.time))
                reach = place
            fresh = kept[max(0, reach - place) :]
            self.note_again(place, kept, octets, reach, bool(gaps))
            if fresh and not gaps:
                clock = max(clock, part.time)
                times.append((len(octets), clock))
                octets += fresh
            reach = max(reach, place + len(kept))
            if len(kept) < part.length and place + part.length > reach:
                # the recording kept the front of each packet alone
                gaps.append(Gap(reach, place + part.length - reach, part.time))
                reach = place + part.length
        known = self.acknowledged - 1 if self.end is None else self.end
        if known > reach:
            gaps.append(Gap(reach, known - reach, 0))
        return bytes(octets), times, gaps

    def note_again(self, place: int, kept: bytes, octets: bytearray, reach: int, is_past: bool) -> None:
        """Counts octets that came again, and those that differ from what came first."""
        old = kept[: max(0, reach - place)]
        self.again += len(old)
        if not is_past and place >= 0:
            self.differing += sum(one != two for one, two in zip(old, octets[place : place + len(old)]))


class Connection:
    """A connection: who opened it, if that is known, else who spoke first; when; both directions; and how it ended."""

    def __init__(self, opener: End, acceptor: End, time: int) -> None:
        self.opener, self.acceptor, self.begin = opener, acceptor, time
        self.directions = {opener: Direction(), acceptor: Direction()}
        self.is_whole, self.ends = False, []  # type: bool, List[Tuple[int, str]]
        self.last = time

    def take(self, segment: Segment) -> None:
        """A segment of either direction."""
        self.last = segment.time
        self.directions[segment.source].take(segment)
        if segment.flags & ACK:
            self.directions[segment.target].hears(segment.acknowledged)
        for flag, word in ((FIN, "closed"), (RST, "reset")):
            side = f"{word} by {segment.source[0]}:{segment.source[1]}"
            if segment.flags & flag and side not in [text for _, text in self.ends]:
                self.ends.append((segment.time, side))


class Connections:
    """All connections of a recording, in the order of their begin."""

    def __init__(self) -> None:
        self.all: List[Connection] = []
        self.open: Dict[FrozenSet[End], Connection] = {}

    def take(self, segment: Segment) -> None:
        """A segment, of a connection that is there or of a new one."""
        ends = frozenset((segment.source, segment.target))
        here = self.open.get(ends)
        is_opening = segment.flags & SYN and not segment.flags & ACK
        if here is None or is_opening and self.is_another(here, segment):
            answers = segment.flags & SYN and segment.flags & ACK
            opener = segment.target if answers else segment.source
            acceptor = segment.source if answers else segment.target
            here = self.open[ends] = Connection(opener, acceptor, segment.time)
            here.is_whole = bool(segment.flags & SYN)
            self.all.append(here)
        here.take(segment)

    @staticmethod
    def is_another(here: Connection, segment: Segment) -> bool:
        """Whether an opening segment isn't a repetition of the one that opened the connection."""
        return here.directions[segment.source].first != (segment.sequence + 1) & 0xFFFFFFFF
