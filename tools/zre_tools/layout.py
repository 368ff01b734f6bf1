"""Where things stand in a picture: bars and marks that would lie over each other, rows for texts, ticks, rates."""
from collections import Counter
from typing import Iterable, List, NamedTuple, Optional, Sequence, Tuple

from .lines import told
from .session import Event
from .words import clock


class Run(NamedTuple):
    """Things that are drawn as one: its first and last place, and which they are, from `first` up to before `last`."""

    begin: float
    end: float
    first: int
    last: int

    def middle(self) -> float:
        """The place of a mark that stands for them."""
        return (self.begin + self.end) / 2

    def half(self) -> float:
        """How far that mark reaches to each side."""
        return half(self.last - self.first)


def half(count: int) -> float:
    """How far a mark that stands for so many reaches to each side."""
    return 4.5 if count == 1 else 3.5 + 2.8 * len(short(count))


def short(count: int) -> str:
    """A number in at most four characters, up to 999,999."""
    return str(count) if count < 1000 else f"{count // 1000}k"


def merged(spans: Iterable[Tuple[float, float]], near: float = 1.5) -> List[Run]:
    """Spans of places as they are drawn. Those nearer to each other than can be seen are one, where one of the two is
    as short as that."""
    runs: List[Run] = []
    for at, (begin, end) in enumerate(spans):
        is_near = runs and begin - runs[-1].end < near
        if is_near and min(end - begin, runs[-1].end - runs[-1].begin) < 2 * near:
            runs[-1] = Run(runs[-1].begin, max(runs[-1].end, end), runs[-1].first, at + 1)
        else:
            runs.append(Run(begin, end, at, at + 1))
    return runs


def clustered(places: Iterable[float]) -> List[Run]:
    """Marks, by their places in rising order, where those that would overlap are one."""
    runs: List[Run] = []
    for at, place in enumerate(places):
        runs.append(Run(place, place, at, at + 1))
        while len(runs) > 1 and runs[-1].middle() - runs[-1].half() < runs[-2].middle() + runs[-2].half() + 1:
            last = runs.pop()
            runs[-1] = Run(runs[-1].begin, last.end, runs[-1].first, last.last)
    return runs


STEPS = [
    unit * n
    for unit, numbers in [
        (1, (1, 2, 5, 10, 20, 50, 100, 200, 500)),
        (1000, (1, 2, 5, 10, 15, 30)),
        (60000, (1, 2, 5, 10, 15, 30)),
        (3600000, (1, 2, 3, 6, 12)),
    ]
    for n in numbers
] + [86400000 * n * 10**power for power in range(20) for n in (1, 2, 5)]


def ticks(begin: int, end: int, room: float) -> range:
    """The times that an axis shows, where it has so much room."""
    length = max(1, end - begin)
    step = next(step for step in STEPS if length // step <= room / 85)
    return range(-(-begin // step) * step, max(end, begin + 1) + 1, step)


def tick_text(time: int, begin: int, end: int) -> str:
    """The text at a time on the axis, in the unit that suits what is shown."""
    if end < 1000:
        return f"{time} ms"
    if end < 120000:
        return f"{time / 1000:g} s"
    if end - begin < 20000:
        return f"{time // 60000}:{time // 1000 % 60:02}" + (f".{time % 1000:03}" if end - begin < 5000 else "") + " min"
    if end < 7200000:
        return f"{time // 60000}:{time // 1000 % 60:02} min"
    if end - begin < 172800000:
        return f"{time // 3600000}:{time // 60000 % 60:02} h"
    days, hours = divmod(time // 3600000, 24)
    return " ".join([f"{days} d"] * (days > 0 or hours == 0) + [f"{hours} h"] * (hours > 0))


def row_above(taken: Sequence[float], left: float, end: float) -> Optional[int]:
    """The row for a text from this place on, whose line down to a bar's end crosses no other text, if there is one."""
    rows = [row for row in (1, 2, 3) if taken[row] + 8 <= min(left, end) and max(taken[:row]) <= end]
    return rows[0] if rows else None


def counted(texts: "Counter[str]") -> str:
    """Texts, each with how often it is there, if more than once."""
    return ", ".join(f"{count:,}× {text}" if count > 1 else text for text, count in texts.most_common(4))


def listed(events: Sequence[Event], most: int = 8) -> str:
    """A tooltip of events, a line each."""
    lines = [f"{clock(event.time)} {event.kind} {told(event, 80)}".rstrip() for event in events[:most]]
    return "\n".join(lines + ([f"and {len(events) - most:,} more"] if len(events) > most else []))


class Row:
    """A row of groups: its number, the group that was last in it, and how far it is taken by bars and by names."""

    def __init__(self, number: int) -> None:
        self.number, self.taken, self.named = number, 0.0, 0.0
        self.group: Optional[str] = None


def row_for(rows: List[Row], group: str, begin: float, left: float, most: int = 6) -> Optional[Row]:
    """The row of a time in a group: where the group was last, else one with room for the name, else a new one."""
    for row in rows:
        if row.group == group and row.taken <= begin:
            return row
    for row in rows:
        if max(row.taken, row.named) + 6 <= min(begin, left):
            return row
    if len(rows) == most:
        return None
    rows.append(Row(len(rows)))
    return rows[-1]


def rates(places: Sequence[float], room: float) -> Tuple[int, List[int]]:
    """How many of the places, which are from 0 up to the room, fall into each bin, and how wide a bin is: as narrow as
    leaves about four for each."""
    width = next((wide for wide in (2, 4, 8) if len(places) * wide >= 4 * room), 16)
    counts = [0] * max(1, -int(-room // width))
    for place in places:
        counts[min(len(counts) - 1, int(place // width))] += 1
    return width, counts


def rate_text(count: int, milliseconds: float) -> str:
    """So many in so long a time as a rate, in the unit that suits it."""
    second = count * 1000 / max(1e-6, milliseconds)
    for unit, rate in (("s", second), ("min", second * 60)):
        if rate >= 1:
            return f"{round(rate):,}/{unit}" if rate >= 100 else f"{rate:.3g}/{unit}"
    return f"{second * 3600:.3g}/h"
