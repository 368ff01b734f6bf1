"""What two nodes said to each other, by the captures of both: how much was heard of what the other one put on links."""
from typing import Dict, List, NamedTuple, Optional, Sequence, Tuple

from .captures import Capture
from .lines import told
from .program import Trouble
from .session import Event, events_of
from .words import cause, clock

# A message: its kind, its group and its frames, as they are quoted.
Message = Tuple[str, str, str]


class Said(NamedTuple):
    """A message, and the event or the command by which a capture has it."""

    message: Message
    event: Event


class Stay:
    """From ENTER to EXIT of a peer at a node: what was heard of it, and what was put on the link to it."""

    def __init__(self, enter: Event) -> None:
        self.enter = enter
        self.exit: Optional[Event] = None
        self.heard: List[Said] = []
        self.put: List[Said] = []
        self.groups: Dict[str, None] = {}


class Side:
    """A node as its capture shows it: the stays of the other one at it."""

    def __init__(self, file: str, capture: Capture, other: str) -> None:
        self.file, self.name, self.identity = file, capture.name() or capture.identity()[:6], capture.identity()
        length = clock((capture.clocks or [0])[-1])
        self.about = f"{self.name} {self.identity}, {file}: {len(capture.entries):,} entries over {length}"
        self.stays: List[Stay] = []
        self.other = other
        self.take_all(events_of(capture))

    def take_all(self, events: Sequence[Event]) -> None:
        """Goes over the events; a command puts nothing for a peer that ends by it, since its link has no room."""
        slow = {
            event.line
            for event in events
            if event.kind == "EXIT" and event.peer() == self.other and event.fields[2] == "slow"
        }
        is_here = False
        for event in events:
            if event.peer() == self.other and event.kind == "ENTER":
                self.stays.append(Stay(event))
                is_here = True
            elif is_here:
                self.take(self.stays[-1], event, event.line in slow)
                is_here = not (event.peer() == self.other and event.kind == "EXIT")

    def take(self, stay: Stay, event: Event, is_slow: bool) -> None:
        """An event or a command while the other node is there."""
        is_others = event.peer() == self.other
        if is_others and event.kind == "EXIT":
            stay.exit = event
        elif is_others and event.kind == "JOIN":
            stay.groups[event.fields[2]] = None
        elif is_others and event.kind == "LEAVE":
            stay.groups.pop(event.fields[2], None)
        elif is_others and event.kind in ("WHISPER", "SHOUT"):
            stay.heard.append(Said((event.kind, event.group() or "", event.fields[-1]), event))
        elif (
            not event.refused
            and not is_slow
            and (is_others and event.kind == "whisper" or event.kind == "shout" and event.group() in stay.groups)
        ):
            stay.put.append(Said((event.kind.upper(), event.group() or "", event.fields[-1]), event))

    def place(self, said: Said) -> str:
        """Where a message stands."""
        return (
            f"{self.file}, line {said.event.line}, {clock(said.event.time)}: {said.event.kind} {told(said.event, 100)}"
        )


def alike(heard: Sequence[Said], put: Sequence[Said]) -> int:
    """How many messages from the first on are the same."""
    return next(
        (at for at, (one, two) in enumerate(zip(heard, put)) if one.message != two.message), min(len(heard), len(put))
    )


def pairs(runs: Sequence[Stay], links: Sequence[Stay]) -> List[Optional[int]]:
    """For each run a link of its own whose messages begin with those of the run, if there is one left. Long runs choose
    first, since what fits a long run fits each that it begins with; among links that fit, one about as late is chosen.
    """
    free = set(range(len(links)))
    chosen: List[Optional[int]] = [None] * len(runs)
    for number in sorted(range(len(runs)), key=lambda at: (-len(runs[at].heard), at)):
        heard = runs[number].heard
        fitting = [(abs(link - number), link) for link in free if alike(heard, links[link].put) == len(heard)]
        if fitting:
            chosen[number] = min(fitting)[1]
            free.discard(min(fitting)[1])
    return chosen


class Comparison:
    """What one node heard of the other."""

    def __init__(self, hearer: Side, speaker: Side) -> None:
        self.hearer, self.speaker = hearer, speaker
        self.runs, self.links = hearer.stays, speaker.stays
        self.pairs = pairs(self.runs, self.links)
        self.unmatched = [number for number, link in enumerate(self.pairs) if link is None and self.runs[number].heard]

    def lines(self) -> List[str]:
        """It in words."""
        here, there = self.hearer.name, self.speaker.name
        lines = [
            f"{here} heard {there} in {count_of(len(self.runs), 'run')}; {there} had {here} in "
            f"{count_of(len(self.links), 'run')}, each with a link to it"
        ]
        for number, (run, link) in enumerate(zip(self.runs, self.pairs), 1):
            lines += self.run(number, run, link)
        taken = set(self.pairs)
        for number, link_stay in enumerate(self.links):
            if number not in taken and link_stay.put:
                lines.append(
                    f"  link {number + 1}, of {self.when(self.speaker, link_stay)}: heard 0 of "
                    f"{len(link_stay.put)}, in no run"
                )
        return lines + [f"  {line}" for line in self.restarts()]

    def run(self, number: int, run: Stay, link: Optional[int]) -> List[str]:
        """A run, and how much of its link was heard in it."""
        begin = f"  run {number}, {self.when(self.hearer, run)}: heard "
        if link is None:
            return [begin + count_of(len(run.heard), "message"), *self.difference(run)]
        put = self.links[link].put
        lines = [
            f"{begin}{len(run.heard):,} of {count_of(len(put), 'message')} that {self.speaker.name} put on link "
            f"{link + 1}"
        ]
        if len(run.heard) < len(put):
            lines.append(f"    not heard from here on: {self.speaker.place(put[len(run.heard)])}")
        return lines

    def difference(self, run: Stay) -> List[str]:
        """Where a run that has no link differs from the link that is like it for longest."""
        if not run.heard:
            return [f"    {self.speaker.file} has no further link"]
        same, number = max(((alike(run.heard, link.put), -at) for at, link in enumerate(self.links)), default=(0, 1))
        if number == 1:
            return [f"    {self.speaker.file} has no link at all; the first message: {self.hearer.place(run.heard[0])}"]
        put = self.links[-number].put
        if same == len(run.heard):
            return [f"    link {1 - number} begins so too, but is another run's: there are too few links"]
        lines = [
            f"    the first difference is message {same + 1} of link {1 - number}",
            f"      {self.hearer.place(run.heard[same])}",
        ]
        return lines + [
            f"      {self.speaker.place(put[same])}"
            if same < len(put)
            else f"      {self.speaker.file}: nothing more was put on this link"
        ]

    @staticmethod
    def when(side: Side, stay: Stay) -> str:
        """From when to when, at whose node."""
        begin = f"line {stay.enter.line}, {clock(stay.enter.time)}"
        if stay.exit is None:
            return f"{begin} to the end"
        return f"{begin} to line {stay.exit.line}, {clock(stay.exit.time)} ({cause(stay.exit.fields[2:])})"

    def restarts(self) -> List[str]:
        """What the runs and their ends say of restarts of the node that was heard, and of who heard."""
        here, there = self.hearer, self.speaker
        found = []
        for first, second in zip(self.runs, self.runs[1:]):
            if first.exit and first.exit.fields[2] == "beacon":
                found.append(
                    f"RESTARTED: {there.name} said good-bye at {clock(first.exit.time)} and came again at "
                    f"{clock(second.enter.time)}: {here.file}, lines {first.exit.line} and {second.enter.line}"
                )
        missing = len(self.runs) - len(self.links)
        if missing > 0:
            found.append(
                f"RESTARTED: {there.name}, or its capture is of a part: {there.file} lacks the links of "
                f"{count_of(missing, 'run')}"
            )
        return found


def count_of(count: int, word: str) -> str:
    """So many."""
    return f"{count:,} {word}" + ("" if count == 1 else "s")


def compare(one: Tuple[str, Capture], two: Tuple[str, Capture], answer: str) -> str:
    """Both directions in words, below the answer of `zre audit`."""
    sides = [Side(*one, two[1].identity()), Side(*two, one[1].identity())]
    found = [Comparison(*sides), Comparison(*reversed(sides))]
    if answer == "AUDIT yes" and any(comparison.unmatched for comparison in found):
        raise Trouble(
            "`zre audit` finds that the captures agree, and this tool doesn't: that is a fault of one of them"
        )
    lines = [answer, *(side.about for side in sides)]
    for comparison in found:
        lines += ["", *comparison.lines()]
    return "".join(line + "\n" for line in lines)
