"""Captures: their entries, the node's clock at each, and which event each entry brought, by the program's answer."""
import itertools
import re
from typing import Iterator, List, NamedTuple, Sequence, Tuple

from .program import Trouble, run
from .words import field, plain_text

# The head of a capture of format 2 has the settings of the node, and its entries say what their readings differ by.
SETTINGS = b"zre-capture 2 "


class Capture(NamedTuple):
    """A capture that the program took: its head, its entries without their ends, the node's clock at each, in
    milliseconds since the first reading, and the lines that the program wrote, each with the number of its entry, from
    0."""

    head: bytes
    entries: List[bytes]
    clocks: List[int]
    lines: List[Tuple[int, bytes]]

    def has_settings(self) -> bool:
        """Whether the head says the settings of the node."""
        return self.head.startswith(SETTINGS)

    def identity(self, words: Sequence[str] = ()) -> str:
        """The node's identity in upper-case digits, from the head or else from the words of the node."""
        if self.has_settings():
            return self.head.split(b" ")[2].decode("ascii")
        digits = next(
            (re.sub("[^0-9a-fA-F]", "", word[3:].replace("urn:uuid:", "")) for word in words if word.startswith("id=")),
            "",
        )
        return digits.upper()

    def name(self, words: Sequence[str] = ()) -> str:
        """The node's name as text, from the head or else from the words of the node."""
        if self.has_settings():
            return field(self.head.split(b" ")[3].decode("ascii"))
        return next((plain_text(word[5:]) for word in words if word.startswith("name=")), "")


def whole_lines(text: bytes) -> Tuple[bytes, int]:
    """A capture without a last line that has no end, and the number of that line, or 0. The head stays as it is."""
    end = text.rfind(b"\n") + 1
    return (text, 0) if end in (0, len(text)) else (text[:end], text.count(b"\n") + 1)


def read_capture(text: bytes, words: Sequence[str]) -> Capture:
    """Reads a capture of whole lines, with the words of its node where it is of format 1."""
    command = ["replay", *words]
    alone = run(command, text)
    head, *entries = text.split(b"\n")[:-1]
    first = free_numbers(text, len(entries))
    lines = placed(run(command, with_marks(head, entries, first)), first, len(entries))
    if [line for _, line in lines] != alone.splitlines():
        raise Trouble("with marks between its entries the capture tells other events")
    return Capture(head, entries, clocks_of(entries, head.startswith(SETTINGS)), lines)


def free_numbers(text: bytes, count: int) -> int:
    """The first of so many numbers in a row of which the text has none in a command `bad N`."""
    first = 1
    for number in sorted({int(n) for n in re.findall(rb" bad ([0-9]+)$", text, re.MULTILINE)}):
        if number - first >= count:
            break
        first = max(first, number + 1)
    return first


def with_marks(head: bytes, entries: Sequence[bytes], first: int) -> bytes:
    """The capture with a mark before each entry. The reading 0 never moves the clock, which is the greatest so far, and
    a difference of 0 moves no reading."""
    lines = [head]
    for number, entry in enumerate(entries, first):
        lines.append(b"0 do bad %d" % number)
        lines.append(entry)
    return b"\n".join(lines) + b"\n"


def placed(told: bytes, first: int, count: int) -> List[Tuple[int, bytes]]:
    """The lines without those of the marks, each with the number of its entry, from 0."""
    answer = re.compile(rb"REFUSED BADLINE ([0-9]+)$")
    entry, lines = -1, []
    for line in told.splitlines():
        match = answer.match(line)
        if match and first <= int(match[1]) < first + count:
            if int(match[1]) != first + entry + 1:
                raise Trouble("the program answered the marks in another order")
            entry += 1
        elif entry < 0:
            raise Trouble("the program told an event before the first mark")
        else:
            lines.append((entry, line))
    if entry + 1 < count and (not lines or lines[-1][1] != b"STOP"):
        raise Trouble("the program didn't answer all marks")
    return lines


def clocks_of(entries: Sequence[bytes], differ: bool) -> List[int]:
    """The node's clock at each entry, since the first reading, in milliseconds: the greatest reading so far."""
    readings = [int(entry[: entry.index(b" ")]) for entry in entries]
    if differ:
        readings = list(itertools.accumulate(readings))
    greatest: Iterator[int] = itertools.accumulate(readings, max)
    return [clock - readings[0] for clock in greatest]
