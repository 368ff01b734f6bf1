"""What `audit` and `table` make of captures: whether two nodes agree, and the table that a node shares over a group."""
from __future__ import annotations

import re
from typing import Dict, Iterator, List, Optional, Tuple

import captures
import messages
from captures import Capture, NotAsRequired
from messages import Said, quote
from node import Node

KEY_OCTETS, VALUE_OCTETS = 255, 65_535
Place = Tuple[int, int]


def node_of(capture: Capture) -> Node:
    """The node after the entries of a capture."""
    assert capture.settings is not None
    node = Node(capture.settings)
    for entry in capture.entries:
        node.step(entry.at, entry.form, entry.fields)
    return node


def place_of(capture: Capture, lines: int = 0) -> Optional[Place]:
    """Where a capture is bad, after so many lines."""
    return (capture.bad.line + lines, capture.bad.column) if capture.bad else None


# Whether two nodes agree

def parted(octets: bytes) -> Tuple[bytes, bytes]:
    """Two captures, one after the other: a line whose first field is that of a head begins the second."""
    found = re.search(rb"\nzre-capture(?=[ \n]|\Z)", octets)
    at = found.start() + 1 if found else len(octets)
    return octets[:at], octets[at:]


def too_many(runs: List[List[Said]], links: List[List[Said]]) -> Iterator[Tuple[int, int, int]]:
    """The numbers of the runs for which there are too few links, each with the counts of both that begin with it."""
    for which, run in enumerate(runs, 1):
        of_runs, of_links = (sum(one[:len(run)] == run for one in lists) for lists in (runs, links))
        if of_runs > of_links:
            yield which, of_runs, of_links


def judged(one: Node, other: Node) -> str:
    """The line of an audit of two nodes."""
    for side, (heard, put) in enumerate(((one, other), (other, one)), 1):
        for found in too_many(heard.heard(put.settings.id), put.put(heard.settings.id)):
            return " ".join(map(str, ["AUDIT no", side, *found]))
    return "AUDIT yes"


def audit(octets: bytes) -> Tuple[List[str], Optional[Place]]:
    """Whether the nodes of two captures agree, or where the input isn't two captures of different nodes."""
    before, after = parted(octets)
    first, lines = Capture(before, 2), before.count(b"\n")
    if first.bad:
        return [], place_of(first)
    assert first.settings is not None
    head = b"zre-capture 2 "
    if after.startswith(head + first.settings.id.hex().upper().encode()):
        return [], (lines + 1, len(head) + 1)
    second = Capture(after, 2)
    if second.bad:
        return [], place_of(second, lines)
    return [judged(node_of(first), node_of(second))], None


# The table of a group

def write_of(frame: bytes) -> Optional[Tuple[bytes, Tuple[int, bytes, bytes]]]:
    """The key of a write, and by what writes of it are compared: count, writer and value."""
    fields = frame.split(b" ")
    if len(fields) != 5 or fields[0] != b"zre-set":
        return None
    try:
        count, writer = captures.number(fields[1]), captures.identity(fields[2])
        key, value = captures.quoted(fields[3]), captures.quoted(fields[4])
    except NotAsRequired:
        return None
    return (key, (count, writer, value)) if len(key) <= KEY_OCTETS and len(value) <= VALUE_OCTETS else None


def table(group: bytes, octets: bytes) -> Tuple[List[str], Optional[Place]]:
    """The lines of a table, or where the input is no capture."""
    capture = Capture(octets, 2)
    if capture.bad:
        return [], place_of(capture)
    lasts: Dict[bytes, Tuple[int, bytes, bytes]] = {}
    for said in node_of(capture).brought:
        if said.command == messages.WHISPER or said.group == group:
            for frame in said.content:
                write = write_of(frame)
                if write and (write[0] not in lasts or lasts[write[0]] < write[1]):
                    lasts[write[0]] = write[1]
    return [f"{quote(key)} {count} {writer.hex().upper()} {quote(value)}"
            for key, (count, writer, value) in sorted(lasts.items())], None
