"""What must hold of every run: the statuses, the form of the text, and what two runs have to do with each other."""
from __future__ import annotations

import re
from typing import List, Set, Tuple

# What a peer is called in a line of an event, where it is there for it.
OF_A_PEER = re.compile(rb"(ENTER|JOIN|LEAVE|WHISPER|SHOUT|EVASIVE|EXIT) ([0-9A-F]{32}) ")
BAD_INPUT = re.compile(rb"BADINPUT [0-9]+( [0-9]+)?\Z")
LINE = re.compile(rb"[!-~]+( [!-~]+)*\Z")


class Wrong(Exception):
    """Something that must hold doesn't."""


def lines_of(text: bytes) -> List[bytes]:
    """The lines of a text, which is whole lines of plain octets."""
    if text and not text.endswith(b"\n"):
        raise Wrong("the last line isn't whole")
    lines = text.split(b"\n")[:-1]
    for line in lines:
        if not LINE.match(line):
            raise Wrong(f"a line that has other than fields of plain octets: {line[:80]!r}")
    return lines


def judged(status: int, text: bytes) -> bytes:
    """The text without the line of a refusal. Input that is read to its end gives 0, or 3 with that line alone."""
    lines = lines_of(text)
    refused = [line for line in lines if line.startswith(b"BADINPUT")]
    if status == 0 and not refused:
        return text
    if status == 3 and len(refused) == 1 and lines[-1] == refused[0] and BAD_INPUT.match(refused[0]):
        return text[:-len(refused[0]) - 1]
    raise Wrong(f"status {status}, and {len(refused)} lines of a refusal")


def each_peer_is_there(text: bytes) -> None:
    """Nothing is told of a peer but between its ENTER and its EXIT."""
    there: Set[bytes] = set()
    for line in lines_of(text):
        found = OF_A_PEER.match(line)
        if not found:
            continue
        event, peer = found.groups()
        if (event == b"ENTER") == (peer in there):
            raise Wrong(f"out of place: {line[:80]!r}")
        if event == b"ENTER":
            there.add(peer)
        elif event == b"EXIT":
            there.remove(peer)


def begins(shorter: bytes, longer: bytes, what: str) -> None:
    if not longer.startswith(shorter):
        raise Wrong(f"{what}: the text of the beginning isn't the beginning of the text")


def same(one: Tuple[int, bytes], other: Tuple[int, bytes], what: str) -> None:
    if one != other:
        raise Wrong(f"{what}: {one[0]} and {len(one[1])} octets, {other[0]} and {len(other[1])} octets of text")
