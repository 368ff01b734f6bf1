"""What the commands that need no network write, and their exit status."""
from __future__ import annotations

from typing import List, Tuple

import exercise
import messages
import network
import records
import zmtp
from captures import Capture
from messages import Run, quote, quote_pairs
from node import Node, Settings
from words import argument

DONE, USAGE, BAD_INPUT = 0, 2, 3
Answer = Tuple[bytes, int]


def answer(lines: List[str], *place: int) -> Answer:
    """The text of these lines and the status, where there is a place with BADINPUT at the end."""
    if place:
        lines = [*lines, " ".join(["BADINPUT", *map(str, place)])]
    return "".join(line + "\n" for line in lines).encode(), BAD_INPUT if place else DONE


def show(octets: bytes) -> Answer:
    """A line for each greeting, command and message of a stream."""
    stream, lines = zmtp.Stream(zmtp.any_peer), []
    try:
        for item in stream.feed(octets):
            if isinstance(item, zmtp.Greeting):
                lines.append(f"greeting {item.major}.{item.minor}")
            elif isinstance(item, zmtp.Command):
                lines.append(f"command {quote(item.name)} {item.size}")
            else:
                lines.append(shown(item.frames))
    except zmtp.Fault as fault:
        return answer(lines, fault.place)
    return answer(lines) if stream.is_at_rest() else answer(lines, len(octets))


def shown(frames: List[bytes]) -> str:
    """The line of a message."""
    try:
        text = messages.shown(messages.read(frames))
    except messages.Bad as bad:
        text = f"BAD {bad.why} {bad.frame} {bad.place}"
    return f"message {len(frames)} {sum(map(len, frames))} {text}"


def follow(peer: bytes, octets: bytes) -> Answer:
    """The events of traffic, as connection 1 of a known peer. What follows the end of its run isn't looked at."""
    stream, run = zmtp.Stream(zmtp.any_peer, is_traffic=True), Run(peer)
    lines: List[str] = []
    try:
        for item in stream.feed(octets):
            if not isinstance(item, zmtp.Message):
                continue
            try:
                message = messages.read(item.frames)
            except messages.Bad:
                continue
            if not run.view:
                why = run.start(message)
                if why:
                    return answer([f"IGNORED 1 {why}"])
            else:
                cause = run.next(message)
                if cause:
                    return answer([*lines, run.line("EXIT", cause)])
            lines += run.told(message)
    except zmtp.Fault as fault:
        return answer(lines, fault.place)
    return answer(lines) if stream.is_at_rest() else answer(lines, len(octets))


def replay(capture: Capture) -> Answer:
    """The events of the node whose journal was captured."""
    lines: List[str] = []
    if capture.settings:
        node = Node(capture.settings)
        for entry in capture.entries:
            node.step(entry.at, entry.form, entry.fields)
        lines = node.lines
    return answer(lines, *place_of(capture))


def upgrade(settings: Settings, octets: bytes) -> Answer:
    """A capture of format 1 in format 2, with these settings."""
    capture = Capture(octets, 1)
    head = ["zre-capture 2", settings.id.hex().upper(), quote(settings.name), settings.host, str(settings.port),
            str(settings.evasive), str(settings.expired), quote_pairs(list(settings.headers))]
    lines, before = [" ".join(head)], 0
    for entry in capture.entries:
        lines.append(f"{entry.at - before}{entry.text.decode()}")
        before = entry.at
    return answer(lines, *place_of(capture))


def simulate(octets: bytes) -> Answer:
    """The events of the nodes of a schedule, or the first bad line of it alone."""
    try:
        return answer(network.simulate(octets))
    except network.BadSchedule as bad:
        return answer([], bad.line)


def place_of(capture: Capture) -> Tuple[int, ...]:
    return (capture.bad.line, capture.bad.column) if capture.bad else ()


def run(words: List[bytes], octets: bytes) -> Answer:
    """What the command with these words answers to this input. It isn't `chat` or `gate`."""
    are_words, told = argument(words)
    if not are_words:
        return b"USAGE\n", USAGE
    name = words[0]
    if name == b"show":
        return show(octets)
    if name == b"simulate":
        return simulate(octets)
    if name == b"exercise":
        assert isinstance(told, exercise.Asked)
        return answer(exercise.summary(told))
    if name == b"follow":
        assert isinstance(told, bytes)
        return follow(told, octets)
    if name == b"audit":
        lines, place = records.audit(octets)
        return answer(lines, *(place or ()))
    if name == b"table":
        assert isinstance(told, bytes)
        lines, place = records.table(told, octets)
        return answer(lines, *(place or ()))
    assert told is None or isinstance(told, Settings)
    if name == b"upgrade":
        assert told is not None
        return upgrade(told, octets)
    capture = Capture(octets, 1 if told else 2)
    capture.settings = told or capture.settings
    return replay(capture)
