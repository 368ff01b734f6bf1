"""A session: what its node told and what its user asked for, each with its time, and parts of it."""
from typing import Dict, Iterable, List, NamedTuple, Optional, Sequence, Set

from .captures import Capture
from .program import Trouble
from .words import field, plain_text

PEER_KINDS = ("ENTER", "JOIN", "LEAVE", "WHISPER", "SHOUT", "EVASIVE", "EXIT")
OWN_KINDS = ("join", "leave", "whisper", "shout", "quit", "end")


class Event(NamedTuple):
    """A line that the program tells, or, with a kind in lower case, what was asked of the node.

    `time` is in milliseconds since the first reading, `fields` are quoted as they are, `line` is the capture's, from 1.
    Of a command `refused` is why it wasn't done, and of REFUSED `asked` is the command.
    """

    time: int
    kind: str
    fields: List[str]
    line: int
    refused: str = ""
    asked: str = ""

    def peer(self) -> str:
        """The identity of the peer that it is about, or nothing."""
        return self.fields[0] if self.kind in PEER_KINDS or self.kind == "whisper" else ""

    def group(self) -> Optional[str]:
        """The group that it is about, quoted, or none."""
        if self.kind in ("JOIN", "LEAVE", "SHOUT"):
            return self.fields[2]
        return self.fields[0] if self.kind in ("join", "leave", "shout") else None


class Wanted(NamedTuple):
    """Which part of a session is wanted: times in milliseconds, peers by name or first digits, groups by name."""

    begin: Optional[int] = None
    end: Optional[int] = None
    peers: Sequence[str] = ()
    groups: Sequence[str] = ()

    def words(self) -> str:
        """The part in words, but for its times; nothing for all."""
        return ", ".join(
            [f"peer {plain_text(peer)}" for peer in self.peers]
            + [f"group {plain_text(group)}" for group in self.groups]
        )


class Session:
    """The events of a capture in their order and their names; from `begin` to `end` is what is shown of it."""

    def __init__(self, capture: Capture, words: Sequence[str], wanted: Wanted = Wanted()) -> None:
        self.entries, self.name, self.part = len(capture.entries), capture.name(words), wanted.words()
        self.identity = capture.identity(words)
        self.events = events_of(capture)
        stops = [event for event in self.events if event.kind == "STOP"]
        self.length = stops[0].time if stops else (capture.clocks or [0])[-1]
        self.ids = {event.peer() for event in self.events if event.peer()}
        self.names: Dict[str, str] = {}
        for event in self.events:
            if event.kind == "ENTER":
                self.names.setdefault(event.fields[0], field(event.fields[1]))
        self.begin = min(wanted.begin or 0, self.length)
        self.end = self.length if wanted.end is None else min(wanted.end, self.length)
        if self.end < self.begin:
            raise Trouble("--to is before --from", 2)
        if wanted.peers:
            self.events = about_peers(self.events, self.chosen_peers(wanted.peers))
        if wanted.groups:
            self.events = about_groups(self.events, self.chosen_groups(wanted.groups))

    def is_shown(self, event: Event) -> bool:
        """Whether an event lies in the part's times."""
        return self.begin <= event.time <= self.end

    def chosen_peers(self, asked: Iterable[str]) -> Set[str]:
        """The identities that are meant by names or first digits. Each must be that of a peer."""
        chosen: Set[str] = set()
        for word in asked:
            digits = word.upper().replace("-", "")
            found = {peer for peer in self.ids if self.names.get(peer) == plain_text(word)}
            found |= {peer for peer in self.ids if digits and peer.startswith(digits)}
            if not found:
                raise Trouble(f"no peer has the name or the first digits {plain_text(word)}", 2)
            chosen |= found
        return chosen

    def chosen_groups(self, asked: Iterable[str]) -> Set[str]:
        """The groups, quoted, that are meant by quoted or plain names. Each must be there."""
        groups = {group for group in (event.group() for event in self.events) if group is not None}
        chosen: Set[str] = set()
        for word in asked:
            found = {group for group in groups if word == group or plain_text(word) == field(group)}
            if not found:
                raise Trouble(f"no group has the name {plain_text(word)}", 2)
            chosen |= found
        return chosen


def events_of(capture: Capture) -> List[Event]:
    """All events, each command before what was told of it. What comes after the stop was not asked of the node."""
    events, lines, at = [], capture.lines, 0
    for number, entry in enumerate(capture.entries):
        told = []
        while at < len(lines) and lines[at][0] == number:
            told.append(lines[at][1].decode("ascii").split(" "))
            at += 1
        time, line = capture.clocks[number], number + 2
        command = command_of(entry)
        refused = next((" ".join(fields[1:]) for fields in told if fields[0] == "REFUSED"), "")
        if command:
            events.append(Event(time, command[0], command[1:], line, refused))
        events += [
            Event(time, fields[0], fields[1:], line, asked=command[0] if command and refused else "") for fields in told
        ]
        if told and told[-1] == ["STOP"]:
            break
    return events


def command_of(entry: bytes) -> List[str]:
    """The command of an entry and its fields; nothing for another entry, and for a line that was no command."""
    fields = entry.decode("ascii").split(" ")
    if fields[1] == "end":
        return ["end"]
    return fields[2:] if fields[1] == "do" and fields[2] != "bad" else []


def about_peers(events: Sequence[Event], peers: Set[str]) -> List[Event]:
    """What is about these peers, or said to every peer, and the stop."""
    return [
        event
        for event in events
        if event.peer() in peers
        or event.kind in ("join", "leave", "shout", "quit", "end", "STOP")
        or event.kind == "REFUSED"
        and event.asked in ("join", "leave", "shout")
    ]


def about_groups(events: Sequence[Event], groups: Set[str]) -> List[Event]:
    """What is about these groups, the stays of the peers that were in them or shouted to them, and the stop."""
    peers = {event.peer() for event in events if event.peer() and event.group() in groups}
    kept, is_kept = [], False
    for event in events:
        if event.kind == "REFUSED":
            # it stands behind its command
            is_kept = is_kept and event.asked != ""
        elif event.group() is not None:
            is_kept = event.group() in groups
        else:
            is_kept = event.kind in ("quit", "end", "STOP") or event.kind in ("ENTER", "EXIT") and event.peer() in peers
        if is_kept:
            kept.append(event)
    return kept
