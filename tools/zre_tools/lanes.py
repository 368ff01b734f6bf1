"""The lanes of a picture: of each peer and of the node itself, when it was there, in which groups, and what it sent."""
from typing import Dict, List, Optional, Tuple

from .session import PEER_KINDS, Event, Session
from .words import field

# What the owner of a lane sent, and that it was silent.
SENT_KINDS = ("WHISPER", "SHOUT", "EVASIVE")


class Span:
    """From one event to another; none where it began before the first reading, or where it goes on at the end."""

    def __init__(self, begin: Optional[Event], end: Optional[Event] = None) -> None:
        self.begin, self.end = begin, end

    def events(self) -> List[Event]:
        """The events that are there."""
        return [event for event in (self.begin, self.end) if event]


class Lane:
    """What is known of one peer, or of the node, whose identity may be empty."""

    def __init__(self, peer: str, name: str) -> None:
        self.peer, self.name = peer, name
        self.stays: List[Span] = []
        self.groups: Dict[str, List[Span]] = {}
        self.joined: Dict[str, Span] = {}
        self.marks: Dict[str, List[Event]] = {}

    def take(self, event: Event) -> None:
        """An event of the owner, in its turn."""
        if event.kind == "ENTER":
            self.stays.append(Span(event))
        elif event.kind in ("JOIN", "join"):
            self.join(event, event.group() or "")
        elif event.kind in ("LEAVE", "leave"):
            self.joined.pop(event.group() or "", Span(None)).end = event
        elif event.kind in ("EXIT", "STOP"):
            self.leave_all(event)
        else:
            self.marks.setdefault(event.kind.upper(), []).append(event)

    def join(self, event: Event, group: str) -> None:
        """The owner is in the group from here on, if it wasn't."""
        if group not in self.joined:
            self.joined[group] = Span(event)
            self.groups.setdefault(group, []).append(self.joined[group])

    def leave_all(self, event: Event) -> None:
        """The owner is gone."""
        for span in [*self.stays[-1:], *self.joined.values()]:
            span.end = event
        self.joined = {}

    def clip(self, session: Session) -> None:
        """Drops what lies outside the times that are shown."""
        self.stays = clipped(self.stays, session)
        self.groups = {
            group: kept for group, spans in self.groups.items() for kept in [clipped(spans, session)] if kept
        }
        self.marks = {
            kind: kept
            for kind, events in self.marks.items()
            for kept in [[event for event in events if session.is_shown(event)]]
            if kept
        }

    def sent(self) -> List[str]:
        """The kinds of what it sent, as far as there are any."""
        return [kind for kind in SENT_KINDS if kind in self.marks]

    def counts(self) -> Tuple[str, str]:
        """How often it came and what it sent, in words."""
        told = [f"{len(self.marks[kind]):,} {kind}" for kind in self.sent()]
        return (f" · came {len(self.stays):,} times" if len(self.stays) > 1 else ""), " · ".join(told)


def clipped(spans: List[Span], session: Session) -> List[Span]:
    """The spans of which a part is shown. Where the end lies behind that part, it has none."""
    kept = [
        span
        for span in spans
        if (span.begin is None or span.begin.time <= session.end)
        and (span.end is None or span.end.time >= session.begin)
    ]
    return [span if span.end is None or span.end.time <= session.end else Span(span.begin) for span in kept]


def lanes_of(session: Session) -> Tuple[Lane, List[Lane]]:
    """The lane of the node itself, and those of the peers by their first ENTER, as far as they are shown."""
    own = Lane(session.identity, session.name)
    lanes: Dict[str, Lane] = {}
    own.stays.append(Span(None))
    for event in session.events:
        if event.kind in PEER_KINDS:
            peer = event.fields[0]
            lanes.setdefault(peer, Lane(peer, field(event.fields[1]))).take(event)
        elif event.kind not in ("quit", "end") and not event.refused:
            own.take(event)
            if event.kind == "STOP":
                own.marks["STOP"] = [event]
    for lane in [own, *lanes.values()]:
        lane.clip(session)
    return own, [lane for lane in lanes.values() if lane.stays or lane.marks]
