"""A session as lines of text."""
from typing import List

from .session import PEER_KINDS, Event, Session
from .words import clock, details, field, labels_of


def rest_of(event: Event) -> List[str]:
    """The fields of an event behind those of its peer."""
    if event.kind in PEER_KINDS:
        return event.fields[2:]
    return event.fields[1:] if event.kind == "whisper" else event.fields


def told(event: Event, limit: int) -> str:
    """What an event tells besides its kind and its peer."""
    text = details(event.kind, rest_of(event), limit)
    return f"{text} (refused)".lstrip() if event.refused else text


def as_text(session: Session) -> str:
    """A line for each event and each command."""
    labels = labels_of(session.ids)
    digits = max(map(len, labels.values()), default=0)
    room = min(20, max(map(len, session.names.values()), default=0))
    lines = []
    for event in session.events:
        if not session.is_shown(event):
            continue
        columns = [clock(event.time), f"{event.kind:<7}"]
        if labels:
            peer = event.peer()
            quoted = event.fields[1] if event.kind in PEER_KINDS else ""
            name = field(quoted, room) if quoted else session.names.get(peer, "")[:room]
            columns.append(f"{labels.get(peer, ''):<{digits}} {name if room else '':<{room}}")
        lines.append("  ".join([*columns, told(event, 160)]).rstrip() + "\n")
    return "".join(lines)
