"""The lines of a chat as values, both ways: its events, and the commands that it takes.

A line is given without its line feed. Numbers are decimal without leading zeros, fields have one space between, octets
are quoted (`zre.quoting`). Each value has one line alone: the readers refuse every other with BadLine.
"""
import re
from dataclasses import dataclass
from typing import Callable, Dict, List, Optional, Tuple, Union
from uuid import UUID

from . import events as ev
from .events import Event, digits
from .quoting import BadField, quote, quote_list, quote_pairs, unquote, unquote_list, unquote_pairs

LINE = 65_536  # The most octets of a line that a chat takes, without its line feed.
GROUP = 255  # The most octets of a group name.

U16, U64 = (1 << 16) - 1, (1 << 64) - 1
_NUMBER = re.compile(rb"0|[1-9][0-9]*")
_ID = re.compile(rb"[0-9A-F]{32}")
FAULTS = "Signature OldVersion Mechanism Flags CommandName Metadata SocketType Identity".split()
FAULTS += "PeerError Order TooLarge TooManyFrames".split()
IGNORED = "NotHello Limit NoEndpoint Full".split()
CLOSED = "TooMany Timeout Taken".split()
REFUSED = "NOPEER TOOBIG NOGROUP SAME LIMIT BADLINE".split()
# The greatest values of the numbers after each cause of EXIT; `reply` has a fault before its number.
CAUSES: Dict[str, Tuple[int, ...]] = {
    **{word: () for word in "beacon expired link shut fault taken hello limit stop".split()},
    "reply": (U64,),
    "slow": (U64, U64),
    "order": (U16, U16),
}


class BadLine(ValueError):
    """A text that is no line of this kind. The message says why, in words for people."""


def read_id(field: bytes) -> UUID:
    """An identity of 32 upper-case digits; BadLine where it isn't one."""
    if not _ID.fullmatch(field):
        raise BadLine(f"{ev.as_text(field[:40])!r} is no identity of 32 digits, 0 to 9 and A to F")
    return UUID(field.decode("ascii"))


def _number(field: bytes, most: int) -> int:
    if not _NUMBER.fullmatch(field) or len(field) > 20 or int(field) > most:
        raise BadLine(f"{ev.as_text(field[:40])!r} is no number from 0 to {most}")
    return int(field)


def _word(field: bytes, words: List[str]) -> str:
    text = ev.as_text(field)
    if text not in words:
        raise BadLine(f"{text[:40]!r} is none of {', '.join(words)}")
    return text


def _count(fields: List[bytes], least: int, most: int) -> None:
    if not least <= len(fields) <= most:
        raise BadLine(
            f"{len(fields)} fields stand after the word, in place of {least if least == most else f'{least} to {most}'}"
        )


# ---- Events ----


def parse_event(line: bytes) -> Event:
    """The event of a line. Raises BadLine where it is none."""
    word, *fields = line.split(b" ")
    read = _READERS.get(word)
    if read is None:
        raise BadLine(f"{ev.as_text(word[:40])!r} is no word of an event")
    try:
        return read(fields)
    except BadField as why:
        raise BadLine(str(why)) from None


def format_event(event: Event) -> bytes:
    """The line of an event."""
    fields = [event.word.encode()]
    if isinstance(event, ev.PeerEvent):
        fields += [digits(event.peer).encode(), quote(event.name)]
    if isinstance(event, ev.GroupEvent):
        fields.append(quote(event.group))
    if isinstance(event, (ev.Whisper, ev.Shout)):
        fields.append(quote_list(event.content))
    elif isinstance(event, ev.Enter):
        fields += [quote(event.endpoint), quote_pairs(event.headers)]
    elif isinstance(event, ev.Exit):
        fields += format_cause(event.cause)
    elif isinstance(event, (ev.Ignored, ev.Closed)):
        fields += [b"%d" % event.connection, event.reason.encode()]
        if isinstance(event, ev.Closed) and event.place is not None:
            fields.append(b"%d" % event.place)
    elif isinstance(event, ev.Refused):
        fields += _format_refusal(event)
    return b" ".join(fields)


def format_cause(cause: ev.Cause) -> List[bytes]:
    """The fields of a cause of EXIT."""
    return [text.encode() for text in (cause.word, cause.fault, *map(str, cause.numbers)) if text]


def format_refusal(event: ev.Refused) -> bytes:
    """What stands after REFUSED: the reason and what it is of."""
    return b" ".join(_format_refusal(event))


def _format_refusal(event: ev.Refused) -> List[bytes]:
    fields = [event.reason.encode()]
    if event.peer is not None:
        fields.append(digits(event.peer).encode())
    if event.group is not None:
        fields.append(quote(event.group))
    if event.number is not None:
        fields.append(b"%d" % event.number)
    return fields


def _peer_fields(fields: List[bytes], least: int, most: int) -> Tuple[UUID, bytes]:
    _count(fields, least, most)
    return read_id(fields[0]), unquote(fields[1])


def _read_enter(fields: List[bytes]) -> Event:
    peer, name = _peer_fields(fields, 4, 4)
    pairs = unquote_pairs(fields[3])
    if len(dict(pairs)) < len(pairs):
        raise BadLine("a header stands twice")
    return ev.Enter(peer, name, unquote(fields[2]), dict(pairs))


def _read_cause(fields: List[bytes]) -> ev.Cause:
    word = _word(fields[0], list(CAUSES))
    rest = fields[1:]
    fault = _word(rest.pop(0), FAULTS) if word == "reply" and rest else ""
    _count(rest, len(CAUSES[word]), len(CAUSES[word]))
    return ev.Cause(word, tuple(map(_number, rest, CAUSES[word])), fault)


def _read_exit(fields: List[bytes]) -> Event:
    peer, name = _peer_fields(fields, 3, 5)
    return ev.Exit(peer, name, _read_cause(fields[2:]))


def _read_ignored(fields: List[bytes]) -> Event:
    _count(fields, 2, 2)
    return ev.Ignored(_number(fields[0], U64), _word(fields[1], IGNORED))


def _read_closed(fields: List[bytes]) -> Event:
    _count(fields, 2, 3)
    connection, is_fault = _number(fields[0], U64), len(fields) == 3
    reason = _word(fields[1], FAULTS if is_fault else CLOSED)
    return ev.Closed(connection, reason, _number(fields[2], U64) if is_fault else None)


def _read_refused(fields: List[bytes]) -> Event:
    _count(fields, 1, 2)
    reason = _word(fields[0], REFUSED)
    _count(fields, *((1, 1) if reason == "TOOBIG" else (2, 2)))
    if reason == "NOPEER":
        return ev.Refused(reason, peer=read_id(fields[1]))
    if reason == "BADLINE":
        return ev.Refused(reason, number=_number(fields[1], U64))
    return ev.Refused(reason) if reason == "TOOBIG" else ev.Refused(reason, group=unquote(fields[1]))


def _read_stop(fields: List[bytes]) -> Event:
    _count(fields, 0, 0)
    return ev.Stop()


_READERS: Dict[bytes, Callable[[List[bytes]], Event]] = {
    b"ENTER": _read_enter,
    b"JOIN": lambda fields: ev.Join(*_peer_fields(fields, 3, 3), unquote(fields[2])),
    b"LEAVE": lambda fields: ev.Leave(*_peer_fields(fields, 3, 3), unquote(fields[2])),
    b"WHISPER": lambda fields: ev.Whisper(*_peer_fields(fields, 3, 3), unquote_list(fields[2])),
    b"SHOUT": lambda fields: ev.Shout(*_peer_fields(fields, 4, 4), unquote(fields[2]), unquote_list(fields[3])),
    b"EVASIVE": lambda fields: ev.Evasive(*_peer_fields(fields, 2, 2)),
    b"EXIT": _read_exit,
    b"IGNORED": _read_ignored,
    b"CLOSED": _read_closed,
    b"REFUSED": _read_refused,
    b"STOP": _read_stop,
}


# ---- Commands ----


@dataclass(frozen=True)
class Command:
    """What a line asks of a node: `word` is join, leave, shout, whisper or quit.

    `group` is there for join, leave and shout, `peer` for whisper, `text` for shout and whisper: one frame, which has
    no line feed.
    """

    word: str
    group: Optional[bytes] = None
    peer: Optional[UUID] = None
    text: Optional[bytes] = None


def format_command(command: Command) -> bytes:
    """The line of a command.

    Raises BadLine where no line can say it: a text with a line feed, a group name of more than 255 octets, or a line
    of more than 65,536 octets, that of its word and what stands before the text included.
    """
    fields = [command.word.encode()]
    if command.group is not None:
        if len(command.group) > GROUP:
            raise BadLine(f"a group name has {len(command.group)} octets, and the most is {GROUP}")
        fields.append(quote(command.group))
    if command.peer is not None:
        fields.append(digits(command.peer).encode())
    if command.text is not None:
        if b"\n" in command.text:
            at = command.text.index(b"\n")
            raise BadLine(f"a text can't be sent that has a line feed: octet {at} of {ev.as_text(command.text[:40])!r}")
        fields.append(command.text)
    line = b" ".join(fields)
    if len(line) > LINE:
        raise BadLine(f"the line has {len(line)} octets, and the most is {LINE}")
    return line


def parse_command(line: bytes) -> Command:
    """The command of a line. Raises BadLine, with what is wrong with it, where a chat would answer BADLINE."""
    if len(line) > LINE:
        raise BadLine(f"the line has more than {LINE} octets")
    word, space, rest = line.partition(b" ")
    if word in (b"join", b"leave"):
        return Command(word.decode(), group=_group(rest if space else None, word))
    if word in (b"shout", b"whisper"):
        first, space, text = rest.partition(b" ")
        to: Union[bytes, UUID] = _group(first, word) if word == b"shout" else read_id(first)
        if not space:
            raise BadLine(
                f"{word.decode()} has a space and a text after {'the group' if word == b'shout' else 'the identity'}"
            )
        return (
            Command("shout", group=to, text=text) if isinstance(to, bytes) else Command("whisper", peer=to, text=text)
        )
    if line == b"quit":
        return Command("quit")
    raise BadLine(f"{ev.as_text(word[:40])!r} is no command: join, leave, shout, whisper or quit")


def _group(field: Optional[bytes], word: bytes) -> bytes:
    if not field:
        raise BadLine(f"{word.decode()} has a group after one space")
    try:
        return unquote(field)
    except BadField as why:
        raise BadLine(f"in the group {ev.as_text(field[:40])!r}: {why}") from None
