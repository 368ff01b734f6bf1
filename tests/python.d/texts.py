"""Quoting and lines, by random texts: against the manual's grammar as it is written down here once more, against the
lines that were recorded, and against the program's own reading."""
from __future__ import annotations

import glob
import json
import os
import random
import re
import subprocess
import uuid
from typing import Callable, Dict, List, Optional, Tuple, Type, TypeVar, Union

from zre import events as ev
from zre import jsonlines, lines, quoting

ROUNDS = 1500
A_FEW = [
    b"",
    b"~",
    b"%",
    b"a",
    b"chat",
    b"a b",
    b"\0",
    b"\n",
    b"=",
    b",",
    "é".encode(),
    b"\xff",
    b"}",
    b"!",
    b"%41",
    b"\x7f",
]
HERE = os.path.dirname(os.path.realpath(__file__))
Given = TypeVar("Given")
Value = TypeVar("Value")
# How values of one kind are made, written and read, and the pattern of their texts.
Kind = Tuple[Callable[[random.Random], Given], Callable[[Given], bytes], Callable[[bytes], Given], str]

# The grammar of a field, from the manual: ! to ~ stand for themselves but for % ~ = and , and all others are quoted.
PLAIN = "".join(chr(code) for code in range(0x21, 0x7F) if chr(code) not in "%~=,")
ESCAPES = "|".join("%%%02X" % code for code in range(256) if chr(code) not in PLAIN)
FIELD = rf"(?:~|(?:[{re.escape(PLAIN)}]|{ESCAPES})+)"
LIST = rf"(?:%|{FIELD}(?:,{FIELD})*)"
PAIRS = rf"(?:%|{FIELD}={FIELD}(?:,{FIELD}={FIELD})*)"
ID, NUMBER = r"[0-9A-F]{32}", r"(?:0|[1-9][0-9]{0,19})"
FAULT = (
    "(?:Signature|OldVersion|Mechanism|Flags|CommandName|Metadata|SocketType|Identity|PeerError|Order|TooLarge"
    "|TooManyFrames)"
)
CAUSE = (
    rf"(?:beacon|expired|link|reply {FAULT} {NUMBER}|slow {NUMBER} {NUMBER}|shut|fault|taken|hello"
    rf"|order {NUMBER} {NUMBER}|limit|stop)"
)
EVENT = re.compile(
    rf"ENTER {ID} {FIELD} {FIELD} {PAIRS}|(?:JOIN|LEAVE) {ID} {FIELD} {FIELD}|WHISPER {ID} {FIELD} {LIST}"
    rf"|SHOUT {ID} {FIELD} {FIELD} {LIST}|EVASIVE {ID} {FIELD}|EXIT {ID} {FIELD} {CAUSE}"
    rf"|IGNORED {NUMBER} (?:NotHello|Limit|NoEndpoint|Full)|CLOSED {NUMBER} (?:TooMany|Timeout|Taken|{FAULT} {NUMBER})"
    rf"|REFUSED (?:NOPEER {ID}|TOOBIG|(?:NOGROUP|SAME|LIMIT) {FIELD}|BADLINE {NUMBER})|STOP"
)


def octets(of: random.Random) -> bytes:
    if of.random() < 0.4:
        return of.choice(A_FEW)
    return bytes(of.choice((of.randrange(256), of.choice(b"abc~%=, "))) for _ in range(of.randrange(12)))


def listed(of: random.Random) -> Tuple[bytes, ...]:
    return tuple(octets(of) for _ in range(of.choice((0, 1, 1, 1, 2, 3))))


def event(of: random.Random) -> ev.Event:
    peer, name, number = (
        uuid.UUID(int=of.getrandbits(128)),
        octets(of),
        of.choice((0, 1, 9, 10, 2**64 - 1, of.getrandbits(64))),
    )
    small = of.choice((0, 1, 2**16 - 1, of.getrandbits(16)))
    word = of.choice(list(lines.CAUSES))
    numbers = tuple(small if most < 2**20 else number for most in lines.CAUSES[word])
    cause = ev.Cause(word, numbers, of.choice(lines.FAULTS) if word == "reply" else "")
    makers: List[Callable[[], ev.Event]] = [
        lambda: ev.Enter(peer, name, octets(of), dict((octets(of), octets(of)) for _ in range(of.randrange(4)))),
        lambda: ev.Join(peer, name, octets(of)),
        lambda: ev.Leave(peer, name, octets(of)),
        lambda: ev.Whisper(peer, name, listed(of)),
        lambda: ev.Shout(peer, name, octets(of), listed(of)),
        lambda: ev.Evasive(peer, name),
        lambda: ev.Exit(peer, name, cause),
        lambda: ev.Ignored(number, of.choice(lines.IGNORED)),
        lambda: ev.Closed(number, of.choice(lines.CLOSED)),
        lambda: ev.Closed(number, of.choice(lines.FAULTS), number),
        lambda: ev.Refused("NOPEER", peer=peer),
        lambda: ev.Refused("TOOBIG"),
        lambda: ev.Refused(of.choice(("NOGROUP", "SAME", "LIMIT")), group=octets(of)),
        lambda: ev.Refused("BADLINE", number=number),
        lambda: ev.Stop(),
    ]
    return of.choice(makers)()


def mutated(of: random.Random, text: bytes) -> bytes:
    """The text with one octet more, less or otherwise, or with its fields in another order."""
    at = of.randrange(len(text) + 1)
    put = of.choice((b" ", b"%", b"~", b"=", b",", b"0", b"a", b"F", b"\n", b"\xff", bytes([of.randrange(256)])))
    fields = text.split(b" ")
    return of.choice(
        (
            text[:at] + put + text[at:],
            text[:at] + text[at + 1 :],
            text[:at] + put + text[at + 1 :],
            b" ".join(of.sample(fields, len(fields))),
            text + b" " + of.choice(fields),
            b" ".join(fields[:-1]),
        )
    )


def is_of(pattern: Union[str, re.Pattern[str]], text: bytes) -> bool:
    return re.fullmatch(pattern, text.decode("latin-1")) is not None


def reads(read: Callable[[Given], Value], text: Given, fault: Type[Exception]) -> Tuple[bool, Optional[Value]]:
    try:
        return True, read(text)
    except fault:
        return False, None


def pairs(of: random.Random) -> List[Tuple[bytes, bytes]]:
    return list(zip(listed(of), listed(of)))


def is_the_manuals(of: random.Random, kind: Kind[Given]) -> None:
    make, write, read, pattern = kind
    seen = {True: 0, False: 0}
    for _ in range(ROUNDS):
        value = make(of)
        text = write(value)
        assert is_of(pattern, text), (value, text)
        assert read(text) == value, (value, text)
        other = mutated(of, text)
        is_read, again = reads(read, other, quoting.BadField)
        assert is_read == is_of(pattern, other), other
        assert again is None or write(again) == other, other
        seen[is_read] += 1
    assert min(seen.values()) > ROUNDS // 20, seen


def quoting_is_the_manuals() -> None:
    of = random.Random(1)
    is_the_manuals(of, (octets, quoting.quote, quoting.unquote, FIELD))
    is_the_manuals(of, (listed, quoting.quote_list, quoting.unquote_list, LIST))
    is_the_manuals(of, (pairs, quoting.quote_pairs, quoting.unquote_pairs, PAIRS))
    assert quoting.quote(b"hello, out there") == b"hello%2C%20out%20there"


def events_are_the_manuals() -> None:
    of, seen = random.Random(2), {True: 0, False: 0}
    for _ in range(ROUNDS * 2):
        made = event(of)
        text = lines.format_event(made)
        assert is_of(EVENT, text), text
        assert lines.parse_event(text) == made, text
        other = mutated(of, text)
        is_read, value = reads(lines.parse_event, other, lines.BadLine)
        # what the pattern doesn't say: numbers have a greatest value, and headers differ
        if not is_of(EVENT, other):
            assert not is_read, other
        elif value is not None:
            assert lines.format_event(value) == other, other
        else:
            assert re.search(rb"[0-9]{5}|=.*=", other), other
        seen[is_read] += 1
    assert min(seen.values()) > ROUNDS // 20, seen


def recorded_lines_are_read() -> None:
    count = 0
    for name in glob.glob(os.path.join(HERE, "..", "data", "*.txt")):
        with open(name, "rb") as file:
            for line in file.read().split(b"\n"):
                if line.split(b" ")[0] in (
                    b"ENTER",
                    b"JOIN",
                    b"LEAVE",
                    b"WHISPER",
                    b"SHOUT",
                    b"EVASIVE",
                    b"EXIT",
                    b"STOP",
                ):
                    assert lines.format_event(lines.parse_event(line)) == line, line
                    count += 1
    assert count > 50, count


def command(of: random.Random) -> lines.Command:
    word = of.choice(("join", "leave", "shout", "whisper"))
    text = octets(of).replace(b"\n", b"")
    if word == "whisper":
        return lines.Command(word, peer=uuid.UUID(int=of.getrandbits(128)), text=text)
    return lines.Command(word, group=octets(of), text=text if word == "shout" else None)


def commands_are_read_as_the_program_reads_them() -> None:
    """What is no command here is answered by BADLINE there, and nothing else is."""
    of, typed = random.Random(3), [
        b"x" * 65537,
        b"shout g " + b"x" * 65528,
        b"shout g " + b"x" * 65529,
        b"",
        b" ",
        b"quit ",
    ]
    for _ in range(ROUNDS):
        made = command(of)
        text = lines.format_command(made)
        assert lines.parse_command(text) == made, text
        typed += [text, mutated(of, text).replace(b"\n", b"")]
    typed = [line for line in typed if line != b"quit"]
    due = [at for at, line in enumerate(typed, 1) if not reads(lines.parse_command, line, lines.BadLine)[0]]
    # the program reads them from a capture's node that nobody hears: at an address of its own
    words = f"chat id={'A' * 32} host=127.0.0.91 port=49152 listen=127.0.0.91 beacon=5691".split()
    ran = subprocess.run([os.environ["ZRE"], *words], input=b"\n".join(typed) + b"\n", capture_output=True, timeout=15)
    got = [int(number) for number in re.findall(rb"^REFUSED BADLINE (\d+)$", ran.stdout, re.M)]
    assert ran.returncode == 0, ran
    assert got == due, (set(got) ^ set(due), [typed[at - 1] for at in sorted(set(got) ^ set(due))[:3]])
    assert len(typed) - len(due) > ROUNDS and len(due) > ROUNDS // 20


def what_no_line_can_say_is_refused() -> None:
    for made in (
        lines.Command("shout", group=b"g", text=b"a\nb"),
        lines.Command("join", group=b"g" * 256),
        lines.Command("shout", group=b"g", text=b"x" * 65529),
    ):
        assert not reads(lines.format_command, made, ValueError)[0], made
    assert lines.format_command(lines.Command("shout", group=b"g", text=b"x" * 65528))


def json_has_all_of_an_event() -> None:
    of = random.Random(4)
    seen: Dict[bytes, ev.Event] = {}
    for _ in range(ROUNDS // 3):
        made = event(of)
        text = jsonlines.dump(jsonlines.from_event(made))
        assert b"\n" not in text and json.loads(text)["event"] == made.word
        assert seen.setdefault(text, made) == made, text  # two events have two texts
    asked = jsonlines.parse(b'{"do":"shout","group":{"base64":"/w=="},"text":"h\xc3\xa9"}')
    assert asked == lines.Command("shout", group=b"\xff", text="hé".encode())
    for text in (
        b"",
        b"[]",
        b'{"do":"fly"}',
        b'{"do":"join"}',
        b'{"do":"join","group":1}',
        b'{"do":"quit","x":1}',
        b"[" * 9999,
    ):
        assert not reads(jsonlines.parse, text, lines.BadLine)[0], text


CASES = [
    quoting_is_the_manuals,
    events_are_the_manuals,
    recorded_lines_are_read,
    commands_are_read_as_the_program_reads_them,
    what_no_line_can_say_is_refused,
    json_has_all_of_an_event,
]
