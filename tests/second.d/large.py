"""Cases at limits that are too large for files: they are put together here."""
from __future__ import annotations

from typing import Iterator, List, Tuple

import journals
from journals import OWN, long_string, number, string

PEER = bytes(range(16))
SHOWN = PEER.hex().upper()
HEAD = f"zre-capture 2 {OWN.hex().upper()} Me 10.0.0.1 49153 5000 30000 %"
LINE = {1: 4_194_304, 2: 4_194_324}
MESSAGE, UNSENT = 1_048_576, 4_194_304
SCHEDULE, SCHEDULE_LINES = 16_777_216, 262_144
HELLO = b"\xaa\xa1\x01\x02\x00\x01" + string(b"tcp://10.0.0.2:49152") + bytes(4) + b"\x00" + string(b"Ann") + bytes(4)
GREETING = journals.SIGNATURE + b"\x03\x01NULL" + bytes(48)
Row = Tuple[str, List[str], bytes, str]


def ready(kind: bytes) -> bytes:
    body = string(b"READY") + journals.metadata([(b"Socket-Type", kind), (b"Identity", b"\x01" + PEER)])
    return b"\x04" + string(body)


def long_frame(body: bytes, flags: int = 2) -> bytes:
    return bytes([flags]) + number(len(body), 8) + body


def joined(entries: List[str]) -> bytes:
    return ("\n".join([HEAD, *entries]) + "\n").encode()


def entered() -> List[str]:
    """A peer that is entered, on link 1, where 165 octets wait: greeting, READY and HELLO."""
    octets = GREETING + ready(b"DEALER") + b"\x00" + string(HELLO)
    return ["0 opened 1", f"0 piece 1 {octets.hex()}"]


def wraps() -> Iterator[Row]:
    """Numbers of sixteen bits: behind 65535 comes 0, and behind that 1."""
    octets = b"\x00" + string(HELLO)
    octets += b"".join(b"\x00\x06\xaa\xa1\x07\x02" + number(which % 65536, 2) for which in range(2, 65536 + 3))
    follow = ["follow", f"id={SHOWN}"]
    join = string(b"\xaa\xa1\x04\x02\x00\x03" + string(b"g") + b"\x00")
    yield "65,538 messages, and one more", follow, octets + b"\x00" + join, f"JOIN {SHOWN} Ann g"
    again = octets + b"\x00\x06\xaa\xa1\x07\x02\x00\x02"
    yield "65,538 messages, and the last again", follow, again, f"EXIT {SHOWN} Ann order 3 2"


def messages() -> Iterator[Row]:
    """A message of as many octets as it may have, in one frame and in two, and of one more."""
    first = b"\xaa\xa1\x02\x02\x00\x02"
    begin = GREETING + ready(b"DEALER") + b"\x01" + string(first)
    whole = begin + long_frame(bytes(MESSAGE - 6))
    yield "a message of 1,048,576 octets", ["show"], whole, f"message 2 {MESSAGE} WHISPER 2 {'%00' * (MESSAGE - 6)}"
    more = begin + long_frame(bytes(MESSAGE - 7), 3) + b"\x00\x02"
    yield "a message of 1,048,577 octets", ["show"], more, f"BADINPUT {len(more) - 2}"
    hello = HELLO[:-4] + number(1, 4) + string(b"h") + long_string(bytes(MESSAGE - len(HELLO) - 6))
    yield "HELLO of 1,048,576 octets", ["show"], GREETING + ready(b"ROUTER") + long_frame(hello), "command READY 58"


def lines() -> Iterator[Row]:
    """Lines of captures that are as long as they may be, and longer, with fields that are good, wrong, or too many."""
    words = ["replay", f"id={OWN.hex()}", "host=10.0.0.1", "port=49153"]
    for form, head in ((1, "zre-capture 1"), (2, HEAD)):
        command = words if form == 1 else words[:1]
        past, group = f"BADINPUT 2 {LINE[form] + 1}", "g" * (LINE[form] - len("0 do join "))
        for name, text, line in [
                ("as long as may be", f"0 do join {group}", "REFUSED TOOBIG"),
                ("one too long", f"0 do join {group}g", past),
                ("too long, of one field", "0" * (LINE[form] + 1), past),
                ("too long behind whole fields", f"0 do join {group} x", past),
                ("too long behind a wrong field", f"0 do join {group[1:]}= x", "BADINPUT 2 11"),
                ("too long in a wrong field", f"0 do join ={group}", past),
                ("too long behind a field too many", f"0 tick x {group}", "BADINPUT 2 8"),
                ("too long in a field too many", f"0 tick {group}xxxx", past)]:
            yield f"format {form}, a line {name}", command, f"{head}\n{text}\n".encode(), line


def unsent() -> Iterator[Row]:
    """Octets that wait on a link, as many as may and one more, by a message and by PONG."""
    wait = 64 + 60 + 41
    whisper = f"0 do whisper {SHOWN} "
    most = [whisper + "w" * (MESSAGE - 6)] * 3
    left = UNSENT - wait - 3 * (MESSAGE - 6 + 8 + 9)
    replies = (GREETING + ready(b"ROUTER")).hex()
    full = [*entered(), *most, whisper + "w" * (left - 8 - 9)]
    yield "4,194,304 octets wait", ["replay"], joined([*full, "0 do quit"]), f"EXIT {SHOWN} Ann stop"
    slow = f"EXIT {SHOWN} Ann slow {UNSENT}"
    yield "4,194,304 octets wait, and a message", ["replay"], joined([*full, "0 do join g"]), f"{slow} 11"
    yield "4,194,304 octets wait, and PING at a tick", ["replay"], joined([*full, "5000 tick"]), f"{slow} 8"
    joins = ["0 piece 1 00" + string(b"\xaa\xa1\x04\x02\x00\x02" + string(b"g") + b"\x01").hex(), "0 do shout g ~"]
    yield "4,194,304 octets wait, and a shout", ["replay"], joined([*full, *joins]), f"{slow} 12"
    ping = "040704" + b"PING".hex() + "0000"
    yield ("4,194,304 octets wait, and PING and a fault in the replies", ["replay"],
           joined([*full, "0 linked 1", f"0 reply 1 {replies}{ping}ff"]), f"{slow} 7")
    taken, again = "0 took 1 18446744073709551615", f"EXIT {SHOWN} Ann slow {UNSENT} 10"
    for gate, name, given in ((64, "the greeting", "-"), (124, "READY", GREETING.hex())):
        entries = [*full, "0 linked 1", f"0 reply 1 {given}", taken, whisper + "w" * (gate - 10), whisper + "~"]
        yield f"room for as many octets as {name} has", ["replay"], joined(entries), again
    entries = [*full, "0 linked 1", f"0 reply 1 {replies}", taken, *most]
    entries += [whisper + "w" * (left + wait - 17), whisper + "~"]
    yield "room for all again", ["replay"], joined(entries), again


def schedules() -> Iterator[Row]:
    """Schedules of as many octets, lines and octets of a line as they may have, and of one more."""
    first = f"zre-schedule 1\nstart 1 0 {SHOWN} a 10.0.0.1 49153\n"
    move, line = "do 1 0 join ", LINE[1]
    long_one = f"{move}{'g' * (line - len(move))}\n"
    yield "a schedule with a line as long as may be", ["simulate"], (first + long_one).encode(), "1 REFUSED TOOBIG"
    yield "a schedule with a line one too long", ["simulate"], f"{first}{long_one[:-1]}g\n".encode(), "BADINPUT 3"
    left = SCHEDULE - len(first) - 3 * len(long_one)
    whole = f"{first}{long_one * 3}{move}{'g' * (left - len(move) - 1)}\n"
    yield "a schedule of 16,777,216 octets", ["simulate"], whole.encode(), "1 REFUSED TOOBIG"
    yield "a schedule of 16,777,217 octets", ["simulate"], f"{whole[:-1]}g\n".encode(), "BADINPUT 6"
    yield "a schedule of 16,777,217 octets by a line feed", ["simulate"], f"{whole}\n".encode(), "BADINPUT 7"
    short = "tick 1 0\n" * (SCHEDULE_LINES - 2)
    yield "a schedule of 262,144 lines", ["simulate"], f"{first}{short[:-9]}crash 1\n".encode(), ""
    yield "a schedule of 262,145 lines", ["simulate"], f"{first}{short}crash 1\n".encode(), "BADINPUT 262145"


def rows() -> Iterator[Row]:
    """A name, the words of the command, the input, and a line that the text must have."""
    yield from wraps()
    yield from messages()
    yield from lines()
    yield from unsent()
    yield from schedules()
