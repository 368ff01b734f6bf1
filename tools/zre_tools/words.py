"""Quoted fields, events, times and widths in words."""
import re
import unicodedata
from typing import Dict, Iterable, List, Optional
from urllib.parse import unquote_to_bytes


def plain_text(text: str) -> str:
    """Text with each character that can't be printed as an escape."""
    if text.isprintable():
        return text
    return "".join(c if c.isprintable() else c.encode("unicode_escape", "surrogatepass").decode() for c in text)


def plain(octets: bytes) -> str:
    """Octets as text, with each that can't be printed as an escape."""
    return plain_text(octets.decode("utf-8", "backslashreplace"))


def field(quoted: str, limit: int = 200) -> str:
    """A quoted field as text, cut after so many characters."""
    if quoted == "~":
        return ""
    front = quoted[: 3 * limit + 3]
    if len(front) < len(quoted):
        front = re.sub("%.?$", "", front)
    text = plain(unquote_to_bytes(front))
    return text if len(text) <= limit and len(front) == len(quoted) else text[: limit - 1] + "…"


def frames(quoted: str, limit: int) -> str:
    """The frames of a message, cut after about so many characters."""
    if quoted == "%":
        return "no frames"
    text = " ".join('"' + field(part, limit).replace('"', '\\"') + '"' for part in quoted.split(",", 8)[:8])
    count = quoted.count(",") + 1
    if len(text) <= limit and count <= 8:
        return text
    octets = len(quoted) - quoted.count("~") - quoted.count(",") - 2 * quoted.count("%")
    sizes = [f"{count:,} frames"] if count > 1 else []
    return f"{text[:limit - 1]}… ({', '.join(sizes + [f'{octets:,} octets'])})"


def headers(quoted: str, limit: int) -> str:
    """Headers, cut after about so many characters."""
    pairs = [] if quoted == "%" else quoted.split(",", 8)
    text = ", ".join("=".join(field(part, limit) for part in pair.split("=", 1)) for pair in pairs[:8])
    return text if len(text) <= limit and len(pairs) <= 8 else text[: limit - 1] + "…"


CAUSES = {
    "beacon": "said good-bye",
    "expired": "nothing heard for too long",
    "link": "the link to it broke",
    "reply": "its reply is no stream of a ROUTER, {} at {}",
    "slow": "takes too little, {} octets unsent",
    "shut": "closed its connection",
    "fault": "what it sent is no stream",
    "taken": "a newer connection took over",
    "hello": "said HELLO twice",
    "order": "message {} was due, {} came",
    "limit": "joined too many groups",
    "stop": "this node stopped",
}


def cause(fields: List[str]) -> str:
    """The cause of an EXIT: its word, and what that means."""
    words = CAUSES.get(fields[0], " ".join(["{}"] * (len(fields) - 1)))
    try:
        return f"{fields[0]}: {words.format(*fields[1:])}"
    except IndexError:
        return " ".join(fields)


def details(kind: str, rest: List[str], limit: int) -> str:
    """What an event or a command tells besides its kind and its peer, from its further fields."""
    if kind == "ENTER":
        return f"at {field(rest[0], limit)}" + (f", {headers(rest[1], limit)}" if rest[1] != "%" else "")
    if kind.upper() == "WHISPER":
        return frames(rest[0], limit)
    if kind.upper() == "SHOUT":
        return f"{field(rest[0], 40)}: {frames(rest[1], limit)}"
    if kind == "EXIT":
        return cause(rest)
    if kind in ("CLOSED", "IGNORED"):
        return f"connection {rest[0]}: {' '.join(rest[1:])}"
    return " ".join(field(part, limit) for part in rest)


def clock(time: int) -> str:
    """A time in milliseconds as h:mm:ss.mmm."""
    return f"{time // 3600000}:{time // 60000 % 60:02}:{time // 1000 % 60:02}.{time % 1000:03}"


def time_of(text: str) -> Optional[int]:
    """The milliseconds of seconds, m:ss or h:mm:ss, each with up to three decimals; none for another text."""
    match = re.fullmatch(r"(?:(?:([0-9]{1,9}):)?([0-9]{1,9}):)?([0-9]{1,9})(?:\.([0-9]{1,3}))?", text)
    if not match:
        return None
    hours, minutes, seconds = (int(part or 0) for part in match.groups()[:3])
    return ((hours * 60 + minutes) * 60 + seconds) * 1000 + int((match[4] or "0").ljust(3, "0"))


def labels_of(ids: Iterable[str], least: int = 6) -> Dict[str, str]:
    """For each identity its first digits that no other begins with, `least` at least."""
    ordered, labels = sorted(ids), {}
    for at, peer in enumerate(ordered):
        beside = ordered[max(0, at - 1) : at] + ordered[at + 1 : at + 2]
        alike = max((common(peer, other) for other in beside), default=0)
        labels[peer] = peer[: max(least, alike + 1)]
    return labels


def common(one: str, two: str) -> int:
    """How many first digits two identities share."""
    return next((at for at in range(min(len(one), len(two))) if one[at] != two[at]), min(len(one), len(two)))


def ems(text: str) -> float:
    """About how wide text is, in multiples of its size."""
    wide = sum(unicodedata.east_asian_width(c) in "WF" or c in "mwMW@%—" for c in text)
    return 0.6 * (len(text) - wide) + wide


def cut(text: str, room: float) -> str:
    """Text that is at most so many ems wide."""
    if ems(text) <= room:
        return text
    while text and ems(text) + 0.6 > room:
        text = text[:-1]
    return text + "…" if text else ""
