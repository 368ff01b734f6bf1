"""Octets as fields of a text line, and back.

No octets are written `~`. Else an octet from `!` to `}` stands for itself, except `%`, `=` and `,`; every other octet
is `%` and two upper-case digits. A list is its quoted members with commas between, a dictionary has members
`name=value`, and an empty list or dictionary is `%`. Each value has one text alone: the readers refuse every other.
"""
import re
from typing import Iterable, List, Mapping, Tuple, Union

Pairs = Union[Mapping[bytes, bytes], Iterable[Tuple[bytes, bytes]]]

_PLAIN = bytes(octet for octet in range(0x21, 0x7E) if octet not in b"%=,")
_TO_QUOTE = re.compile(rb"[^!-$&-+\--<>-}]")
_ESCAPE = re.compile(rb"%(?:[01][0-9A-F]|2[05C]|3D|7[EF]|[89A-F][0-9A-F])")
_WRITTEN = {bytes([octet]): b"%%%02X" % octet for octet in range(256)}
_READ = {written: octet for octet, written in _WRITTEN.items()}


class BadField(ValueError):
    """A text that is no quoted field, list or dictionary. The message says why."""


def quote(octets: bytes) -> bytes:
    """The field of these octets, of any length."""
    return _TO_QUOTE.sub(lambda found: _WRITTEN[found.group()], octets) or b"~"


def unquote(field: bytes) -> bytes:
    """The octets of a field. Raises BadField for a text that `quote` doesn't write."""
    if field == b"~":
        return b""
    if not field:
        raise BadField("a field is empty: no octets are written ~")
    rest = _ESCAPE.sub(b"", field).translate(None, _PLAIN)
    if rest:
        raise BadField(f"{_shown(rest[:1])} can't stand here: it is written {_spelling(rest[:1])}")
    return _ESCAPE.sub(lambda found: _READ[found.group()], field)


def quote_list(members: Iterable[bytes]) -> bytes:
    """The field of a list of octets."""
    return b",".join(map(quote, members)) or b"%"


def unquote_list(field: bytes) -> Tuple[bytes, ...]:
    """The members of a list. Raises BadField for a text that `quote_list` doesn't write."""
    return () if field == b"%" else tuple(map(unquote, field.split(b",")))


def quote_pairs(pairs: Pairs) -> bytes:
    """The field of a dictionary, given as one or as pairs of name and value, in their order."""
    items = pairs.items() if isinstance(pairs, Mapping) else pairs
    return b",".join(quote(name) + b"=" + quote(value) for name, value in items) or b"%"


def unquote_pairs(field: bytes) -> List[Tuple[bytes, bytes]]:
    """The pairs of a dictionary, repeated names too. Raises BadField for a text that `quote_pairs` doesn't write."""
    if field == b"%":
        return []
    pairs = []
    for member in field.split(b","):
        name, equals, value = member.partition(b"=")
        if not equals:
            raise BadField("a member of a dictionary has no =")
        pairs.append((unquote(name), unquote(value)))
    return pairs


def _shown(octet: bytes) -> str:
    return octet.decode("ascii") if 0x21 <= octet[0] <= 0x7E else f"octet {octet[0]:02X}"


def _spelling(octet: bytes) -> str:
    return (
        "%25, and % only before two upper-case digits of an octet to quote"
        if octet == b"%"
        else _WRITTEN[octet].decode()
    )
