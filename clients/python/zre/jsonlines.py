"""Events and commands as JSON: an object on each line.

Octets are a string where they are UTF-8, else `{"base64": ".."}`; an identity is its 32 digits. An event is
`{"event": "JOIN", "peer": "..", "name": "Ann", "group": "chat"}`, headers are a list of `{"name": .., "value": ..}`,
and content is the list of its frames. A command is `{"do": "shout", "group": "chat", "text": "hello"}`.
"""
import base64
import binascii
import json
from typing import Dict, Iterable, Mapping, Tuple, Union
from uuid import UUID

from . import events as ev
from .lines import BadLine, Command, read_id

Value = Union[None, bool, int, str, "list[Value]", "Dict[str, Value]"]
_WORDS = {
    "join": ("group",),
    "leave": ("group",),
    "shout": ("group", "text"),
    "whisper": ("peer", "text"),
    "quit": (),
    "who": (),
    "groups": (),
    "peer": ("peer",),
}


def dump(value: Value) -> bytes:
    """A value as a line, without its line feed."""
    return json.dumps(value, ensure_ascii=False, separators=(",", ":")).encode()


def from_octets(octets: bytes) -> Value:
    """Octets as a value."""
    try:
        return octets.decode()
    except UnicodeDecodeError:
        return {"base64": base64.b64encode(octets).decode()}


def to_octets(value: object, what: str) -> bytes:
    """The octets of a value. Raises BadLine where it is neither a string nor base64."""
    if isinstance(value, str):
        try:
            return value.encode()
        except UnicodeEncodeError:
            raise BadLine(f"{what} has half a surrogate pair") from None
    if isinstance(value, dict) and list(value) == ["base64"] and isinstance(value["base64"], str):
        try:
            return base64.b64decode(value["base64"], validate=True)
        except (binascii.Error, ValueError):
            raise BadLine(f"{what} is no base64") from None
    raise BadLine(f'{what} is a string or {{"base64": ".."}}')


def from_headers(headers: Union[Mapping[bytes, bytes], Iterable[Tuple[bytes, bytes]]]) -> Value:
    pairs = headers.items() if isinstance(headers, Mapping) else headers
    return [{"name": from_octets(name), "value": from_octets(value)} for name, value in pairs]


def from_event(event: ev.Event) -> Value:
    """An event as an object."""
    made: Dict[str, Value] = {"event": event.word}
    for key, value in event.__dict__.items():
        if key == "line" or value is None:
            continue
        if key == "headers":
            made[key] = from_headers(value)
        elif key == "content":
            made[key] = [from_octets(frame) for frame in value]
        elif isinstance(value, ev.Cause):
            made.update(_from_cause(value))
        else:
            made[key] = (
                ev.digits(value)
                if isinstance(value, UUID)
                else from_octets(value)
                if isinstance(value, bytes)
                else value
            )
    return made


def _from_cause(cause: ev.Cause) -> Dict[str, Value]:
    names = {"reply": ("place",), "slow": ("unsent", "size"), "order": ("due", "got")}.get(cause.word, ())
    made: Dict[str, Value] = {"cause": cause.word, "text": cause.text}
    made.update(zip(names, cause.numbers))
    if cause.fault:
        made["fault"] = cause.fault
    return made


def parse(line: bytes) -> Command:
    """The command of a line; `who`, `groups` and `peer` too. Raises BadLine, which says what is wrong."""
    try:
        value = json.loads(line)
    except (ValueError, RecursionError) as why:
        raise BadLine(f"no JSON: {why}") from None
    if not isinstance(value, dict) or not isinstance(value.get("do"), str) or value["do"] not in _WORDS:
        raise BadLine(f'an object with "do" is wanted, which is one of {", ".join(_WORDS)}')
    keys = _WORDS[value["do"]]
    if set(value) != {"do", *keys}:
        raise BadLine(f"with {value['do']} stands {' and '.join(keys) or 'nothing'}, and nothing else")
    peer = None
    if "peer" in keys:
        if not isinstance(value["peer"], str):
            raise BadLine("peer is a string of 32 digits")
        peer = read_id(value["peer"].encode("utf-8", "replace"))
    octets = {key: to_octets(value[key], key) for key in keys if key != "peer"}
    return Command(value["do"], octets.get("group"), peer, octets.get("text"))
