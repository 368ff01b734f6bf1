"""The words of a command line: those of the commands that need no network."""
from __future__ import annotations

import re
from typing import Dict, List, Tuple, Union

import captures
from captures import NotAsRequired, number
from exercise import Asked
from node import Settings

GROUP_OCTETS = 255
HYPHENATED = "-".join(f"[0-9a-fA-F]{{{count}}}" for count in (8, 4, 4, 4, 12))
UUID = re.compile(rf"[0-9a-fA-F]{{32}}|{HYPHENATED}|{{{HYPHENATED}}}|(?i:urn:uuid:){HYPHENATED}".encode())
# The keys of each command: those that stand once, those that may be left out, and those that may stand often.
OF_NODE = ([b"id", b"host", b"port"], [b"name", b"evasive", b"expired"], [b"header"])
Keys = Tuple[List[bytes], List[bytes], List[bytes]]
KEYS: Dict[bytes, Keys] = {
    b"follow": ([b"id"], [], []), b"show": ([], [], []), b"replay": OF_NODE, b"upgrade": OF_NODE,
    b"table": ([b"group"], [], []), b"audit": ([], [], []), b"simulate": ([], [], []),
    b"exercise": ([b"seed", b"peers", b"messages"], [], []),
}
MOST_PEERS, MOST_MESSAGES = 256, 1_000_000
# What the words of a command say: settings, an identity or a group, or three numbers.
Argument = Union[None, Settings, bytes, Asked]


def values_of(keys: Keys, words: List[bytes]) -> Dict[bytes, List[bytes]]:
    """The values of each key; raises where a word is another, missing or repeated."""
    once, maybe, often = keys
    values: Dict[bytes, List[bytes]] = {key: [] for key in [*once, *maybe, *often]}
    for word in words:
        key, equals, value = word.partition(b"=")
        if key not in values or not equals:
            raise NotAsRequired
        values[key].append(value)
    if any(len(values[key]) != 1 for key in once) or any(len(values[key]) > 1 for key in maybe):
        raise NotAsRequired
    return values


def uuid(value: bytes) -> bytes:
    if not UUID.fullmatch(value):
        raise NotAsRequired
    return bytes.fromhex(re.sub(r"(?i:urn:uuid:)|[-{}]", "", value.decode()))


def at_most(octets: bytes, limit: int) -> bytes:
    if len(octets) > limit:
        raise NotAsRequired
    return octets


def headers(values: List[bytes]) -> Tuple[Tuple[bytes, bytes], ...]:
    pairs = []
    for name, equals, value in (value.partition(b"=") for value in values):
        if not equals:
            raise NotAsRequired
        pairs.append((at_most(name, captures.NAME_OCTETS), at_most(value, captures.VALUE_OCTETS)))
    if len(pairs) > captures.HEADERS or len(dict(pairs)) < len(pairs):
        raise NotAsRequired
    return tuple(pairs)


def settings(values: Dict[bytes, List[bytes]]) -> Settings:
    """The settings of a node."""
    own = uuid(values[b"id"][0])
    name = at_most((values[b"name"] or [own.hex()[:6].upper().encode()])[0], captures.NAME_OCTETS)
    host, port = captures.address(values[b"host"][0]), number(values[b"port"][0], 1, 65535)
    expired = number((values[b"expired"] or [b"30000"])[0], 1, captures.LONGEST_TIME)
    evasive = number((values[b"evasive"] or [b"5000"])[0], 1, expired)
    return Settings(own, name, host, port, evasive, expired, headers(values[b"header"]))


def exercise(seed: bytes, peers: bytes, messages: bytes) -> Asked:
    return Asked(number(seed), number(peers, 1, MOST_PEERS), number(messages, 0, MOST_MESSAGES))


def argument(words: List[bytes]) -> Tuple[bool, Argument]:
    """Whether the words are those of a command, and what they say."""
    try:
        for word in words:
            word.decode()
        name, *others = words or [b""]
        if name not in KEYS:
            return False, None
        if name == b"replay" and not others:
            return True, None
        values = values_of(KEYS[name], others)
        if name in (b"replay", b"upgrade"):
            return True, settings(values)
        if name == b"follow":
            return True, uuid(values[b"id"][0])
        if name == b"exercise":
            return True, exercise(*(values[key][0] for key in KEYS[name][0]))
        if name == b"table":
            return True, at_most(captures.quoted(values[b"group"][0]), GROUP_OCTETS)
        return True, None
    except (NotAsRequired, UnicodeDecodeError):
        return False, None
