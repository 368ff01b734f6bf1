#!/usr/bin/env python3
"""A program that uses a node: `zre chat` is its child. It keeps a roster of who is there, and answers shouts.

    coprocess.py GROUP PROGRAM chat WORD...

It joins GROUP, answers each shout there by a whisper, and shouts each line of its own input there. At the end of its
input, or at an interrupt, it tells the node to quit. It ends when the node does, with the node's exit status.
"""
from __future__ import annotations

import os
import select
import subprocess
import sys
from typing import Dict, List, Set
from urllib.parse import unquote_to_bytes

LINE = 65536  # The most octets of a typed line, without its line feed; also of what is read or written in one go.


def quoted(octets: bytes) -> bytes:
    """Octets as a field of a line: from ! to } they stand for themselves, but for % , =, and no octets are ~."""
    return b"".join(b"%c" % o if 33 <= o <= 125 and o not in b"%,=" else b"%%%02X" % o for o in octets) or b"~"


def content(field: str) -> bytes:
    """The frames of a field, with spaces between. A frame of no octets is ~, and a field of no frames %."""
    return b" ".join(b"" if frame == "~" else unquote_to_bytes(frame) for frame in field.split(",") if frame != "%")


class Peer:
    """Who is there: a quoted name, the quoted groups, and ? while nothing is heard of it."""

    def __init__(self, name: str) -> None:
        self.name, self.mark = name, ""
        self.groups: Set[str] = set()


def take(roster: Dict[str, Peer], word: str, fields: List[str]) -> bool:
    """Takes an event into the roster, where names and groups stay quoted. Says whether it is another now."""
    if word == "ENTER":
        roster[fields[0]] = Peer(fields[1])
    elif word == "EXIT":
        del roster[fields[0]]
    elif word in ("JOIN", "LEAVE", "WHISPER", "SHOUT", "EVASIVE"):
        peer = roster[fields[0]]
        before = len(peer.groups), peer.mark
        peer.mark = "?" if word == "EVASIVE" else ""
        if word == "JOIN":
            peer.groups.add(fields[2])
        elif word == "LEAVE":
            peer.groups.discard(fields[2])
        return before != (len(peer.groups), peer.mark)
    return word in ("ENTER", "EXIT")


def show(roster: Dict[str, Peer]) -> None:
    peers = (f"{peer.name}{peer.mark}[{','.join(sorted(peer.groups))}]" for peer in roster.values())
    print(len(roster), "there:", *peers, flush=True)


def put(unsent: bytearray, head: bytes, text: bytes = b"") -> None:
    """Types a line: a head, quoted, and text as it is, but for its line feeds and what is past the limit."""
    unsent += (head + text.replace(b"\n", b" "))[:LINE] + b"\n"


def hear(line: bytes, group: bytes, roster: Dict[str, Peer], unsent: bytearray) -> None:
    """A line of the node."""
    word, *fields = line.decode().split(" ")
    if take(roster, word, fields):
        show(roster)
    if word == "SHOUT" and fields[2] == group.decode():
        put(unsent, b"whisper %s " % fields[0].encode(), b"heard: " + content(fields[3]))
    elif word == "REFUSED":
        print(line.decode(), file=sys.stderr)


def main(called: str, words: List[str]) -> int:
    """One loop, which waits in `select` alone. What the node has no room for stays in `unsent` while its lines are
    read: so the two never wait for each other. Own input is read while little is unsent."""
    group, unsent = quoted(os.fsencode(called)), bytearray()
    roster: Dict[str, Peer] = {}
    # In a session of its own: an interrupt from the keyboard isn't for the node, which is told to quit.
    node = subprocess.Popen(words, stdin=subprocess.PIPE, stdout=subprocess.PIPE, bufsize=0, start_new_session=True)
    assert node.stdin is not None and node.stdout is not None
    to_node, from_node, ours = node.stdin.fileno(), node.stdout.fileno(), sys.stdin.fileno()
    os.set_blocking(to_node, False)
    unfinished = {from_node: b"", ours: b""}
    put(unsent, b"join " + group)
    while from_node in unfinished:
        sources = [source for source in unfinished if source == from_node or len(unsent) < LINE]
        try:
            readable, writable, _ = select.select(sources, [to_node] if unsent else [], [])
        except KeyboardInterrupt:
            unfinished.pop(ours, None)
            put(unsent, b"quit")
            continue
        for source in readable:
            piece = os.read(source, LINE)
            *lines, rest = (unfinished.pop(source) + piece).split(b"\n")
            for line in lines:
                hear(line, group, roster, unsent) if source == from_node else put(unsent, b"shout %s " % group, line)
            if piece:
                unfinished[source] = rest
            elif source == ours:
                if rest:
                    put(unsent, b"shout %s " % group, rest)
                put(unsent, b"quit")
        try:
            del unsent[:os.write(to_node, unsent[:LINE]) if writable else 0]
        except BrokenPipeError:  # It reads no more: it ends, and its status says why.
            unsent.clear()
    node.stdin.close()
    status = node.wait()
    return status if status >= 0 else 128 - status


if __name__ == "__main__":
    sys.exit(main(sys.argv[1], sys.argv[2:]) if len(sys.argv) > 2 else __doc__)
