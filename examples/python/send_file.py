#!/usr/bin/env python3
"""A file by whispers: in chunks, as fast as the receiver takes them, with its SHA-256 compared in the end.

    send_file.py receive FOLDER               takes files into this folder until Ctrl-C
    send_file.py send FILE NAME               sends a file to the peer of this name
    send_file.py [OCTETS]                     sends 20 MB, or so many, on the loopback interface

`--interface NAME` chooses the network. Whispers of the sender are `file SIZE SHA256 NAME` and then `data PLACE BASE64`;
those of the receiver `got PLACE`, the end of what it has, and `done` or `failed WHY`. A whisper has no line feed, so
the octets are base64. A node ends a peer for which more than 4 MiB wait (cause slow): here at most 1.6 MB are on
the way that the receiver hasn't got.
"""
import argparse
import base64
import contextlib
import hashlib
import os
import sys
import tempfile
import threading
import time
from pathlib import Path
from typing import IO, Dict
from urllib.parse import quote, unquote
from uuid import UUID

import zre

CHUNK = 48_000  # Octets of a whisper: 64,000 as base64, and a line has at most 65,536.
AHEAD = 24 * CHUNK  # Octets sent and not yet got: 1.5 MiB as base64.
SILENCE = 30.0  # Seconds without an answer after which the sender gives up.


class Failed(Exception):
    """The file didn't come over."""


def digest(file: IO[bytes]) -> str:
    """The SHA-256 of a file, from its beginning."""
    file.seek(0)
    sha = hashlib.sha256()
    for piece in iter(lambda: file.read(1 << 20), b""):
        sha.update(piece)
    file.seek(0)
    return sha.hexdigest()


def peer_of(node: zre.Node, name: str, seconds: float) -> UUID:
    """The peer of this name, once it is there. Raises Failed."""
    end = time.monotonic() + seconds
    while time.monotonic() < end:
        for peer in node.peers():
            with contextlib.suppress(KeyError):
                if node.peer_name(peer) == name.encode():
                    return peer
        node.recv(0.2)
    raise Failed(f"nobody here is called {name}")


def send(node: zre.Node, peer: UUID, path: Path) -> None:
    """Sends a file to a peer, and returns once that says that it has it. Raises Failed."""
    with path.open("rb") as file:
        size = os.fstat(file.fileno()).st_size
        node.whispers(peer, f"file {size} {digest(file)} {quote(path.name)}")
        sent = got = 0
        while True:
            while sent < size and sent - got < AHEAD:
                chunk = file.read(CHUNK)
                node.whisper(peer, b"data %d %s" % (sent, base64.b64encode(chunk)))
                sent += len(chunk)
            word, rest = answer(node, peer)
            if word == "got":
                got = int(rest)
            elif word == "done":
                return
            elif word == "failed":
                raise Failed(f"the receiver says: {rest}")


def answer(node: zre.Node, peer: UUID) -> "tuple[str, str]":
    """The next whisper of a peer, its word and the rest. Raises Failed where the peer ends, or says nothing."""
    end = time.monotonic() + SILENCE
    while time.monotonic() < end:
        event = node.recv(max(0.0, end - time.monotonic()))
        if isinstance(event, zre.Whisper) and event.peer == peer:
            word, _, rest = event.text.partition(" ")
            return word, rest
        if isinstance(event, zre.Exit) and event.peer == peer:
            raise Failed(f"the peer is gone: {event.cause.text}")
        if isinstance(event, zre.Refused):
            raise Failed(f"a whisper is refused: {event.text}")
    raise Failed(f"no answer for {SILENCE:.0f} seconds")


class Incoming:
    """A file that comes from one peer."""

    def __init__(self, folder: Path, text: str) -> None:
        size, self.sha, name = text.split(" ")
        self.size, self.have = int(size), 0
        self.path = folder / (Path(unquote(name)).name or "file")
        self.part: IO[bytes] = tempfile.NamedTemporaryFile(dir=folder, prefix=".", delete=False)

    def take(self, text: str) -> None:
        """Takes a chunk; it must be the next."""
        place, chunk = text.split(" ")
        octets = base64.b64decode(chunk, validate=True)
        if int(place) != self.have or self.have + len(octets) > self.size:
            raise ValueError(f"octet {self.have} was due, and {place} came")
        self.part.write(octets)
        self.have += len(octets)

    def finish(self) -> None:
        """Puts the file into its place, if it is the one that was sent."""
        self.part.flush()
        with open(self.part.name, "rb") as file:
            if digest(file) != self.sha:
                raise ValueError("its SHA-256 isn't that of the sender")
        self.part.close()
        os.replace(self.part.name, self.path)

    def drop(self) -> None:
        self.part.close()
        with contextlib.suppress(FileNotFoundError):
            os.unlink(self.part.name)


def receive(node: zre.Node, folder: Path) -> None:
    """Takes files of all peers into a folder, until the node stops."""
    coming: Dict[UUID, Incoming] = {}
    for event in node:
        if isinstance(event, zre.Exit) and event.peer in coming:
            coming.pop(event.peer).drop()
        if not isinstance(event, zre.Whisper):
            continue
        word, _, rest = event.text.partition(" ")
        try:
            if word == "file":
                if event.peer in coming:
                    coming.pop(event.peer).drop()
                coming[event.peer] = Incoming(folder, rest)
            elif word == "data" and event.peer in coming:
                coming[event.peer].take(rest)
            else:
                continue
            file = coming[event.peer]
            node.whispers(event.peer, f"got {file.have}")
            if file.have == file.size:
                file.finish()
                del coming[event.peer]
                print(f"{file.path}: {file.size} octets from {event.name_text}", flush=True)
                node.whispers(event.peer, f"done {file.sha}")
        except (ValueError, OSError) as why:
            if event.peer in coming:
                coming.pop(event.peer).drop()
            node.whispers(event.peer, "failed " + str(why).replace("\n", " "))


def shown(size: int) -> int:
    """Sends random octets from one node of this machine to another."""
    hosts = ["127.0.0.34", "127.0.0.35"]
    sender, receiver = (
        zre.Node(name, host=host, listen=host, to=hosts, interval=200)
        for name, host in zip(("sender", "receiver"), hosts)
    )
    with tempfile.TemporaryDirectory() as work, sender, receiver:
        here, there = Path(work, "here"), Path(work, "there")
        there.mkdir()
        with here.open("wb") as file:
            for _ in range(0, size, 1 << 20):
                file.write(os.urandom(min(1 << 20, size - file.tell())))
        taking = threading.Thread(target=receive, args=(receiver, there))
        taking.start()
        try:
            begun = time.monotonic()
            send(sender, peer_of(sender, "receiver", 10), here)
            seconds = time.monotonic() - begun
            with here.open("rb") as one, (there / "here").open("rb") as other:
                sha = digest(one)
                is_same = sha == digest(other)
        finally:
            receiver.stop()
            taking.join()
        print(f"{size} octets in {seconds:.1f} s, SHA-256 {sha} {'on both sides' if is_same else 'DIFFERS'}")
        return 0 if is_same else 1


def main() -> int:
    assert __doc__ is not None
    head, usage = __doc__.split("\n\n")[:2]
    parser = argparse.ArgumentParser(description=head, usage=usage.strip())
    parser.add_argument("words", nargs="*")
    parser.add_argument("--interface")
    options = parser.parse_args()
    words, interface = options.words, options.interface
    try:
        if words[:1] == ["receive"] and len(words) == 2:
            with contextlib.suppress(KeyboardInterrupt), zre.Node("receiver", interface=interface) as node:
                receive(node, Path(words[1]))
        elif words[:1] == ["send"] and len(words) == 3:
            with zre.Node("sender", interface=interface) as node:
                send(node, peer_of(node, words[2], 5), Path(words[1]))
        elif not words or len(words) == 1 and words[0].isdigit():
            return shown(int(words[0]) if words else 20_000_000)
        else:
            parser.error("other words are wanted")
    except (Failed, OSError) as why:
        print(f"send_file: {why}", file=sys.stderr)
        return 1
    return 0


if __name__ == "__main__":
    sys.exit(main())
