"""`zre talk`: a node for a person, in a terminal.

What is typed goes to the group that the prompt shows. Events come above the line that is edited, with the time of
their coming, and names stand for identities; /help has the commands.
"""
import argparse
import os
import select
import signal
import sys
import threading
import time
from collections import deque
from typing import Any, Callable, Deque, Dict, List, Optional, Union
from uuid import UUID

from . import events as ev
from .editor import Editor, keys_alone
from .lines import BadLine
from .node import Node
from .options import SIGNALS, ToolError, add_options, from_options, woken
from .session import NodeDied, NodeError
from .settings import Octets, find_program

HELP = """/join GROUP      joins a group and talks to it; also one that it is in
/leave [GROUP]   leaves a group, by default the one that the prompt shows
/w NAME TEXT     whispers to one peer; tab completes its name
/who             who is there, where, and in which groups
/quit            says good-bye; so do Ctrl-C and Ctrl-D
Everything else goes to the group of the prompt; //text is /text."""


def main(words: List[str]) -> int:
    """Runs the terminal client until its user, a signal or its node ends it."""
    parser = argparse.ArgumentParser("zre-talk", description="A node for a person: talk to groups and to single peers.")
    parser.add_argument("--group", metavar="GROUP", help="a group to join at once")
    add_options(parser)
    options = parser.parse_args(words)
    if not (sys.stdin.isatty() and sys.stdout.isatty()):
        raise ToolError("talk is for a terminal; programs use zre node or zre hub")
    program = find_program()
    wake = woken()  # before anyone is told that the node is there
    made = from_options(options)
    node = Node(program=program, **vars(made))
    node.start()
    talk = Talk(node, wake)
    try:
        with keys_alone(sys.stdin.fileno()):
            talk.run(options.group)
    finally:
        node.stop()
    return 0


def printed(octets: Octets) -> str:
    """Octets for a terminal: what can't be printed is escaped, so that no peer writes over the screen."""
    text = octets if isinstance(octets, str) else ev.as_text(octets)
    return "".join(one if one.isprintable() else one.encode("unicode_escape").decode() for one in text)


# What an event of a peer says, by the name of the peer.
TEXTS: Dict[type, Callable[[str, Any], str]] = {
    ev.Enter: lambda name, event: f"{name} is here, at {printed(event.endpoint)}",
    ev.Join: lambda name, event: f"{name} joined {printed(event.group)}",
    ev.Leave: lambda name, event: f"{name} left {printed(event.group)}",
    ev.Shout: lambda name, event: f"[{printed(event.group)}] {name}: {printed(event.text)}",
    ev.Whisper: lambda name, event: f"{name} whispers: {printed(event.text)}",
    ev.Exit: lambda name, event: f"{name} is gone: {event.cause.text}",
}


class Names:
    """A name for each peer that is there: its own, and the first digits of its identity where two have one name."""

    def __init__(self, node: Node) -> None:
        self._node = node

    def of(self, peer: UUID, name: bytes) -> str:
        """The name of a peer."""
        text = printed(name) or "nameless"
        others = [other for other in self._node.peers() if other != peer and self._plain(other) == text]
        return f"{text}#{ev.digits(peer)[:4]}" if others or text == "nameless" else text

    def _plain(self, peer: UUID) -> str:
        try:
            return printed(self._node.peer_name(peer)) or "nameless"
        except KeyError:
            return ""

    def all(self) -> Dict[str, UUID]:
        """Who is there, by name."""
        found = {}
        for peer in self._node.peers():
            try:
                found[self.of(peer, self._node.peer_name(peer))] = peer
            except KeyError:
                continue
        return found


class Talk:
    """The node, the screen and the keys."""

    def __init__(self, node: Node, wake: int) -> None:
        self._node, self._names, self._wake = node, Names(node), wake
        self._terminal = sys.stdin.fileno()
        self._editor = Editor(self._terminal, self._complete)
        self._group: Optional[bytes] = None
        self._silent: Dict[UUID, None] = {}
        self._coming: Deque[Union[ev.Event, NodeError]] = deque()
        self._has_quit = False

    def run(self, group: Optional[str]) -> None:
        """Shows events and obeys lines until the node has ended."""
        signal.signal(signal.SIGWINCH, lambda *_: None)
        self._bell, self._ring = os.pipe()
        threading.Thread(target=self._listen, daemon=True).start()
        self._say(f"you are {printed(self._node.name())}; /help has the commands")
        if group is not None:
            self._join(group)
        self._prompt()
        while not self._has_quit:
            ready = select.select([self._terminal, self._bell, self._wake], [], [])[0]
            if self._wake in ready and any(number in SIGNALS for number in os.read(self._wake, 64)):
                break
            if self._bell in ready:
                os.read(self._bell, 4096)
                self._show_events()
            if self._terminal in ready:
                self._take_keys()
            self._editor.draw()
        self._editor.clear()

    def _listen(self) -> None:
        """In a thread of its own: takes the events of the node."""
        try:
            for event in self._node:
                self._coming.append(event)
                os.write(self._ring, b".")
        except NodeError as why:
            self._coming.append(why)
            os.write(self._ring, b".")

    def _say(self, text: str) -> None:
        self._editor.show(f"{time.strftime('%H:%M:%S')} {text}")

    def _prompt(self) -> None:
        self._editor.prompt = f"{printed(self._group)}> " if self._group is not None else "> "

    # ---- Events ----

    def _show_events(self) -> None:
        while self._coming:
            event = self._coming.popleft()
            if isinstance(event, NodeError):
                self._editor.clear()
                raise event
            text = self._text(event)
            if text:
                self._say(text)

    def _text(self, event: ev.Event) -> str:
        """An event in words; nothing where it isn't worth a line."""
        if isinstance(event, ev.Refused):
            return f"not done: {self._asked(event)}: {event.text}"
        if isinstance(event, (ev.Closed, ev.Ignored)):
            what = "closed" if isinstance(event, ev.Closed) else "ignored"
            return f"connection {event.connection} is {what}: {event.reason}"
        if not isinstance(event, ev.PeerEvent):
            return ""
        name, was_silent = self._names.of(event.peer, event.name), event.peer in self._silent
        self._silent.pop(event.peer, None)
        if type(event) in TEXTS:
            return TEXTS[type(event)](name, event)
        self._silent[event.peer] = None
        return "" if was_silent else f"{name} is silent"

    def _asked(self, event: ev.Refused) -> str:
        if event.peer is not None:
            return f"to {ev.digits(event.peer)}"
        word = (event.line or b"").split(b" ")[0].decode()
        return f"{word} {printed(event.group)}" if event.group is not None else word

    # ---- Lines ----

    def _take_keys(self) -> None:
        for line in self._editor.read():
            if line is None:
                self._has_quit = True
                return
            try:
                self._obey(line)
            except BadLine as why:
                self._say(f"not done: {printed(str(why))}")
            except NodeDied:
                return  # the thread that listens brings it
            except NodeError as why:
                self._say(f"not done: {why}")
            self._prompt()

    def _obey(self, line: str) -> None:
        commands: Dict[str, Callable[[str], None]] = {
            "/join": self._join,
            "/leave": self._leave,
            "/w": self._whisper,
            "/who": lambda _: self._who(),
            "/help": lambda _: self._help(),
        }
        word, _, rest = line.partition(" ")
        if line.startswith("//") or not line.startswith("/"):
            self._shout(line[1:] if line.startswith("//") else line)
        elif word == "/quit":
            self._has_quit = True
        elif word in commands:
            commands[word](rest.strip() if word != "/w" else rest)
        else:
            self._say(f"not done: {printed(word)} is no command; /help has them")

    def _help(self) -> None:
        for text in HELP.split("\n"):
            self._editor.show("    " + text)

    def _shout(self, text: str) -> None:
        if not text:
            return
        if self._group is None:
            self._say("not done: there is no group to talk to: /join GROUP")
            return
        self._node.shout(self._group, text)
        alone = "" if self._node.peers_by_group(self._group) else " (nobody is there)"
        self._say(f"[{printed(self._group)}] {printed(self._node.name())}: {printed(text)}{alone}")

    def _join(self, group: str) -> None:
        if not group:
            self._say("not done: /join has a group after it")
            return
        if group.encode() not in self._node.own_groups():
            self._node.join(group)
            self._say(f"you joined {printed(group)}")
        self._group = group.encode()
        self._prompt()

    def _leave(self, group: str) -> None:
        left = group.encode() if group else self._group
        if left is None:
            self._say("not done: /leave has a group after it")
            return
        self._node.leave(left)
        if left == self._group:
            own = self._node.own_groups()
            self._group = own[-1] if own else None

    def _whisper(self, rest: str) -> None:
        names = self._names.all()
        fitting = [name for name in names if rest == name or rest.startswith(name + " ")]
        if not fitting:
            here = ", ".join(names) or "nobody"
            self._say(f"not done: /w has the name of a peer after it and then a text; here is {here}")
            return
        name = max(fitting, key=len)
        text = rest[len(name) + 1 :]
        self._node.whisper(names[name], text)
        self._say(f"to {name}: {printed(text)}")

    def _who(self) -> None:
        peers = self._names.all()
        own = ", ".join(printed(group) for group in self._node.own_groups()) or "no group"
        self._editor.show(f"    {printed(self._node.name())} (you)  {self._node.endpoint()}  {own}")
        for name, peer in peers.items():
            try:
                groups = [group for group in self._node.peer_groups() if peer in self._node.peers_by_group(group)]
                headers = [f"{printed(key)}={printed(value)}" for key, value in self._node.peer_headers(peer).items()]
                address = printed(self._node.peer_address(peer))
            except KeyError:
                continue
            what = ", ".join(map(printed, groups)) or "no group"
            silent = "  silent" if peer in self._silent else ""
            self._editor.show(f"    {name}  {address}  {what}{'  ' if headers else ''}{' '.join(headers)}{silent}")

    # ---- Completion ----

    def _complete(self, before: str) -> List[str]:
        """The texts that may stand for the one before the cursor: commands, names after /w, groups, names in a text."""
        if before.startswith("/") and " " not in before:
            return [
                word + " " for word in ("/join", "/leave", "/w", "/who", "/help", "/quit") if word.startswith(before)
            ]
        for word, texts in (("/w ", self._names.all()), ("/join ", self._groups()), ("/leave ", self._own())):
            if before.startswith(word):
                return [
                    word + text + (" " if word == "/w " else "")
                    for text in texts
                    if text.startswith(before[len(word) :])
                ]
        head, space, last = before.rpartition(" ")
        return [head + space + name for name in self._names.all() if last and name.startswith(last)]

    def _own(self) -> List[str]:
        return [printed(group) for group in self._node.own_groups()]

    def _groups(self) -> List[str]:
        return [printed(group) for group in dict.fromkeys([*self._node.own_groups(), *self._node.peer_groups()])]
