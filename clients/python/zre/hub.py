"""`zre hub`: one node for programs that come and go.

A client connects to a Unix socket or to a loopback port, and sends lines as those of a chat. First it hears `NODE` and
who is there, as ENTER and JOIN; then every event of the node but REFUSED. Each line of its own is answered, in their
order, by `OK` or `ERR` and the reason: OK says that the node has done it. `who`, `groups` and `peer ID` are answered
by lines of PEER or GROUP and then OK. `quit`, or the end of what a client sends, ends that client once its lines are
answered. A client for which more octets wait than the bound is dropped.
"""
import argparse
import os
import selectors
import subprocess
import tempfile
import time
from collections import deque
from typing import Callable, Deque, Dict, List, Set, Tuple, Union, cast
from uuid import UUID

from . import events as ev
from . import jsonlines
from .client import Client, Gone
from .listener import Listener, listen
from .lines import LINE, BadLine, Command, format_event, format_refusal, parse_command, read_id
from .node import last_line
from .options import SIGNALS, ToolError, add_options, from_options, report, woken
from .quoting import quote, quote_list, quote_pairs
from .session import Sent, Known, NodeDied, Session
from .settings import find_program

BOUND = 4 << 20  # Octets that may wait for a client.
AHEAD = 64  # Lines of a client that the node hasn't answered: the next are read after that.
_TO_NODE = 1 << 20  # Octets that wait for the node; while there are more, no lines are taken.
_PIECE = 1 << 18
_PROBE = 5.0  # Seconds after which an idle program gets a sync line, to find out whether it still runs.
_GRACE = 2.0  # Seconds for which clients can take the last lines after the node's stop.
_QUERIES = ("who", "groups", "peer")


def main(words: List[str]) -> int:
    """Runs the hub until a signal, or until its node ends."""
    parser = argparse.ArgumentParser(
        "zre-hub",
        description="A node for programs that come and go: they connect to a"
        " socket, send lines of zre chat, and hear the node's events.",
    )
    parser.add_argument("socket", help="the path of a Unix socket, or ADDRESS:PORT of the loopback interface")
    parser.add_argument("--json", action="store_true", help="JSON lines in place of lines of zre chat")
    parser.add_argument(
        "--bound",
        type=int,
        default=BOUND,
        metavar="OCTETS",
        help=f"a client for which more octets wait is dropped (by default {BOUND})",
    )
    add_options(parser)
    options = parser.parse_args(words)
    if options.bound < 1:
        raise ToolError(f"--bound {options.bound}: a number from 1 is wanted")
    program = find_program()
    wake = woken()  # before anyone is told that the node is there
    with listen(options.socket) as listener:
        hub = Hub(Session(from_options(options)), listener, options.bound, options.json)
        hub.start(program, wake)
        report(f"hub at {options.socket}, at most {options.bound:,} octets wait for a client")
        return hub.run()


class Hub:
    """The node, its clients, and one loop over all of their pipes and sockets."""

    def __init__(self, session: Session, listener: Listener, bound: int, is_json: bool) -> None:
        self._session, self._listener, self._bound, self._is_json = session, listener, bound, is_json
        self._clients: Set[Client] = set()
        self._having: Deque[Client] = deque()  # those with lines that weren't taken, in turn
        self._to_node: Deque[bytes] = deque()
        self._unsent = self._count = 0
        self._is_ending = False
        self._batch: List[bytes] = []  # the events of the piece that is read
        self._answered: Set[Client] = set()  # those with answers in it
        self._selector = selectors.DefaultSelector()

    def start(self, program: str, wake: int) -> None:
        """Starts the node. `wake` is the pipe of signals."""
        self._errors = tempfile.TemporaryFile()
        pipe = subprocess.PIPE
        command = self._session.settings.command(program)
        self._program = subprocess.Popen(command, stdin=pipe, stdout=pipe, stderr=self._errors, bufsize=0)
        assert self._program.stdin is not None and self._program.stdout is not None
        self._input, self._output = self._program.stdin, self._program.stdout
        os.set_blocking(self._input.fileno(), False)
        os.set_blocking(self._output.fileno(), False)
        self._wake = wake
        self._selector.register(self._output, selectors.EVENT_READ, self._hear)
        self._selector.register(self._wake, selectors.EVENT_READ, self._take_signals)
        self._selector.register(self._listener.socket, selectors.EVENT_READ, self._take_clients)

    def run(self) -> int:
        """Serves clients until the node has ended. The exit status is 0 where it was told to."""
        while not self._output.closed:
            ready = self._selector.select(_PROBE)
            # the node first, so that it never waits for clients
            ready.sort(key=lambda one: one[0].fileobj is not self._output)
            for key, _ in ready:
                if isinstance(key.data, Client):
                    self._serve(key.data)
                elif not self._output.closed:
                    key.data()
            self._take_lines()
            if not ready and not self._session.unanswered:
                # after a failure of the network the program ends only with further input
                self._put(self._session.sync())
            self._write()
        self._part()
        status = self._program.wait()
        if status or not self._session.has_stopped:
            raise NodeDied(status or 1, last_line(self._errors))
        return 0

    # ---- The node ----

    def _put(self, octets: bytes) -> None:
        self._to_node.append(octets)
        self._unsent += len(octets)

    def _write(self) -> None:
        """Writes to the node as much as its pipe takes."""
        if self._input.closed:
            return
        try:
            while self._to_node:
                first = self._to_node.popleft()
                written = os.write(self._input.fileno(), first)
                self._unsent -= written
                if written < len(first):
                    self._to_node.appendleft(first[written:])
        except BlockingIOError:
            self._to_node.appendleft(first)
        except BrokenPipeError:
            self._to_node.clear()
        if self._is_ending and not self._to_node:
            self._forget(self._input)
            self._input.close()
        else:
            self._watch(self._input, selectors.EVENT_WRITE if self._to_node else 0, self._write)

    def _hear(self) -> None:
        """Takes what the node writes, and hands it to the clients."""
        try:
            piece = os.read(self._output.fileno(), _PIECE)
        except BlockingIOError:
            return
        for line in self._session.lines(piece):
            try:
                self._take(line)
            except BadLine:
                continue  # such as USAGE: its exit status says why
        self._spread()
        if not piece:
            self._forget(self._output)
            self._output.close()

    def _take(self, line: bytes) -> None:
        if not self._is_json and not self._session.silent and line.startswith((b"SHOUT ", b"WHISPER ")):
            self._batch.append(line)  # the session learns nothing of it
            return
        event = self._session.take(line)
        done = self._session.done()
        if done is not None and done.owner is not None:
            self._answer(done)
        elif event is not None and not isinstance(event, ev.Refused):
            self._batch.append(jsonlines.dump(jsonlines.from_event(event)) if self._is_json else line)

    def _spread(self) -> None:
        """Hands the events of a piece to all clients, to each those that it has not heard, and sends all answers."""
        shared: Dict[int, bytes] = {}
        answered, self._answered = self._answered, set()
        for client in list(self._clients if self._batch else answered & self._clients):
            if client.heard not in shared:
                shared[client.heard] = b"".join(line + b"\n" for line in self._batch[client.heard :])
            client.put(shared[client.heard])
            client.heard = 0
            self._line_up(client)
            self._send(client)
        self._batch.clear()

    # ---- Clients ----

    def _take_clients(self) -> None:
        for place in self._listener.accept():
            self._count += 1
            client = Client(place, self._count, 6 * LINE + 1024 if self._is_json else LINE)
            client.heard = len(self._batch)
            self._clients.add(client)
            client.put(b"".join(line + b"\n" for line in self._greeting()))
            self._send(client)
        if self._listener.is_full:
            self._watch(self._listener.socket, 0, self._take_clients)

    def _greeting(self) -> List[bytes]:
        """Who the node is, and who is there, as if all had entered now."""
        own = self._session.settings
        now: List[ev.Event] = []
        for known in self._session.peers.values():
            now.append(ev.Enter(known.uuid, known.name, known.endpoint, known.headers))
            now += [ev.Join(known.uuid, known.name, group) for group in known.groups]
        if self._is_json:
            node: jsonlines.Value = {
                "event": "NODE",
                "peer": ev.digits(own.uuid),
                "name": jsonlines.from_octets(own.shown_name),
                "endpoint": own.endpoint,
                "bound": self._bound,
            }
            return [jsonlines.dump(one) for one in (node, *map(jsonlines.from_event, now))]
        head = f"NODE {ev.digits(own.uuid)} {quote(own.shown_name).decode()} {own.endpoint} {self._bound}".encode()
        return [head, *map(format_event, now)]

    def _serve(self, client: Client) -> None:
        """Takes what a client sent, and sends what waits for it."""
        if not self._is_done(client, client.receive):
            return
        self._line_up(client)
        self._send(client)

    def _is_done(self, client: Client, step: Callable[[], None]) -> bool:
        """Does a step with a client that is there; whether it was. One that is gone by then is dropped."""
        if client not in self._clients:
            return False
        try:
            step()
        except Gone:
            self._drop(client)
            return False
        return True

    def _line_up(self, client: Client) -> None:
        """Gives a client its turn, where it has lines and may have one more that isn't answered."""
        if client.lines and client.waiting < AHEAD and not client.is_in_turn:
            client.is_in_turn = True
            self._having.append(client)

    def _send(self, client: Client) -> None:
        """Sends as much as the socket takes; drops a client that is gone, is finished, or takes too little."""
        if not self._is_done(client, client.send):
            return
        if client.unsent > self._bound:
            waiting = f"{client.unsent:,} octets wait for it, and the bound is {self._bound:,}"
            report(f"hub: client {client.number} is dropped: {waiting}")
            self._drop(client)
        elif client.is_finished:
            self._drop(client)
        else:
            reads = selectors.EVENT_READ if client.is_read else 0
            self._watch(client.socket, reads | (selectors.EVENT_WRITE if client.unsent else 0), client)

    def _drop(self, client: Client) -> None:
        self._clients.discard(client)
        self._forget(client.socket)
        client.close()
        if self._listener.is_full:
            self._listener.is_full = False
            self._watch(self._listener.socket, selectors.EVENT_READ, self._take_clients)

    def _take_lines(self) -> None:
        """Takes lines of clients, one of each in turn, while little waits for the node."""
        while self._having and self._unsent < _TO_NODE and not self._is_ending:
            client = self._having.popleft()
            client.is_in_turn = False
            if client in self._clients and client.lines:
                client.waiting += 1
                self._command(client, client.lines.popleft())
                self._line_up(client)
                if not client.lines:
                    self._send(client)

    def _command(self, client: Client, line: Union[bytes, BadLine]) -> None:
        """Does what a line asks, and keeps what its answer will be until the node has come there."""
        try:
            if isinstance(line, BadLine):
                raise line
            command = jsonlines.parse(line) if self._is_json else _parse(line)
            if command.word == "quit":
                client.quits()
            if command.word in ("quit", *_QUERIES):
                self._put(self._session.sync((client, command)))
            else:
                self._put(self._session.send(command, (client, command)))
        except BadLine as why:
            self._put(self._session.sync((client, why)))

    # ---- Answers ----

    def _answer(self, done: Sent) -> None:
        client, asked = cast("Tuple[Client, Union[BadLine, Command]]", done.owner)
        client.waiting -= 1
        if client not in self._clients:
            return
        events = self._batch[client.heard :]
        client.heard = len(self._batch)
        if isinstance(asked, BadLine):
            answer = self._error("BADLINE", str(asked))
        elif done.refused is not None:
            answer = self._error(format_refusal(done.refused).decode(), done.refused.text)
        else:
            answer = self._success(asked)
        client.put(b"".join(line + b"\n" for line in (*events, *answer)))
        self._answered.add(client)

    def _error(self, reason: str, text: str) -> List[bytes]:
        if self._is_json:
            return [jsonlines.dump({"answer": "ERR", "reason": reason, "text": text})]
        return [f"ERR {reason} {text}".encode() if reason == "BADLINE" else f"ERR {reason}".encode()]

    def _success(self, command: Command) -> List[bytes]:
        known = self._session.peers
        if command.word == "who":
            return self._listed("peers", [self._peer(one) for one in known.values()])
        if command.word == "groups":
            return self._listed("groups", self._groups())
        if command.word == "peer":
            assert command.peer is not None
            if command.peer not in known:
                return self._error(f"NOPEER {ev.digits(command.peer)}", "no such peer is there")
            return self._listed("peers", [self._peer(known[command.peer])])
        return self._listed("", [])

    def _listed(self, key: str, members: "List[Tuple[bytes, jsonlines.Value]]") -> List[bytes]:
        if not self._is_json:
            return [line for line, _ in members] + [b"OK"]
        listed: Dict[str, jsonlines.Value] = {key: [value for _, value in members]} if key else {}
        return [jsonlines.dump({"answer": "OK", **listed})]

    def _peer(self, known: Known) -> "Tuple[bytes, jsonlines.Value]":
        heard = "silent" if known.uuid in self._session.silent else "heard"
        fields = [ev.digits(known.uuid).encode(), quote(known.name), quote(known.endpoint), quote_pairs(known.headers)]
        line = b" ".join([b"PEER", *fields, quote_list(known.groups), heard.encode()])
        return line, {
            "peer": ev.digits(known.uuid),
            "name": jsonlines.from_octets(known.name),
            "endpoint": jsonlines.from_octets(known.endpoint),
            "headers": jsonlines.from_headers(known.headers),
            "groups": [jsonlines.from_octets(group) for group in known.groups],
            "silent": known.uuid in self._session.silent,
        }

    def _groups(self) -> "List[Tuple[bytes, jsonlines.Value]]":
        own = self._session.joined
        counts: Dict[bytes, int] = {group: 0 for group in own}
        for known in self._session.peers.values():
            for group in known.groups:
                counts[group] = counts.get(group, 0) + 1
        return [
            (
                b"GROUP %s %d %s" % (quote(group), count, b"in" if group in own else b"out"),
                {"group": jsonlines.from_octets(group), "peers": count, "in": group in own},
            )
            for group, count in counts.items()
        ]

    # ---- The loop ----

    def _watch(self, place: object, events: int, what: object) -> None:
        """Waits for these events of a pipe or socket from now on."""
        known = self._selector.get_map().get(place)  # type: ignore[call-overload]
        if known is None and events:
            self._selector.register(place, events, what)  # type: ignore[arg-type]
        elif known is not None and not events:
            self._selector.unregister(place)  # type: ignore[arg-type]
        elif known is not None and known.events != events:
            self._selector.modify(place, events, what)  # type: ignore[arg-type]

    def _forget(self, place: object) -> None:
        if self._selector.get_map().get(place) is not None:  # type: ignore[call-overload]
            self._selector.unregister(place)  # type: ignore[arg-type]

    def _take_signals(self) -> None:
        count = sum(number in SIGNALS for number in os.read(self._wake, 64))
        if count and self._is_ending:
            self._program.kill()
        self._is_ending = self._is_ending or bool(count)

    def _part(self) -> None:
        """Gives clients the last lines, as far as they take them in time."""
        end = time.monotonic() + _GRACE
        self._forget(self._listener.socket)
        self._forget(self._wake)
        while any(client.unsent for client in self._clients) and time.monotonic() < end:
            for key, _ in self._selector.select(0.1):
                if isinstance(key.data, Client):
                    key.data.lines.clear()
                    self._send(key.data)
        for client in self._clients:
            client.close()


def _parse(line: bytes) -> Command:
    """The command of a line; `who`, `groups` and `peer ID` too."""
    if line in (b"who", b"groups"):
        return Command(line.decode())
    word, space, rest = line.partition(b" ")
    if word == b"peer":
        if not space:
            raise BadLine("peer has an identity after one space")
        peer: UUID = read_id(rest)
        return Command("peer", peer=peer)
    try:
        return parse_command(line)
    except BadLine as why:
        text = str(why)
        raise BadLine(text.replace("whisper or quit", "whisper, quit, who, groups or peer")) from None
