"""What goes into a chat and what comes out of it, without pipes: both nodes and the hub use `Session`.

After each line a session writes an empty one, the sync line. A chat answers that by REFUSED BADLINE and its number,
after its answer to the line itself. So a session knows which lines are done, and to which line each refusal belongs.
"""
from collections import deque
from dataclasses import dataclass, field
from typing import Deque, Dict, List, Optional, Set, Tuple
from uuid import UUID

from . import events as ev
from .events import Event
from .lines import Command, format_command, parse_event
from .settings import Headers, Octets, Peer, Settings, identity, octets, settings

UNREAD = 16 << 20  # The octets of events that wait for `recv` before the node is read no further.


class NodeError(Exception):
    """A call on a node failed."""


class NotRunning(NodeError):
    """The node wasn't started, or it has stopped."""


class Full(NodeError):
    """The pipe to the program stayed full for `patience` seconds; nothing of the line was sent."""


class NodeDied(NodeError):
    """The program ended by itself: its exit status (-N for signal N) and its last line of standard error."""

    def __init__(self, status: int, error: str) -> None:
        super().__init__(f"the node ended with status {status}: {error or 'it gave no reason'}")
        self.status, self.error = status, error


@dataclass
class Known:
    """A peer that is there."""

    uuid: UUID
    name: bytes
    endpoint: bytes
    headers: Dict[bytes, bytes]
    groups: Dict[bytes, None] = field(default_factory=dict)


@dataclass
class Sent:
    """A line that was sent: its number, its command (None for a sync line alone), and its refusal if there was one."""

    number: int
    command: Optional[Command]
    line: bytes
    owner: object = None
    refused: Optional[ev.Refused] = None


class Session:
    """The state of one chat, by what it wrote so far."""

    def __init__(self, settings: Settings) -> None:
        self.settings = settings
        self.peers: Dict[UUID, Known] = {}
        self.silent: Set[UUID] = set()  # peers of which nothing was heard since their last EVASIVE
        self.unanswered: Deque[Sent] = deque()
        self.has_stopped = False
        self.joined: Dict[bytes, None] = {}
        self._count = 0
        self._unfinished = b""
        self._finished: Optional[Sent] = None

    # ---- Into the chat ----

    def send(self, command: Command, owner: object = None) -> bytes:
        """The octets to write for a command, its sync line included. Raises BadLine if no line can express it."""
        line = format_command(command)
        self.unanswered.append(Sent(self._count + 1, command, line, owner))
        self._count += 2
        return line + b"\n\n"

    def sync(self, owner: object = None) -> bytes:
        """The octets to write for a sync line alone: its answer says that all before it is done."""
        self.unanswered.append(Sent(self._count, None, b"", owner))
        self._count += 1
        return b"\n"

    @property
    def count(self) -> int:
        """How many lines were sent, sync lines included."""
        return self._count

    def is_done(self, count: int) -> bool:
        """Whether the first `count` lines are done."""
        try:
            return self.unanswered[0].number >= count
        except IndexError:
            return True

    # ---- Out of the chat ----

    def lines(self, piece: bytes) -> List[bytes]:
        """The lines that end in this piece of output, without their line feeds."""
        *whole, self._unfinished = (self._unfinished + piece).split(b"\n")
        return whole

    def take(self, line: bytes) -> Optional[Event]:
        """The event of a line; None for the answer to a sync line, after which `done` has the line. Raises BadLine."""
        event = parse_event(line)
        if isinstance(event, ev.Refused):
            return self._take_refused(event)
        if isinstance(event, ev.PeerEvent):
            self._take_of_peer(event)
        elif isinstance(event, ev.Stop):
            self.has_stopped = True
        return event

    def done(self) -> Optional[Sent]:
        """The line that the last call of `take` found to be done; once."""
        finished, self._finished = self._finished, None
        return finished

    def _take_refused(self, event: ev.Refused) -> Optional[Event]:
        if not self.unanswered:
            return event
        sent = self.unanswered[0]
        if event.number == sent.number + 1:
            self._finished = self.unanswered.popleft()
            if sent.refused is None:
                self._settle(sent.command, self.joined)
            return None
        sent.refused = ev.Refused(event.reason, event.peer, event.group, event.number, sent.line)
        return sent.refused

    def _take_of_peer(self, event: ev.PeerEvent) -> None:
        if isinstance(event, ev.Evasive):
            self.silent.add(event.peer)
            return
        self.silent.discard(event.peer)
        if isinstance(event, ev.Enter):
            self.peers[event.peer] = Known(event.peer, event.name, event.endpoint, dict(event.headers))
            return
        if isinstance(event, ev.Exit):
            self.peers.pop(event.peer, None)
            return
        known = self.peers.get(event.peer)
        if known is None:
            return
        if isinstance(event, ev.Join):
            known.groups[event.group] = None
        elif isinstance(event, ev.Leave):
            known.groups.pop(event.group, None)

    @staticmethod
    def _settle(command: Optional[Command], groups: Dict[bytes, None]) -> None:
        if command is not None and command.group is not None:
            if command.word == "join":
                groups[command.group] = None
            elif command.word == "leave":
                groups.pop(command.group, None)

    def own_groups(self) -> List[bytes]:
        """The groups that the node is in, once it has taken all lines given so far."""
        groups = dict(self.joined)
        for sent in list(self.unanswered):
            if sent.refused is None:
                self._settle(sent.command, groups)
        return list(groups)


class Queries:
    """What a node is made of, and what it knows. That follows the lines that the program wrote, and so may be ahead of
    what `recv` gave."""

    def __init__(
        self,
        name: Optional[Octets] = None,
        headers: Optional[Headers] = None,
        interface: Optional[str] = None,
        *,
        program: Optional[str] = None,
        packed: bool = False,
        patience: Optional[float] = None,
        unread: int = UNREAD,
        **words: object,
    ) -> None:
        self._session = Session(settings(name, headers, interface, **words))  # type: ignore[arg-type]
        self._program, self._packed, self._patience, self._bound = program, packed, patience, unread
        self._events: Deque[Tuple[Event, int]] = deque()
        self._unread = self._waiting = 0
        self._status: Optional[int] = None
        self._error = ""
        self._prepare()

    def _prepare(self) -> None:
        """Makes what a kind of node has besides."""

    @property
    def settings(self) -> Settings:
        """The settings of the node: identity, host, port, name, headers, to and the rest."""
        return self._session.settings

    def uuid(self) -> UUID:
        """The identity of the node."""
        return self._session.settings.uuid

    def name(self) -> bytes:
        """The name of the node, as peers are told."""
        return self._session.settings.shown_name

    def endpoint(self) -> str:
        """The mailbox of the node, as `tcp://10.0.0.1:49152`."""
        return self._session.settings.endpoint

    def peers(self) -> List[UUID]:
        """Who is there."""
        return list(self._session.peers)

    def peers_by_group(self, group: Octets) -> List[UUID]:
        """Who is in this group."""
        wanted = octets(group)
        return [peer.uuid for peer in list(self._session.peers.values()) if wanted in peer.groups]

    def own_groups(self) -> List[bytes]:
        """The groups that this node is in, those that it was just told to join included."""
        return self._session.own_groups()

    def peer_groups(self) -> List[bytes]:
        """The groups that some peer is in, each once."""
        return list({group: None for peer in list(self._session.peers.values()) for group in list(peer.groups)})

    def _known(self, peer: Peer) -> Known:
        return self._session.peers[identity(peer)]

    def peer_name(self, peer: Peer) -> bytes:
        """The name of a peer. Raises KeyError where it isn't there; so do the calls below."""
        return self._known(peer).name

    def peer_address(self, peer: Peer) -> str:
        """The mailbox of a peer, as it says itself."""
        return ev.as_text(self._known(peer).endpoint)

    def peer_headers(self, peer: Peer) -> Dict[bytes, bytes]:
        """The headers of a peer."""
        return dict(self._known(peer).headers)

    def peer_header_value(self, peer: Peer, name: Octets) -> Optional[bytes]:
        """The value of a header of a peer; None where it has no such header."""
        return self._known(peer).headers.get(octets(name))
