"""A node: what the entries of a journal bring about, as lines of events."""
from __future__ import annotations

import re
from typing import Dict, List, NamedTuple, Optional, Tuple, Union

import messages
import zmtp
from messages import Message, Run, Said, quote, said_by

PEERS, CONNECTIONS = 256, 512
UNSENT = 4_194_304
GREETING, READY = 64, 60
ENDPOINT = re.compile(rb"tcp://(\d+)\.(\d+)\.(\d+)\.(\d+):(\d+)", re.ASCII)


# The value of a field of an entry: a number, an address, octets, or the frames of a content.
Field = Union[int, str, bytes, Tuple[bytes, ...]]


class Settings(NamedTuple):
    """The settings of a node. Times are in milliseconds."""
    id: bytes
    name: bytes
    host: str
    port: int
    evasive: int = 5000
    expired: int = 30000
    headers: Tuple[Tuple[bytes, bytes], ...] = ()


def is_endpoint(octets: bytes) -> bool:
    """Whether an endpoint has the form tcp://a.b.c.d:port, numbers without leading zeros."""
    found = ENDPOINT.fullmatch(octets)
    if not found or any(part.startswith(b"0") and part != b"0" for part in found.groups()):
        return False
    *address, port = map(int, found.groups())
    return max(address) <= 255 and 1 <= port <= 65535


class Link:
    """The node's connection to a peer: how many octets were put on it and went out, its messages, of `queued`
    octets, and what is answered there."""

    def __init__(self, number: int, peer: bytes) -> None:
        self.number, self.peer = number, peer
        self.length, self.taken = GREETING + READY, 0
        self.messages: List[bytes] = []
        self.queued = 0
        self.said: List[Said] = []
        self.replies: Optional[zmtp.Stream] = None

    def put(self, size: int) -> Optional[str]:
        """Puts so many octets at the end, or answers the cause with which the peer ends."""
        unsent = self.length - self.taken
        if unsent + size > UNSENT:
            return f"slow {unsent} {size}"
        self.length += size
        return None

    def push(self, body: Message) -> Optional[str]:
        """Puts the next message of the link."""
        octets = zmtp.message(messages.spell(body._replace(number=len(self.messages) + 1)))
        cause = self.put(len(octets))
        if not cause:
            self.messages.append(octets)
            self.queued += len(octets)
            self.said += said_by(body)
        return cause

    def gate(self) -> int:
        """How many octets may have gone out."""
        if self.replies is None:
            return 0
        if not self.replies.is_greeted:
            return GREETING
        return self.length if self.replies.is_ready else GREETING + READY

    def took(self, count: int) -> None:
        self.taken += min(count, self.gate() - self.taken)

    def reply(self, piece: bytes) -> Optional[str]:
        """Takes what was answered on the link, or says the cause with which the peer ends."""
        if self.replies is None:
            return None
        try:
            for item in self.replies.feed(piece):
                context = zmtp.context_of(item) if isinstance(item, zmtp.Command) else None
                cause = None if context is None else self.put(len(zmtp.pong(context)))
                if cause:
                    return cause
        except zmtp.Fault as fault:
            return f"reply {fault.why} {fault.place}"
        return None


class Conn:
    """A connection that a peer opened. `peer` is the identity of READY; `run` is there while it runs that peer."""

    def __init__(self, number: int, now: int, own: bytes) -> None:
        self.number, self.since = number, now
        self.stream = zmtp.Stream(zmtp.a_dealer(own))
        self.peer: Optional[bytes] = None
        self.run: Optional[Run] = None
        self.is_ignored = False


class Peer:
    """A known peer."""

    def __init__(self, link: Link, now: int) -> None:
        self.link, self.active = link, now
        self.conn: Optional[Conn] = None


class Node:
    """A node after the entries so far. `lines`, `links` and `beacons` are all events, links, and ports of beacons,
    `runs` all runs of peers, and `brought` what counts for tables."""

    def __init__(self, settings: Settings) -> None:
        self.settings = settings
        self.clock = self.status = 0
        self.greatest = -1
        self.is_stopped = False
        self.groups: List[bytes] = []
        self.peers: Dict[bytes, Peer] = {}
        self.conns: Dict[int, Conn] = {}
        self.lines: List[str] = []
        self.links: List[Link] = []
        self.beacons: List[int] = []
        self.runs: List[Run] = []
        self.brought: List[Said] = []

    def step(self, at: int, form: str, fields: Tuple[Field, ...]) -> None:
        """Takes an entry: a reading of the clock, the words of its form, and its fields."""
        if not self.is_stopped:
            self.clock = max(self.clock, at)
            getattr(self, form.replace(" ", "_"))(*fields)

    def tell(self, *fields: object) -> None:
        self.lines.append(" ".join(map(str, fields)))

    # Peers

    def born(self, peer: bytes) -> Peer:
        """A birth makes a link and puts HELLO on it."""
        own = self.settings
        self.links.append(Link(len(self.links) + 1, peer))
        found = self.peers[peer] = Peer(self.links[-1], self.clock)
        endpoint = f"tcp://{own.host}:{own.port}".encode()
        groups = tuple(self.groups)
        found.link.push(Message(messages.HELLO, 1, b"", self.status, (), endpoint, own.name, groups, own.headers))
        return found

    def ends(self, peer: bytes, cause: str) -> None:
        """The end of a known peer. The connection that ran it is ignored from now on."""
        conn = self.peers.pop(peer).conn
        if conn:
            assert conn.run is not None
            self.lines.append(conn.run.line("EXIT", cause))
            conn.run = None
            self.ignore(conn)

    def push(self, peer: bytes, body: Message) -> None:
        """Puts a message on the link of a known peer, which ends where there is no room."""
        cause = self.peers[peer].link.push(body)
        if cause:
            self.ends(peer, cause)

    def heard(self, peer: bytes) -> List[List[Said]]:
        """What was said in each run of a peer, in the order of their starts."""
        return [run.said for run in self.runs if run.id == peer.hex().upper()]

    def put(self, peer: bytes) -> List[List[Said]]:
        """What was said on the link of each birth of a peer."""
        return [link.said for link in self.links if link.peer == peer]

    def on_link(self, number: int) -> Optional[bytes]:
        """The known peer with the link of this number."""
        return next((peer for peer, found in self.peers.items() if found.link.number == number), None)

    # What comes to the node

    def datagram(self, _host: str, octets: bytes) -> None:
        peer, port = octets[4:20], octets[20:]
        if len(octets) != 22 or octets[:4] != b"ZRE\x01" or peer == self.settings.id:
            return
        if port == b"\0\0":
            if peer in self.peers:
                self.ends(peer, "beacon")
        elif peer in self.peers:
            self.peers[peer].active = self.clock
        elif len(self.peers) < PEERS:
            self.born(peer)

    def opened(self, number: int) -> None:
        if number <= self.greatest:
            return
        self.greatest = number
        if len(self.conns) == CONNECTIONS:
            self.tell("CLOSED", number, "TooMany")
        else:
            self.conns[number] = Conn(number, self.clock, self.settings.id)

    def piece(self, number: int, octets: bytes) -> None:
        conn = self.conns.get(number)
        if not conn or conn.is_ignored:
            return
        try:
            for item in conn.stream.feed(octets):
                if isinstance(item, zmtp.Message):
                    self.message(conn, item.frames)
                elif isinstance(item, zmtp.Command) and item.shakes:
                    self.shaken(conn, zmtp.identity_of(item))
                if conn.is_ignored:
                    return
        except zmtp.Fault as fault:
            self.close(conn, "fault", fault.why, fault.place)

    def shut(self, number: int) -> None:
        if number in self.conns:
            self.close(self.conns[number], "shut")

    def linked(self, number: int) -> None:
        peer = self.on_link(number)
        if peer and self.peers[peer].link.replies is None:
            self.peers[peer].link.replies = zmtp.Stream(zmtp.a_router)

    def unlinked(self, number: int) -> None:
        peer = self.on_link(number)
        if peer:
            self.ends(peer, "link")

    def reply(self, number: int, octets: bytes) -> None:
        peer = self.on_link(number)
        cause = self.peers[peer].link.reply(octets) if peer else None
        if peer and cause:
            self.ends(peer, cause)

    def took(self, number: int, count: int) -> None:
        peer = self.on_link(number)
        if peer:
            self.peers[peer].link.took(count)

    def tick(self) -> None:
        own = self.settings
        silent = {peer: self.clock - found.active for peer, found in self.peers.items()}
        entered = {peer: found.conn.run for peer, found in self.peers.items() if found.conn and found.conn.run}
        evasive = [peer for peer in entered if own.evasive <= silent[peer] < own.expired]
        for peer, passed in silent.items():
            if passed >= own.expired:
                self.ends(peer, "expired")
        for peer in evasive:
            self.lines.append(entered[peer].line("EVASIVE"))
            self.push(peer, Message(messages.PING, 0))
        for conn in list(self.conns.values()):
            if not conn.run and self.clock - conn.since >= own.expired:
                self.close(conn, "", "Timeout")
        self.beacons.append(own.port)

    # Connections

    def ignore(self, conn: Conn) -> None:
        conn.is_ignored, conn.since = True, self.clock

    def close(self, conn: Conn, cause: str, *why: object) -> None:
        """The peer that it runs ends with the cause; then it is closed, with a line where there is a reason."""
        if conn.run:
            assert conn.peer is not None
            self.ends(conn.peer, cause)
        conn.is_ignored = True
        del self.conns[conn.number]
        if why:
            self.tell("CLOSED", conn.number, *why)

    def shaken(self, conn: Conn, peer: bytes) -> None:
        """READY came: an older connection with the same identity is closed."""
        for other in list(self.conns.values()):
            if other.peer == peer:
                self.close(other, "taken", "Taken")
        conn.peer = peer

    def message(self, conn: Conn, frames: List[bytes]) -> None:
        try:
            message = messages.read(frames)
        except messages.Bad:
            return
        if conn.run:
            self.later(conn, message)
        else:
            self.first(conn, message)

    def first(self, conn: Conn, message: Message) -> None:
        """The first message of a connection starts a run of its peer, or the connection is ignored."""
        assert conn.peer is not None
        run, known = Run(conn.peer), conn.peer in self.peers
        why = run.start(message)
        if not why and not known and not is_endpoint(message.endpoint):
            why = "NoEndpoint"
        if not why and not known and len(self.peers) == PEERS:
            why = "Full"
        if why:
            self.ignore(conn)
            self.tell("IGNORED", conn.number, why)
            return
        peer = self.peers[conn.peer] if known else self.born(conn.peer)
        conn.run, peer.conn, peer.active = run, conn, self.clock
        self.runs.append(run)
        self.lines += run.told(message)

    def later(self, conn: Conn, message: Message) -> None:
        assert conn.run is not None and conn.peer is not None
        cause = conn.run.next(message)
        if cause:
            self.ends(conn.peer, cause)
            return
        self.peers[conn.peer].active = self.clock
        self.lines += conn.run.told(message)
        self.brought += said_by(message)
        if message.command == messages.PING:
            self.push(conn.peer, Message(messages.PING_OK, 0))

    # What the user asks for

    def do_join(self, group: bytes) -> None:
        if len(group) > messages.GROUP_OCTETS:
            self.tell("REFUSED TOOBIG")
        elif group in self.groups:
            self.tell("REFUSED SAME", quote(group))
        elif len(self.groups) == messages.GROUPS:
            self.tell("REFUSED LIMIT", quote(group))
        else:
            self.groups.append(group)
            self.changed(messages.JOIN, group)

    def do_leave(self, group: bytes) -> None:
        if group in self.groups:
            self.groups.remove(group)
            self.changed(messages.LEAVE, group)
        else:
            self.tell("REFUSED NOGROUP", quote(group))

    def changed(self, command: int, group: bytes) -> None:
        """Every known peer is told of a change of the groups."""
        self.status = (self.status + 1) % 256
        for peer in list(self.peers):
            self.push(peer, Message(command, 0, group, self.status))

    def do_whisper(self, peer: bytes, content: Tuple[bytes, ...]) -> None:
        body = Message(messages.WHISPER, 0, content=content)
        if peer not in self.peers or not self.peers[peer].conn:
            self.tell("REFUSED NOPEER", peer.hex().upper())
        elif is_big(body):
            self.tell("REFUSED TOOBIG")
        else:
            self.push(peer, body)

    def do_shout(self, group: bytes, content: Tuple[bytes, ...]) -> None:
        body = Message(messages.SHOUT, 0, group, content=content)
        if len(group) > messages.GROUP_OCTETS or is_big(body):
            self.tell("REFUSED TOOBIG")
            return
        self.brought += said_by(body)
        runs = [(peer, found.conn.run) for peer, found in self.peers.items() if found.conn]
        for peer in [peer for peer, run in runs if run and run.is_in(group)]:
            self.push(peer, body)

    def do_bad(self, number: int) -> None:
        self.tell("REFUSED BADLINE", number)

    def do_quit(self) -> None:
        for peer in list(self.peers):
            self.ends(peer, "stop")
        self.beacons.append(0)
        self.tell("STOP")
        self.is_stopped = True

    end = do_quit


def is_big(body: Message) -> bool:
    """Whether a message passes the limits of frames or octets."""
    sizes = list(map(len, messages.spell(body)))
    return len(sizes) > zmtp.MESSAGE_FRAMES or sum(sizes) > zmtp.MESSAGE_OCTETS
