"""Whether the nodes of a schedule agree: random schedules with losses, repeats, reorderings, crashes and restarts, and
a small model that keeps what each node was as it queued each message.

    python3 tests/fuzz.d/agreeing.py PROGRAM [COUNT [SEED]]

Of what `simulate` writes only each run of a peer is looked at, from its ENTER on: it must tell what the first messages
of one link tell, as many as the model has counted, and the groups that it leads to must be those that the peer had as
it queued the last of them.
"""
from __future__ import annotations

import os
import random
import subprocess
import sys
import tempfile
from typing import Callable, Dict, List, Optional, Tuple, Union

GREETING, READY = 64, 60
GROUPS = ["g", "chat", "x" * 40, "y" * 250]
# What a connection is to carry: the greeting, READY, or the message of a number.
Part = Union[str, int]


class Message:
    """A message on a link: what it tells, how many octets it has, and the groups that its node had then."""

    def __init__(self, node: Node, kind: str, size: int, *told: str) -> None:
        self.kind, self.size, self.told, self.groups = kind, size, told, list(node.groups)


def frame(size: int) -> int:
    return size + (2 if size < 256 else 9)


class Link:
    def __init__(self, node: Node, peer: str) -> None:
        self.node, self.peer = node, peer
        self.messages: List[Message] = []

    def put(self, kind: str, size: int, *told: str) -> None:
        self.messages.append(Message(self.node, kind, size, *told))


class Peer:
    """A known peer, with the connection that runs it: which link that carries, and how many messages are counted."""

    def __init__(self, link: Link) -> None:
        self.link = link
        self.conn: Optional[Conn] = None
        self.run: Optional[Run] = None


class Run:
    def __init__(self, link: Link) -> None:
        self.link, self.count = link, 1

    def groups(self) -> List[str]:
        return self.link.messages[self.count - 1].groups


class Node:
    def __init__(self, network: Network, number: int) -> None:
        self.network, self.number, self.id, self.name = network, number, f"{number:x}".upper() * 32, f"n{number}"
        self.endpoint = f"tcp://10.0.0.{number}:5000"
        self.groups: List[str] = []
        self.peers: Dict[str, Peer] = {}
        self.stopped = self.gone = False

    def born(self, peer: str) -> None:
        link = Link(self, peer)
        self.network.links.append(link)
        self.peers[peer] = Peer(link)
        groups = sum(4 + len(group) for group in self.groups)
        link.put("HELLO", frame(6 + 1 + len(self.endpoint) + 4 + groups + 1 + 1 + len(self.name) + 4))

    def ended(self, peer: str) -> None:
        conn = self.peers.pop(peer).conn
        if conn:
            conn.dead = True

    def hears(self, peer: str, port: int) -> None:
        if self.stopped or peer == self.id:
            return
        if peer in self.peers and not port:
            self.ended(peer)
        elif peer not in self.peers and port:
            self.born(peer)

    def wishes(self, words: Tuple[str, ...]) -> None:
        if self.stopped:
            return
        if words[0] == "quit":
            for peer in list(self.peers):
                self.ended(peer)
            self.stopped = True
            self.network.beacons.append((self, 0))
        elif words[0] in ("join", "leave"):
            group = words[1]
            if (group in self.groups) == (words[0] == "join"):
                return
            self.groups = self.groups + [group] if words[0] == "join" else [one for one in self.groups if one != group]
            for other in self.peers.values():
                other.link.put(words[0].upper(), frame(6 + 1 + len(group) + 1), group)
        elif words[0] == "whisper" and words[1] in self.peers and self.peers[words[1]].run:
            self.peers[words[1]].link.put("WHISPER", frame(6) + frame(len(words[2])), words[2])
        elif words[0] == "shout":
            for other in self.peers.values():
                if other.run and words[1] in other.run.groups():
                    other.link.put("SHOUT", frame(6 + 1 + len(words[1])) + frame(len(words[2])), words[1], words[2])


class Conn:
    """A connection: what it was made to carry, and what its node makes of what has come."""

    def __init__(self, node: Node, link: Link) -> None:
        self.node, self.link, self.at, self.last = node, link, 0, 0
        self.parts: List[Part] = []
        self.peer: Optional[str] = None
        self.awaits, self.dead, self.opened = "greeting", False, not node.stopped

    def size(self, part: Part) -> int:
        if isinstance(part, int):
            return self.link.messages[part - 1].size
        return GREETING if part == "greeting" else READY

    def pending(self) -> int:
        return sum(self.size(part) for part in self.parts) - self.at

    def close(self) -> None:
        if self.peer and self.node.peers.get(self.peer) and self.node.peers[self.peer].conn is self:
            self.node.ended(self.peer)
        self.dead, self.peer = True, None

    def comes(self, count: int) -> None:
        while count:
            step = min(count, self.size(self.parts[0]) - self.at)
            self.at, count = self.at + step, count - step
            whole = self.at == self.size(self.parts[0])
            if self.opened and not self.dead and not self.node.stopped:
                self.reads(self.parts[0], whole)
            if whole:
                self.parts.pop(0)
                self.at = 0

    def reads(self, part: Part, whole: bool) -> None:
        right = {"greeting": part == "greeting", "ready": part == "ready", "traffic": part != "greeting"}[self.awaits]
        if not right or (whole and self.awaits == "ready" and self.link.node.id == self.node.id):
            self.close()
        elif whole and self.awaits == "greeting":
            self.awaits = "ready"
        elif whole and self.awaits == "ready":
            self.awaits = "traffic"
            for other in self.node.network.conns:
                if other is not self and other.node is self.node and other.peer == self.link.node.id:
                    other.close()
            self.peer = self.link.node.id
        elif whole and isinstance(part, int) and self.peer:
            self.hears(self.peer, part)

    def hears(self, said_by: str, number: int) -> None:
        peer = self.node.peers.get(said_by)
        if peer and peer.run and peer.conn is self:
            if number == peer.run.count + 1:
                peer.run.count = number
            else:
                self.node.ended(said_by)
        elif number != 1:
            self.dead = True
        else:
            if not peer:
                self.node.born(said_by)
                peer = self.node.peers[said_by]
            peer.conn, peer.run = self, Run(self.link)
            self.node.network.runs.setdefault((self.node.number, said_by), []).append(peer.run)


class Network:
    """A schedule as it is made, move by move, each of them within the grammar."""

    def __init__(self, chance: random.Random) -> None:
        self.chance, self.lines = chance, ["zre-schedule 1"]
        self.nodes: Dict[int, Node] = {}
        self.links: List[Link] = []
        self.beacons: List[Tuple[Node, int]] = []
        self.conns: List[Conn] = []
        self.runs: Dict[Tuple[int, str], List[Run]] = {}
        for number in range(1, chance.choice([2, 2, 3, 4]) + 1):
            self.start(number)

    def move(self, *words: object) -> None:
        self.lines.append(" ".join(str(word) for word in words))

    def start(self, number: int) -> None:
        node = self.nodes[number] = Node(self, number)
        self.move("start", number, 0, node.id, node.name, f"10.0.0.{number}", 5000)

    def node(self) -> Node:
        return self.chance.choice([node for node in self.nodes.values() if not node.gone])

    def tick(self) -> None:
        node = self.node()
        self.move("tick", node.number, 0)
        if not node.stopped:
            self.beacons.append((node, 5000))

    def beacon(self) -> None:
        if self.beacons:
            number, node = self.chance.randrange(len(self.beacons)), self.node()
            self.move("beacon", number + 1, node.number, 0)
            sender, port = self.beacons[number]
            node.hears(sender.id, port)

    def open(self) -> None:
        if not self.links:
            return
        number = self.chance.randrange(len(self.links))
        link = self.links[number]
        if any(conn.link is link and not conn.dead for conn in self.conns) and self.chance.random() < 0.9:
            return
        meant = [node for node in self.nodes.values() if not node.gone and node.id == link.peer]
        node = meant[0] if meant and self.chance.random() < 0.9 else self.node()
        self.move("open", number + 1, node.number, 0)
        self.conns.append(Conn(node, link))
        if self.chance.random() < 0.9:
            parts: Tuple[Part, ...] = ("greeting", "ready", 1)
            for part in parts:
                self.carries(len(self.conns), part)

    def carries(self, number: int, part: Part) -> None:
        self.move("carry", number, part)
        conn = self.conns[number - 1]
        conn.parts.append(part)
        conn.last = part if isinstance(part, int) else conn.last

    def carry(self) -> None:
        """Mostly the next messages; now and then one is left out, comes again, or before its turn."""
        if not self.conns:
            return
        lively = [at for at, conn in enumerate(self.conns) if conn.parts or conn.peer and not conn.dead]
        number = self.chance.choice(lively if lively and self.chance.random() < 0.95 else range(len(self.conns))) + 1
        conn = self.conns[number - 1]
        for _ in range(self.chance.choice([1, 2, 5])):
            due = conn.last + 1
            part: Part = due
            if self.chance.random() < 0.15:
                others: List[Part] = ["greeting", "ready", "ready", 1, due + 1, due + 1, due + 1, max(1, due - 1)]
                part = self.chance.choice(others)
            if isinstance(part, str) or part <= len(conn.link.messages):
                self.carries(number, part)

    def piece(self) -> None:
        open_ones = [(at, conn) for at, conn in enumerate(self.conns) if conn.parts and not conn.node.gone]
        if open_ones:
            at, conn = self.chance.choice(open_ones)
            count = self.chance.choice([conn.pending(), conn.pending(), self.chance.randrange(conn.pending() + 1)])
            self.move("piece", at + 1, count, 0)
            conn.comes(count)

    def wish(self) -> None:
        node, group = self.node(), self.chance.choice(GROUPS)
        text = "t" * self.chance.choice([1, 5, 300])
        other = self.chance.choice([*node.peers, *(one.id for one in self.nodes.values())])
        ways: List[Tuple[str, ...]] = [
            ("join", group), ("join", group), ("leave", group), ("whisper", other, text), ("shout", group, text)]
        words = self.chance.choice(ways)
        self.move("do", node.number, 0, *words)
        node.wishes(words)

    def end(self) -> None:
        kind = self.chance.choice(["crash", "shut", "unlinked", "quit", "beacons"])
        if kind == "crash":
            node = self.node()
            self.move("crash", node.number)
            node.gone = True
            self.start(node.number)
        elif kind == "quit" and self.chance.random() < 0.3:
            node = self.node()
            self.move("do", node.number, 0, "quit")
            node.wishes(("quit",))
        elif kind == "shut" and self.conns:
            at = self.chance.randrange(len(self.conns))
            conn = self.conns[at]
            if not conn.node.gone:
                self.move("shut", at + 1, 0)
                conn.close()
        elif kind == "unlinked" and self.links:
            at = self.chance.randrange(len(self.links))
            link = self.links[at]
            if not link.node.gone:
                self.move("unlinked", at + 1, 0)
                if link.peer in link.node.peers and link.node.peers[link.peer].link is link:
                    link.node.ended(link.peer)

    def made(self, moves: int) -> bytes:
        ways: List[Callable[[], None]] = [self.tick]
        ways += [self.beacon, self.open] * 2 + [self.carry, self.piece, self.wish] * 4
        for _ in range(moves):
            way = self.end if self.chance.random() < 0.02 else self.chance.choice(ways)
            way()
        return ("\n".join(self.lines) + "\n").encode()


def told(peer: str, run: Run) -> List[List[str]]:
    """What the messages of a run tell."""
    node = run.link.node
    lines = []
    for message in run.link.messages[:run.count]:
        if message.kind == "HELLO":
            lines.append(["ENTER", peer, node.name, node.endpoint, "%"])
            lines += [["JOIN", peer, node.name, group] for group in message.groups]
        else:
            lines.append([message.kind, peer, node.name, *message.told])
    return lines


def runs_in(text: bytes) -> Dict[Tuple[int, str], List[List[List[str]]]]:
    """The runs of each peer at each node, each the list of its lines, without EVASIVE and EXIT."""
    runs: Dict[Tuple[int, str], List[List[List[str]]]] = {}
    for line in text.decode().split("\n")[:-1]:
        number, event, *fields = line.split(" ")
        if event == "ENTER":
            runs.setdefault((int(number), fields[0]), []).append([])
        if event in ("ENTER", "JOIN", "LEAVE", "WHISPER", "SHOUT"):
            runs[int(number), fields[0]][-1].append([event, *fields])
    return runs


def wrong(network: Network, text: bytes) -> Optional[str]:
    """What is wrong with what `simulate` wrote, if anything is."""
    seen = runs_in(text)
    for key in {*seen, *network.runs}:
        counted, shown = network.runs.get(key, []), seen.get(key, [])
        if len(counted) != len(shown):
            return f"{len(shown)} runs of {key[1]} at {key[0]}, not {len(counted)}"
        for run, lines in zip(counted, shown):
            if lines != told(key[1], run):
                return f"a run of {key[1]} at {key[0]} tells other than its first {run.count} messages"
            groups: List[str] = []
            for event, _, _, *rest in lines:
                if event == "JOIN":
                    groups.append(rest[0])
                elif event == "LEAVE":
                    groups.remove(rest[0])
            if groups != run.groups():
                return f"{key[0]} shows {groups} of {key[1]}, which were {run.groups()}"
    return None


def tried(program: str, chance: random.Random, path: str, moves: int) -> Optional[str]:
    """Makes a schedule, runs it, and answers what is wrong."""
    network = Network(chance)
    with open(path, "wb") as file:
        file.write(network.made(moves))
    with open(path, "rb") as file:
        done = subprocess.run([program, "simulate"], stdin=file, stdout=subprocess.PIPE, check=False)
    if done.returncode:
        return f"status {done.returncode}: {done.stdout[:80]!r}"
    return wrong(network, done.stdout)


def main() -> int:
    program = os.path.realpath(sys.argv[1])
    count, seed = (int(word) for word in (sys.argv[2:] + ["1000", "36"][len(sys.argv) - 2:])[:2])
    failed = 0
    with tempfile.TemporaryDirectory() as folder:
        for case in range(count):
            chance = random.Random(f"{seed} {case}")
            path = os.path.join(folder, "schedule")
            found = tried(program, chance, path, chance.choice([20, 60, 200]))
            if found:
                failed += 1
                kept = os.path.join(tempfile.mkdtemp(prefix="zre-agree-"), "schedule")
                os.replace(path, kept)
                print(f"seed {seed} case {case}: {found}; {kept}", flush=True)
    print(f"{count - failed} passed, {failed} failed")
    return 1 if failed else 0


if __name__ == "__main__":
    sys.exit(main())
