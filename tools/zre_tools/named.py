"""Schedules by name, and the moves that they stand for."""
import re
from typing import Callable, Dict, List, NamedTuple, Optional, Sequence, Set, Tuple

from .program import Trouble
from .schedules import BadMove, Network, Node, active_at, simulate
from .words import time_of

# Greeting and READY of a ROUTER: what comes back on a link before anything else.
HANDSHAKE = (
    "ff00000000000000007f03004e554c4c" + "00" * 48 + "041c0552454144590b536f636b65742d5479706500000006524f55544552"
)
GONE = "this node doesn't run"
NAME = re.compile(r"[A-Za-z_][A-Za-z0-9_-]*")
QUOTED = re.compile(r"~|(?:[!-$&-+\--<>-}]|%[0-9A-F]{2})+")
FRAMES = re.compile(rf"%|(?:{QUOTED.pattern})(?:,(?:{QUOTED.pattern}))*")
NUMBER = re.compile(r"0|[1-9][0-9]{0,18}")


class Word(NamedTuple):
    """A word of a line, and which it is, from 1."""

    text: str
    number: int


class Bad(Exception):
    """A word of a line is no good, or one is missing."""

    def __init__(self, word: Word, why: str) -> None:
        super().__init__(why)
        self.word = word


class Conn:
    """A connection: its number, its link, whose link that is, the node where it was opened, and the last message that
    was carried."""

    def __init__(self, number: int, link: int, owner: int, node: int) -> None:
        self.number, self.link, self.owner, self.node, self.carried = number, link, owner, node, 0


class Line(NamedTuple):
    """A line of a schedule by name, from 1, and its words."""

    number: int
    words: List[Word]
    text: str


def lines_of(text: str) -> List[Line]:
    """The lines that have words. A word that begins with # begins a comment."""
    found = []
    for number, line in enumerate(text.split("\n"), 1):
        words = [Word(word, at) for at, word in enumerate(line.split(), 1)]
        end = next((at for at, word in enumerate(words) if word.text.startswith("#")), len(words))
        if end:
            found.append(Line(number, words[:end], " ".join(word.text for word in words[:end])))
    return found


class Source(NamedTuple):
    """Where a move comes from: its line, and the word that is to blame where the program doesn't take it, and why."""

    line: Line
    word: Word
    why: str


class Names:
    """A schedule by name as it is read: what its names stand for, and the moves so far, each with its line."""

    def __init__(self) -> None:
        self.network = Network()
        self.sources: List[Source] = []
        self.nodes: Dict[str, Node] = {}
        self.conns: Dict[str, Conn] = {}
        self.beacons: List[int] = []
        self.named_beacons: Dict[str, int] = {}
        # who runs and wasn't stopped by a command
        self.active: Set[int] = set()
        self.time = 0
        self.line = Line(0, [], "")

    # --- words ---

    def word(self, at: int, what: str) -> Word:
        """The word at this place, from 0."""
        if at < len(self.line.words):
            return self.line.words[at]
        raise Bad(Word("", at + 1), f"{what} is missing")

    def end(self, at: int) -> None:
        """No word stands at this place."""
        if at < len(self.line.words):
            raise Bad(self.line.words[at], "one word too many")

    def matching(self, at: int, what: str, form: "re.Pattern[str]") -> str:
        """The word at this place, which has a form."""
        word = self.word(at, what)
        if not form.fullmatch(word.text):
            raise Bad(word, f"this isn't {what}")
        return word.text

    def node(self, at: int) -> Node:
        """The node that a word names."""
        word = self.word(at, "a node")
        if word.text not in self.nodes:
            raise Bad(word, "no node has this name")
        return self.nodes[word.text]

    def conn(self, at: int) -> Conn:
        """The connection that a word names."""
        word = self.word(at, "a connection")
        if word.text not in self.conns:
            raise Bad(word, "no connection has this name")
        return self.conns[word.text]

    def link(self, at: int) -> Tuple[int, int, int]:
        """The link that OWNER>PEER or OWNER>PEER/N names: its number, and those of both nodes."""
        word = self.word(at, "a link")
        match = re.fullmatch(r"([^>]+)>([^>/]+)(?:/([1-9][0-9]{0,8}))?", word.text)
        if not match or match[1] not in self.nodes or match[2] not in self.nodes:
            raise Bad(word, "this isn't a link: OWNER>PEER, both names of nodes, or OWNER>PEER/N")
        owner, peer = self.nodes[match[1]].number, self.nodes[match[2]].number
        self.network.find_links()
        numbers = [number for number, ends in enumerate(self.network.links, 1) if ends == (owner, peer)]
        wanted = int(match[3] or len(numbers))
        if not 0 < wanted <= len(numbers):
            made = f"has made {len(numbers)} links" if numbers else "has no link yet"
            raise Bad(word, f"{match[1]} {made} to {match[2]}")
        return numbers[wanted - 1], owner, peer

    def name(self, at: int, what: str, taken: Dict[str, object]) -> str:
        """A new name."""
        text = self.matching(at, what, NAME)
        if text in taken:
            raise Bad(self.line.words[at], f"{what} has this name already")
        return text

    def move(self, text: str, at: int, why: str = "") -> None:
        """A move of this line; the word at this place, from 0, is to blame where the program doesn't take it."""
        self.network.add(text)
        self.sources.append(Source(self.line, self.line.words[at], why))

    def blamed(self, number: int) -> Source:
        """Why the program doesn't take a move."""
        move, source = self.network.moves[number], self.sources[number]
        if move.startswith("piece "):
            self.network.moves = self.network.moves[:number]
            return source._replace(why=self.why_no_piece(int(move.split(" ")[1])))
        return source if source.why else source._replace(why=f"the program doesn't take its move `{move}`")

    # --- lines ---

    def take(self, line: Line) -> None:
        """A further line."""
        self.line = line
        verb = self.word(0, "a move")
        does: Optional[Callable[[], None]] = getattr(self, f"do_{verb.text}", None)
        if verb.text == "zre-schedule":
            raise Bad(verb, "this is a schedule of moves already, which `zre simulate` reads")
        if does is None:
            raise Bad(
                verb,
                "no line begins so: node, at, after, start, crash, tick, do, beacon, open, carry, piece, shut, "
                "linked, unlinked, reply and took do",
            )
        does()

    def do_node(self) -> None:
        """node NAME ADDRESS:PORT [id=ID] [name=NAME]"""
        name, number = self.name(1, "a node", dict(self.nodes)), len(self.nodes) + 1
        if number > 16:
            raise Bad(self.line.words[0], "a schedule has at most 16 nodes")
        place = self.matching(2, "an address and a port: a.b.c.d:PORT", re.compile(r"[0-9]+(\.[0-9]+){3}:[0-9]+"))
        host, _, port = place.partition(":")
        if not 0 < int(port) < 65536 or any(str(int(part)) != part or int(part) > 255 for part in host.split(".")):
            raise Bad(self.line.words[2], "this isn't an address and a port: four numbers up to 255, and 1 to 65535")
        given = {"id": f"{number % 16:X}" * 32, "name": name}
        for at in range(3, len(self.line.words)):
            key, _, value = self.line.words[at].text.partition("=")
            form = {"id": re.compile("[0-9A-F]{32}"), "name": QUOTED}.get(key)
            if form is None or not form.fullmatch(value):
                raise Bad(self.line.words[at], "this is neither id=, with 32 upper-case digits, nor name=, quoted")
            given[key] = value
        if given["id"] in [node.identity for node in self.nodes.values()]:
            raise Bad(self.line.words[1], f"another node has the identity {given['id']}")
        self.nodes[name] = Node(number, given["id"], given["name"], host, port)
        self.network.nodes[number] = self.nodes[name]

    def do_at(self) -> None:
        """at TIME"""
        self.time = self.milliseconds()

    def do_after(self) -> None:
        """after TIME"""
        self.time += self.milliseconds()

    def milliseconds(self) -> int:
        """The time that is the second word."""
        word = self.word(1, "a time")
        time = time_of(word.text)
        if time is None:
            raise Bad(word, "this isn't a time: seconds, m:ss or h:mm:ss, with up to three decimals")
        self.end(2)
        return time

    def do_start(self) -> None:
        """start NODE"""
        self.move(self.node(1).start(self.time), 1, "this node runs already")
        self.active.add(self.node(1).number)
        self.end(2)

    def do_crash(self) -> None:
        """crash NODE"""
        self.move(f"crash {self.node(1).number}", 1, GONE)
        self.active.discard(self.node(1).number)
        self.end(2)

    def do_tick(self) -> None:
        """tick NODE [as BEACON]"""
        node = self.node(1)
        if len(self.line.words) > 2:
            if node.number not in self.active:
                raise Bad(self.line.words[1], "this node sends no beacon: it doesn't run, or was stopped")
            self.matching(2, "as, which names the beacon", re.compile("as"))
            name = self.name(3, "a beacon", {**self.named_beacons, **self.nodes})
            self.named_beacons[name] = len(self.beacons) + 1
            self.end(4)
        self.move(f"tick {node.number} {self.time}", 1, GONE)
        self.sends_beacon(node)

    def sends_beacon(self, node: Node) -> None:
        """The last move makes a node send a beacon, unless it has stopped."""
        if node.number in self.active:
            self.beacons.append(node.number)

    def do_do(self) -> None:
        """do NODE COMMAND.."""
        node, command = self.node(1), self.matching(
            2, "a command: join, leave, shout, whisper, bad or quit", re.compile("join|leave|shout|whisper|bad|quit")
        )
        fields = [command]
        if command in ("join", "leave", "shout"):
            fields.append(self.matching(3, "a group, quoted", QUOTED))
        elif command == "whisper":
            to = self.word(3, "a node or an identity")
            fields.append(
                self.nodes[to.text].identity
                if to.text in self.nodes
                else self.matching(3, "a node or an identity", re.compile("[0-9A-F]{32}"))
            )
        elif command == "bad":
            fields.append(self.matching(3, "a number", NUMBER))
        if command in ("shout", "whisper"):
            fields.append(self.matching(4, "frames, quoted and with commas between", FRAMES))
        self.end(2 + len(fields))
        self.move(f"do {node.number} {self.time} {' '.join(fields)}", 1, GONE)
        if command == "quit":
            self.sends_beacon(node)
            self.active.discard(node.number)

    def do_beacon(self) -> None:
        """beacon NODE|BEACON NODE.."""
        word = self.word(1, "a node or a beacon")
        if word.text in self.named_beacons:
            number = self.named_beacons[word.text]
        else:
            sender = self.node(1).number
            number = max((at for at, node in enumerate(self.beacons, 1) if node == sender), default=0)
            if number == 0:
                raise Bad(word, "this node has sent no beacon yet: a tick sends one")
        self.word(2, "a node")
        for at in range(2, len(self.line.words)):
            node = self.node(at)
            self.network.may_link(node.number, self.beacons[number - 1])
            self.move(f"beacon {number} {node.number} {self.time}", at, GONE)

    def do_open(self) -> None:
        """open CONN LINK [NODE]"""
        name = self.name(1, "a connection", dict(self.conns))
        link, owner, peer = self.link(2)
        node = self.node(3).number if len(self.line.words) > 3 else peer
        self.end(4)
        self.conns[name] = Conn(len(self.conns) + 1, link, owner, node)
        self.move(f"open {link} {node} {self.time}", len(self.line.words) - 1, "the node where it opens doesn't run")

    def do_carry(self) -> None:
        """carry CONN PART.."""
        conn = self.conn(1)
        self.word(2, "greeting, ready, a number, N-M or rest")
        for at in range(2, len(self.line.words)):
            word = self.line.words[at]
            match = re.fullmatch(rf"({NUMBER.pattern})(?:-({NUMBER.pattern}))?", word.text)
            if word.text in ("greeting", "ready"):
                self.move(f"carry {conn.number} {word.text}", at, "too many octets wait on connections")
            elif word.text == "rest":
                self.carry_rest(conn, word)
            elif match and 0 < int(match[1]) <= int(match[2] or match[1]) < int(match[1]) + 100000:
                for message in range(int(match[1]), int(match[2] or match[1]) + 1):
                    self.move(f"carry {conn.number} {message}", at, f"message {message} isn't on the link yet")
                    conn.carried = max(conn.carried, message)
            else:
                raise Bad(word, "this is neither greeting, ready, the number of a message, N-M nor rest")

    def carry_rest(self, conn: Conn, word: Word) -> None:
        """All messages of the link behind the last one that was carried."""
        first = conn.carried
        while self.network.takes([f"carry {conn.number} {conn.carried + 1}"]):
            conn.carried += 1
            self.move(f"carry {conn.number} {conn.carried}", word.number - 1)
        if conn.carried == first:
            raise Bad(word, f"no message is on the link behind message {first}")

    def do_piece(self) -> None:
        """piece CONN COUNT|all"""
        conn = self.conn(1)
        count = self.matching(2, "a number of octets, or all", re.compile(rf"all|{NUMBER.pattern}"))
        self.end(3)
        if count == "all":
            pending = self.network.pending(conn.number)
            if pending == 0:
                raise Bad(self.line.words[2], self.why_no_piece(conn.number))
            count = str(pending)
        self.network.may_link(conn.node, conn.owner)
        self.move(f"piece {conn.number} {count} {self.time}", 2)

    def why_no_piece(self, conn: int) -> str:
        """Why a connection can't hand in so many octets."""
        pending = self.network.pending(conn)
        if pending:
            return f"it has {pending} octets to hand in"
        is_there = self.network.takes([f"piece {conn} 0 0"])
        return f"it has nothing to hand in{': carry something first' if is_there else ': its node is gone'}"

    def do_shut(self) -> None:
        """shut CONN"""
        self.move(f"shut {self.conn(1).number} {self.time}", 1, "its node is gone")
        self.end(2)

    def do_linked(self) -> None:
        """linked LINK, unlinked LINK"""
        self.move(f"{self.line.words[0].text} {self.link(1)[0]} {self.time}", 1, "its node is gone")
        self.end(2)

    do_unlinked = do_linked

    def do_reply(self) -> None:
        """reply LINK HEX|handshake"""
        link = self.link(1)[0]
        octets = self.matching(
            2, "octets in lower-case digits, - or handshake", re.compile("handshake|-|([0-9a-f]{2})+")
        )
        self.end(3)
        octets = HANDSHAKE if octets == "handshake" else octets
        self.move(f"reply {link} {self.time} {octets}", 1, "its node is gone")

    def do_took(self) -> None:
        """took LINK COUNT"""
        count = self.matching(2, "a number of octets", NUMBER)
        self.end(3)
        self.move(f"took {self.link(1)[0]} {count} {self.time}", 1, "its node is gone")


class Named(NamedTuple):
    """The moves of a schedule by name, and for each the line that it is of."""

    moves: List[str]
    sources: Sequence[Line]


def read_named(text: str, file: str) -> Named:
    """Reads a schedule by name. `Trouble` has the line and the word that is no good."""
    names = Names()
    try:
        for line in lines_of(text):
            names.take(line)
        simulate(names.network.moves)
        check_beacons(names)
    except Bad as bad:
        raise refusal(file, names.line, bad.word, str(bad)) from None
    except BadMove as bad:
        raise refusal(file, *names.blamed(bad.number)) from None
    return Named(names.network.moves, [source.line for source in names.sources])


def refusal(file: str, line: Line, word: Word, why: str) -> Trouble:
    """A line is no good."""
    return Trouble(f"{file}: line {line.number}, word {word.number}{f' ({word.text})' if word.text else ''}: {why}", 3)


def check_beacons(names: Names) -> None:
    """The program has numbered as many beacons as were counted here."""
    node = active_at(names.network.moves)[-1]
    count = len(names.beacons)
    if node is None or count == 0:
        return
    if not names.network.takes([f"beacon {count} {node} 0"]) or names.network.takes([f"beacon {count + 1} {node} 0"]):
        raise Trouble("the program sent another number of beacons than was counted")
