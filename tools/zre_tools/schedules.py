"""Schedules: what `simulate` tells of moves, what a network has after them, and which move brought which event."""
import re
from typing import Dict, List, NamedTuple, Optional, Sequence, Tuple

from .captures import free_numbers
from .program import Refused, Trouble, run

HEAD = "zre-schedule 1"
# of a schedule
MOST_LINES = 262144


class Node(NamedTuple):
    """A node that a schedule may start: its number, identity, quoted name, address and port."""

    number: int
    identity: str
    name: str
    host: str
    port: str

    def start(self, time: int) -> str:
        """The move that starts it."""
        return f"start {self.number} {time} {self.identity} {self.name} {self.host} {self.port}"


class BadMove(Exception):
    """A move can't be made: its number, from 0."""

    def __init__(self, number: int) -> None:
        super().__init__(f"move {number} can't be made")
        self.number = number


def simulate(moves: Sequence[str]) -> bytes:
    """What the nodes tell."""
    try:
        return run(["simulate"], "".join(line + "\n" for line in [HEAD, *moves]).encode("ascii"))
    except Refused as refused:
        raise BadMove(refused.place[0] - 2) from None


def active_at(moves: Sequence[str]) -> List[Optional[int]]:
    """For each move the number of a node that runs and wasn't stopped before it, or none; and so after the last."""
    active: Dict[int, bool] = {}
    found: List[Optional[int]] = []
    for move in moves:
        found.append(min(active, default=None))
        fields = move.split(" ")
        if fields[0] == "start":
            active[int(fields[1])] = True
        elif fields[0] == "crash" or fields[0] == "do" and fields[3:4] == ["quit"]:
            active.pop(int(fields[1]), None)
    return [*found, min(active, default=None)]


class Network:
    """Moves, and what they made: asked of the program, by moves that it takes or refuses after them."""

    def __init__(self) -> None:
        self.moves: List[str] = []
        self.nodes: Dict[int, Node] = {}
        # for each link its owner and where it leads; the moves that may make one, with these two
        self.links: List[Tuple[int, int]] = []
        self.makers: List[Tuple[int, int, int]] = []
        self.searched = 0

    def add(self, move: str) -> None:
        """A further move."""
        self.moves.append(move)

    def may_link(self, owner: int, peer: int) -> None:
        """The move that is added next may make a link of this node to that one."""
        self.makers.append((len(self.moves), owner, peer))

    def takes(self, probe: Sequence[str], count: Optional[int] = None) -> bool:
        """Whether the first moves, all by default, can be made, and these after them."""
        front = self.moves[:count]
        try:
            simulate([*front, *probe])
        except BadMove as bad:
            if bad.number < len(front):
                raise
            return False
        return True

    def has_link(self, link: int, count: int) -> bool:
        """Whether there is link number so and so after the first moves."""
        node = running_at(self.moves[:count])
        if node is not None:
            return self.takes([f"open {link} {node} 0"], count)
        some = next(iter(self.nodes.values()))
        return self.takes([some.start(0), f"open {link} {some.number} 0"], count)

    def find_links(self) -> None:
        """All links that the moves made, with their owners: halving the moves that may have made the next one."""
        while self.searched < len(self.makers) and self.has_link(len(self.links) + 1, len(self.moves)):
            low, high = self.searched, len(self.makers) - 1
            while low < high:
                middle = (low + high) // 2
                if self.has_link(len(self.links) + 1, self.makers[middle][0] + 1):
                    high = middle
                else:
                    low = middle + 1
            _, owner, peer = self.makers[low]
            self.links.append((owner, peer))
            self.searched = low + 1
        self.searched = len(self.makers)

    def pending(self, conn: int) -> int:
        """How many octets a connection has yet to hand in: the most that it can."""
        low, step = 0, 64
        while self.takes([f"piece {conn} {low + step} 0"]):
            low, step = low + step, 2 * step
        high = low + step
        while high - low > 1:
            middle = (low + high) // 2
            if self.takes([f"piece {conn} {middle} 0"]):
                low = middle
            else:
                high = middle
        return low


def running_at(moves: Sequence[str]) -> Optional[int]:
    """The number of a node that runs after the moves, or none."""
    running = set()
    for move in moves:
        fields = move.split(" ", 2)
        if fields[0] == "start":
            running.add(int(fields[1]))
        elif fields[0] == "crash":
            running.discard(int(fields[1]))
    return min(running, default=None)


def events_by_move(moves: Sequence[str]) -> List[List[str]]:
    """For each move the lines that it brought. It costs two runs: before each move a node is given a line that is no
    command, and its answer tells the move. Where no node is active, a move brings nothing."""
    alone = simulate(moves).splitlines()
    if 2 * len(moves) + 1 > MOST_LINES:
        raise Trouble(f"the schedule is too long: at most {(MOST_LINES - 1) // 2:,} moves can be told apart")
    text = "\n".join(moves).encode("ascii")
    first, active = free_numbers(text, len(moves)), active_at(moves)
    marked: List[str] = []
    for number, move in enumerate(moves):
        if active[number] is not None:
            marked.append(f"do {active[number]} 0 bad {first + number}")
        marked.append(move)
    answer = re.compile(rb"[0-9]+ REFUSED BADLINE ([0-9]+)$")
    found: List[List[str]] = [[] for _ in moves]
    at, seen = 0, []
    for line in simulate(marked).splitlines():
        match = answer.match(line)
        if match and first <= int(match[1]) < first + len(moves):
            at = int(match[1]) - first
        else:
            found[at].append(line.decode("ascii"))
            seen.append(line)
    if seen != alone:
        raise Trouble("with marks between its moves the schedule tells other events")
    return found
