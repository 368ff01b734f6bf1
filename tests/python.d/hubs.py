"""The hub as a program of its own, and its clients."""
from __future__ import annotations

import contextlib
import json
import os
import re
import select
import signal
import socket
import stat
import subprocess
import threading
import time
from typing import Any, Dict, List, Optional, Pattern, Sequence, Tuple, Union

import zre
from nodes import ANN, BEN, SOON, due, node, subject
from tools import ended, options, tool

SOCKET = os.path.join(os.environ["WORK"], "hub.sock")


class Client:
    """A client of the hub: what it sends, and the lines that it hears."""

    def __init__(self, place: Optional[Tuple[str, int]] = None) -> None:
        self.socket = socket.socket(socket.AF_UNIX if place is None else socket.AF_INET)
        self.socket.settimeout(SOON)
        self.socket.connect(SOCKET if place is None else place)
        self.unread = b""

    def put(self, *lines: str) -> None:
        self.socket.sendall(b"".join(line.encode() + b"\n" for line in lines))

    def line(self) -> Optional[str]:
        while b"\n" not in self.unread:
            piece = self.socket.recv(65536)
            if not piece:
                return None
            self.unread += piece
        line, _, self.unread = self.unread.partition(b"\n")
        return line.decode()

    def told(self) -> Dict[str, Any]:
        """The next line, which is JSON."""
        line = self.line()
        assert line is not None
        told: Dict[str, Any] = json.loads(line)
        return told

    def hears(self, *lines: Union[None, str, Pattern[str]]) -> None:
        for line in lines:
            got = self.line()
            is_due = got == line if isinstance(line, str) or line is None else got is not None and line.fullmatch(got)
            assert is_due, f"{got!r} in place of {line!r}"


def a_hub_serves_clients() -> None:
    ann = f"{ANN.hex.upper()}"
    with tool("hub", SOCKET, f"--id={ann}", "--name=Ann", *options(), wait_for="hub at") as ran:
        assert stat.S_IMODE(os.stat(SOCKET).st_mode) == 0o600
        assert "another hub listens there" in ended("hub", SOCKET, "--id=new", *options(BEN), status=10)[1]
        one = Client()
        head = re.compile(f"NODE {ann} Ann tcp://127.0.0.41:[0-9]+ 4194304")
        one.hears(head)
        one.put(
            "join a%20b",
            "join a%20b",
            "join é",
            "groups",
            "who",
            "",
            f"whisper {'%032X' % BEN.int} early",
            f"peer {ann}",
        )
        one.hears("OK", "ERR SAME a%20b", re.compile("ERR BADLINE in the group .*: octet C3 can't .*%C3"))
        one.hears("GROUP a%20b 0 in", "OK", "OK", re.compile("ERR BADLINE .*"), f"ERR NOPEER {'%032X' % BEN.int}")
        one.hears(f"ERR NOPEER {ann}")
        ben = node("Ben", BEN, {"X": "=y"})
        peer = f"{'%032X' % BEN.int} Ben"
        one.hears(f"ENTER {peer} {ben.endpoint()} X=%3Dy")
        ben.join("other")
        one.hears(f"JOIN {peer} other")
        a_late_client_hears_who_is_there(head, peer, ben)
        ran.terminate()
        one.hears(f"EXIT {peer} stop", "STOP", None)
        assert ran.wait(SOON) == 0 and not os.path.exists(SOCKET)


def a_late_client_hears_who_is_there(head: Pattern[str], peer: str, ben: zre.Node) -> None:
    two = Client()
    two.hears(head, f"ENTER {peer} {ben.endpoint()} X=%3Dy", f"JOIN {peer} other")
    two.put("who", "groups", f"whisper {'%032X' % BEN.int} é and more", "quit", "join late")
    two.hears(f"PEER {peer} {ben.endpoint()} X=%3Dy other heard", "OK", "GROUP a%20b 0 in", "GROUP other 1 out", "OK")
    two.hears("OK", "OK", None)
    three = Client()
    three.socket.sendall(b"x" * 200000 + b"\njoin last")
    three.socket.shutdown(socket.SHUT_WR)
    three.hears(head, f"ENTER {peer} {ben.endpoint()} X=%3Dy", f"JOIN {peer} other")
    three.hears("ERR BADLINE the line has more than 65536 octets", "OK", None)
    events = [ben.recv(SOON) for _ in range(4)]
    assert [event and event.word for event in events] == ["ENTER", "JOIN", "WHISPER", "JOIN"], events
    said, joined = events[2:]
    assert isinstance(said, zre.Whisper) and said.content == ("é and more".encode(),)
    assert isinstance(joined, zre.Join) and joined.group == b"last"


def a_hub_speaks_json() -> None:
    place = ("127.0.0.1", 7700)
    with tool("hub", "127.0.0.1:7700", "--json", "--id=new", "--name=Ann", *options(), wait_for="hub at") as ran:
        one = Client(place)
        assert one.told()["event"] == "NODE"
        ben = node(b"Ben", BEN, {"X": "y"})
        entered = one.told()
        assert (entered["event"], entered["name"], entered["headers"]) == (
            "ENTER",
            "Ben",
            [{"name": "X", "value": "y"}],
        )
        one.put('{"do":"join","group":"é"}', '{"do":"join","group":"é"}', "{", '{"do":"groups"}', '{"do":"who"}')
        answers = [one.told() for _ in range(5)]
        assert [answer["answer"] for answer in answers] == ["OK", "ERR", "ERR", "OK", "OK"], answers
        assert answers[1]["reason"] == "SAME %C3%A9" and answers[3]["groups"] == [
            {"group": "é", "peers": 0, "in": True}
        ]
        assert answers[4]["peers"][0]["peer"] == "%032X" % BEN.int
        ben.shout("é", b"\xff")
        shout = one.told()
        assert shout["content"] == [{"base64": "/w=="}] and shout["group"] == "é", shout
        ran.terminate()
        assert [one.told()["event"] for _ in range(2)] == ["EXIT", "STOP"] and ran.wait(SOON) == 0
    assert "an address of the loopback interface" in ended("hub", "0.0.0.0:7700", status=2)[1]


def a_hub_isnt_held_up() -> None:
    """100 clients: one never reads, one sends without end. The others hear all, and their lines are answered."""
    ben, bound = node("Ben", BEN), 400_000
    words = [f"--bound={bound}", "--id=new", "--name=Ann", *options()]
    with tool("hub", SOCKET, *words, wait_for="hub at") as ran:
        peer, clients = subject(ben.recv(SOON)), [Client() for _ in range(100)]
        deaf, sender, *rest = clients
        deaf.socket.setsockopt(socket.SOL_SOCKET, socket.SO_RCVBUF, 4096)
        threading.Thread(target=sends, args=(sender,), daemon=True).start()
        threading.Thread(target=reads, args=(sender,), daemon=True).start()
        rest[0].put("join g")
        due(ben, zre.Join(peer, b"Ann", b"g"))
        for number, client in enumerate(rest):
            client.put(*["groups"] * (number % 3))
        answers = [number % 3 for number in range(98)]
        for turn in range(8):  # nobody who reads is further behind than one turn
            lines = [f"SHOUT {'%032X' % BEN.int} Ben g {turn}.{number}%20{'x' * 2000}" for number in range(50)]
            for number in range(50):
                ben.shouts("g", "%d.%d %s", turn, number, "x" * 2000)
            for number, got in enumerate(heard(rest, lines[-1], answers)):
                assert [line for line in got if line.startswith("SHOUT")] == lines, f"client {number}"
            answers = [0] * 98
        said = ran.stderr.readline().decode()
        dropped = re.fullmatch(
            "zre: hub: client 1 is dropped: ([0-9,]+) octets wait for it, and the bound is 400,000\n", said
        )
        assert dropped, said
        sender.socket.close()
        ran.terminate()
        assert ran.wait(SOON) == 0


def heard(clients: Sequence[Client], last: str, number_of_answers: Sequence[int]) -> List[List[str]]:
    """The lines of all clients, which are read as they come, until each has heard the last and has its answers."""
    lines: List[List[str]] = [[] for _ in clients]
    left = dict(enumerate(clients))
    end = time.monotonic() + 2 * SOON
    while left:
        assert time.monotonic() < end, f"{len(left)} clients are left"
        for place in select.select([client.socket for client in left.values()], [], [], 1)[0]:
            number = next(number for number, client in left.items() if client.socket is place)
            piece = place.recv(1 << 20)
            assert piece, f"client {number} was dropped after {len(lines[number])} lines"
            *whole, left[number].unread = (left[number].unread + piece).split(b"\n")
            lines[number] += [line.decode() for line in whole]
            if last in lines[number] and lines[number].count("OK") >= number_of_answers[number]:
                del left[number]
    return lines


def sends(client: Client) -> None:
    with contextlib.suppress(OSError):
        while True:
            client.socket.sendall(b"shout nobody hears\n" * 1000)


def reads(client: Client) -> None:
    with contextlib.suppress(OSError):
        while client.socket.recv(65536):
            pass


def a_hub_ends_with_its_node() -> None:
    taken = ended("hub", SOCKET, "--id=new", "--host=127.0.0.41", "--listen=10.9.9.9", "--look=0", status=6)[1]
    assert "zre: cannot hear beacons on 10.9.9.9:5670" in taken and not os.path.exists(SOCKET), taken
    with tool("hub", SOCKET, "--id=new", *options(), wait_for="hub at") as ran:
        client = Client()
        client.hears(re.compile("NODE .*"))
        with open(f"/proc/{ran.pid}/task/{ran.pid}/children") as children:
            os.kill(int(children.read().split()[0]), signal.SIGKILL)
        client.hears(None)
        assert ran.wait(SOON) == 128 + signal.SIGKILL and not os.path.exists(SOCKET)


def the_service_ends_as_systemd_ends_it() -> None:
    run = os.path.join(os.path.dirname(os.path.realpath(__file__)), "..", "..", "examples", "service", "run")
    ran = subprocess.run([run], capture_output=True, timeout=20)
    assert ran.returncode == 0, ran
    told = ran.stdout.decode().split("\n")
    assert told[0].startswith("NODE ") and told[1:] == ["OK", "GROUP chat 0 in", "OK", "STOP", ""], told


CASES = [
    a_hub_serves_clients,
    a_hub_speaks_json,
    a_hub_isnt_held_up,
    a_hub_ends_with_its_node,
    the_service_ends_as_systemd_ends_it,
]
