"""Nodes of the package beside each other, on addresses of the loopback interface."""
from __future__ import annotations

import asyncio
import contextlib
import os
import signal
import socket
import subprocess
import sys
import time
import uuid
from typing import Any, Awaitable, Callable, Dict, List, Optional, Tuple, Type, TypeVar, Union

import zre
import zre.aio
from zre import network

ANN, BEN = uuid.UUID("a" * 31 + "1"), uuid.UUID("b" * 31 + "2")
HOSTS = {ANN: "127.0.0.41", BEN: "127.0.0.42"}
# On a busy machine a node may stand still for some seconds.
TIMES = {"interval": 100, "evasive": 20000, "expired": 30000}
SOON = 10
started: List[zre.Node] = []
Given = TypeVar("Given")
Kind = TypeVar("Kind", bound=BaseException)


def words(who: uuid.UUID, **more: Any) -> Dict[str, Any]:
    return {"uuid": who, "host": HOSTS[who], "listen": HOSTS[who], "to": HOSTS.values(), **TIMES, **more}


def node(name: Union[str, bytes], who: uuid.UUID, headers: Dict[str, str] = {}, **more: Any) -> zre.Node:
    made = zre.Node(name, headers, **words(who, **more))
    started.append(made)
    made.start()
    return made


def pair(**more: Any) -> Tuple[zre.Node, zre.Node]:
    ann, ben = node("Ann", ANN, {"X-LANG": "en"}, **more), node("Bén", BEN, **more)
    due(ann, zre.Enter(BEN, "Bén".encode(), ben.endpoint().encode()))
    due(ben, zre.Enter(ANN, b"Ann", ann.endpoint().encode(), {b"X-LANG": b"en"}))
    return ann, ben


def clear() -> None:
    while started:
        one = started.pop()
        if one.pid is not None:
            os.kill(one.pid, signal.SIGCONT)
        one.stop(5)


def signals(one: zre.Node, which: signal.Signals) -> None:
    """Sends a signal to the program of a node that was started."""
    assert one.pid is not None
    os.kill(one.pid, which)


def subject(event: Optional[zre.Event]) -> uuid.UUID:
    """The peer that entered."""
    assert isinstance(event, zre.Enter), event
    return event.peer


def due(one: zre.Node, *events: zre.Event) -> None:
    """These are the next events of a node."""
    for event in events:
        got = one.recv(SOON)
        assert got == event, f"{got} in place of {event}"


def fails(kind: Type[Kind], call: Callable[..., object], *given: object, **named: object) -> Kind:
    try:
        call(*given, **named)
    except kind as why:
        return why
    raise AssertionError(f"{call} didn't raise {kind}")


def two_nodes_talk() -> None:
    ann, ben = pair()
    name = "Bén".encode()
    ann.join("a group")
    due(ben, zre.Join(ANN, b"Ann", b"a group"))
    assert (
        ann.own_groups() == [b"a group"]
        and ben.peers_by_group("a group") == [ANN]
        and ben.peer_groups() == [b"a group"]
    )
    contents = [b"", b"\0\xff\r, =~%", "é".encode(), b"x" * 60000]
    for content in contents:
        ben.shout("a group", content)
        ben.whisper(ANN, content)
        due(ann, zre.Shout(BEN, name, b"a group", (content,)), zre.Whisper(BEN, name, (content,)))
    ann.whispers(str(BEN), "%d of %s", 3, "é")
    ann.whispers(BEN.bytes, "100%")
    due(ben, zre.Whisper(ANN, b"Ann", ("3 of é".encode(),)), zre.Whisper(ANN, b"Ann", (b"100%",)))
    assert ann.peers() == [BEN] and ann.peer_name(BEN) == name and ann.peer_address(BEN) == ben.endpoint()
    assert ben.peer_header_value(ANN, "X-LANG") == b"en" and ben.peer_header_value(ANN, "none") is None
    assert ben.peer_headers(ANN) == {b"X-LANG": b"en"} and ann.uuid() == ANN and ann.name() == b"Ann"
    ann.leave("a group")
    due(ben, zre.Leave(ANN, b"Ann", b"a group"))
    assert ann.own_groups() == [] and ben.peer_groups() == []
    ann.stop()
    due(ann, zre.Exit(BEN, name, zre.Cause("stop")), zre.Stop())
    fails(zre.NotRunning, ann.recv)
    fails(zre.NotRunning, ann.join, "late")
    gone = ben.recv(SOON)
    assert isinstance(gone, zre.Exit) and gone.cause.word in ("shut", "link", "beacon"), gone
    assert ben.peers() == []
    fails(KeyError, ben.peer_name, ANN)


def refusals_have_their_line() -> None:
    ann, ben = pair()
    other = uuid.UUID(int=7)
    ann.join("a b")
    for number in range(20):
        ann.whisper(other, f"lost {number}")
        ann.whisper(BEN, f"kept {number}")
    ann.join("a b")
    ann.leave("none")
    ann.flush()
    told = list(ann.recent_events())
    refused = [event for event in told if isinstance(event, zre.Refused)]
    lines = [f"whisper {other.hex.upper()} lost {number}".encode() for number in range(20)] + [
        b"join a%20b",
        b"leave none",
    ]
    assert len(refused) == len(told) and [event.line for event in refused] == lines, told
    assert [event.reason for event in refused] == ["NOPEER"] * 20 + ["SAME", "NOGROUP"]
    due(ben, zre.Join(ANN, b"Ann", b"a b"))
    due(ben, *(zre.Whisper(ANN, b"Ann", (b"kept %d" % number,)) for number in range(20)))
    for content in b"a\nb", b"x" * 65536, [b"two", b"frames"]:
        fails(ValueError, ann.whisper, BEN, content)
    fails(ValueError, ann.join, "g" * 256)
    fails(ValueError, ann.whisper, "no identity", b"")
    assert ann.own_groups() == [b"a b"]


def packed_contents_are_any_octets() -> None:
    ann, ben = pair(packed=True)
    ann.whisper(BEN, [b"\n", b"", bytes(range(256))])
    ann.whisper(BEN, b"a\nb")
    ann.whisper(BEN, [])
    contents = (b"\n", b"", bytes(range(256))), (b"a\nb",), ()
    due(ben, *(zre.Whisper(ANN, b"Ann", content) for content in contents))


def neither_waits_for_the_other() -> None:
    """One thread sends more than all pipes hold before it receives anything, with a small bound of unread events."""
    ann, ben = pair(unread=10000)
    for one in ann, ben:
        one.join("g")
        assert isinstance((ben if one is ann else ann).recv(SOON), zre.Join)
    count = 3000
    for number in range(count):
        ann.shouts("g", "%d %s", number, "x" * 100)
        ben.shouts("g", "%d %s", number, "x" * 100)
    # in turn, since a node whose events nobody reads stands still, and so does what it was asked
    for number in range(count):
        for one, other, name in (ann, BEN, "Bén".encode()), (ben, ANN, b"Ann"):
            due(one, zre.Shout(other, name, b"g", (b"%d %s" % (number, b"x" * 100),)))


def unread_events_have_a_bound() -> None:
    """While nobody receives, the node is read no further, and nothing is lost."""
    ann, ben = pair(unread=10000)
    ben.join("g")
    due(ann, zre.Join(BEN, "Bén".encode(), b"g"))
    for number in range(500):
        ann.shouts("g", "%d %s", number, "x" * 4000)
    ann.flush()
    time.sleep(0.3)
    assert 10000 < ben._unread < 10000 + 2 * 65536, ben._unread
    due(ben, *(zre.Shout(ANN, b"Ann", b"g", (b"%d %s" % (number, b"x" * 4000),)) for number in range(500)))


def a_full_node_is_told() -> None:
    ann = node("Ann", ANN, patience=0.2)
    signals(ann, signal.SIGSTOP)
    given = 0
    try:
        while given < 10000:
            ann.shout("g", b"x" * 1000)
            given += 1
    except zre.Full:
        pass
    assert 50 < given < 10000, given
    assert ann.recv(0.1) is None
    signals(ann, signal.SIGCONT)
    patiently(ann.join, "still")
    assert patiently(ann.flush, SOON) and ann.own_groups() == [b"still"]


def patiently(call: Callable[..., Given], *given: object) -> Given:
    """Calls until the pipe isn't full: on a busy machine it may stay so for longer than the node is patient."""
    for _ in range(50):
        with contextlib.suppress(zre.Full):
            return call(*given)
    raise AssertionError("the pipe stays full")


def a_slow_peer_is_told() -> None:
    ann, ben = pair()
    ben.join("g")
    due(ann, zre.Join(BEN, "Bén".encode(), b"g"))
    signals(ben, signal.SIGSTOP)
    for _ in range(300):
        ann.shout("g", b"x" * 60000)
    gone = ann.recv(SOON)
    assert isinstance(gone, zre.Exit) and gone.cause.word == "slow", gone
    unsent, size = gone.cause.numbers
    assert unsent <= 4194304 < unsent + size and str(unsent) in gone.cause.text, gone


def a_program_that_dies_is_told() -> None:
    ann, ben = pair()
    signals(ann, signal.SIGKILL)
    why = fails(zre.NodeDied, ann.recv, SOON)
    assert why.status == -signal.SIGKILL, why
    assert fails(zre.NodeDied, ann.join, "g").status == -signal.SIGKILL
    taken = fails(zre.NodeDied, node, "Cleo", BEN, uuid=uuid.UUID(int=3), port=ben.settings.port, beacon=5671)
    assert taken.status == 6 and "cannot listen on 127.0.0.42" in taken.error, taken
    assert fails(zre.NodeDied, node, "x" * 256, BEN).status == 2
    assert fails(zre.NodeDied, node, "x", BEN, program="/bin/false").status == 1
    fails(ValueError, node, b"\xff", BEN)
    os.environ["ZRE"], kept = "/nowhere", os.environ["ZRE"]
    try:
        fails(zre.NoProgram, node, "x", BEN)
    finally:
        os.environ["ZRE"] = kept


def an_idle_node_that_fails_is_told() -> None:
    """A program whose network failed reads one octet more before it ends: an idle node is given one."""
    fake = os.path.join(os.environ["WORK"], "fails-when-probed")
    with open(fake, "w") as file:
        file.write("#!/bin/sh\nread one; echo REFUSED BADLINE 1; read two; echo 'zre: cannot wait' >&2; exit 6\n")
    os.chmod(fake, 0o755)
    zre.node.PROBE, kept = 0.3, zre.node.PROBE
    ann = node("Ann", ANN, program=fake)
    zre.node.PROBE = kept
    why = fails(zre.NodeDied, ann.recv, SOON)
    assert (why.status, why.error) == (6, "zre: cannot wait"), why


def signals_are_not_for_the_program() -> None:
    ann, ben = pair()
    for one in signal.SIGINT, signal.SIGTERM, signal.SIGHUP:
        signals(ann, one)
    ann.whisper(BEN, "still here")
    due(ben, zre.Whisper(ANN, b"Ann", (b"still here",)))


def asyncio_has_the_same() -> None:
    asyncio.run(asyncio.wait_for(with_asyncio(), 22))


async def with_asyncio() -> None:
    ann = zre.aio.Node("Ann", {"X-LANG": "en"}, unread=10000, **words(ANN))
    ben = zre.aio.Node("Ben", **words(BEN))
    async with ann, ben:
        assert await ann.recv(SOON) == zre.Enter(BEN, b"Ben", ben.endpoint().encode())
        assert await ben.recv(SOON) == zre.Enter(ANN, b"Ann", ann.endpoint().encode(), {b"X-LANG": b"en"})
        await ann.join("g")
        assert await ben.recv(SOON) == zre.Join(ANN, b"Ann", b"g")
        await ann.join("g")
        refused = await ann.recv(SOON)
        assert isinstance(refused, zre.Refused) and refused.line == b"join g"
        for number in range(2000):
            await ben.shouts("g", "%d %s", number, "x" * 100)
            await ann.whispers(BEN, "%d", number)
        for number in range(2000):
            shouted, whispered = await ann.recv(SOON), await ben.recv(SOON)
            assert isinstance(shouted, zre.Shout) and shouted.content == (b"%d %s" % (number, b"x" * 100),)
            assert isinstance(whispered, zre.Whisper) and whispered.content == (b"%d" % number,)
        assert await ann.recv(0.05) is None and ann.own_groups() == [b"g"] and ben.peers_by_group("g") == [ANN]
        await ann.stop()
        assert [event async for event in ann] == [zre.Exit(BEN, b"Ben", zre.Cause("stop")), zre.Stop()]
        assert isinstance(await ben.recv(SOON), zre.Exit)
        assert ben.pid is not None
        os.kill(ben.pid, signal.SIGKILL)
        calls: List[Callable[[], Awaitable[object]]] = [lambda: ben.recv(SOON), lambda: ben.join("g")]
        for call in calls:
            try:
                await call()
                raise AssertionError("it didn't raise NodeDied")
            except zre.NodeDied as why:
                assert why.status == -signal.SIGKILL
    try:
        await zre.aio.Node("x" * 256, **words(ANN)).start()
        raise AssertionError("it didn't raise NodeDied")
    except zre.NodeDied as why:
        assert why.status == 2


def addresses_are_found() -> None:
    lo = network.interface("lo")
    assert lo == network.Interface("lo", "127.0.0.1", "127.255.255.255", True) == network.default_interface()
    assert "127.255.255.255" in network.broadcasts() and network.interface_of("127.0.0.1") == lo
    fails(zre.NoInterface, network.interface, "none0")
    made = zre.Node("x").settings
    assert (made.host, made.to) == ("127.0.0.1", ("127.255.255.255",)) and 1024 <= made.port < 65536
    fails(OSError, zre.Node, "x", host="10.9.9.9")


def a_broadcast_is_enough() -> None:
    """Without any words but a name, a node hears beacons to the broadcast address of the loopback interface."""
    ann = zre.Node("Ann", interval=100)
    started.append(ann)
    ann.start()
    hears_a_beacon()


def hears_a_beacon() -> None:
    """Sends beacons to the broadcast address, until a node has heard one and comes to the mailbox that it names."""
    port = network.free_port("127.0.0.9")
    with socket.create_server(("127.0.0.9", port)) as mailbox, socket.socket(socket.AF_INET, socket.SOCK_DGRAM) as out:
        out.setsockopt(socket.SOL_SOCKET, socket.SO_BROADCAST, 1)
        out.bind(("127.0.0.9", 0))
        mailbox.settimeout(0.2)
        for _ in range(5 * SOON):
            out.sendto(b"ZRE\1" + BEN.bytes + port.to_bytes(2, "big"), ("127.255.255.255", 5670))
            with contextlib.suppress(socket.timeout):
                mailbox.accept()[0].close()
                return
    raise AssertionError("no node came")


def a_session_ends_with_its_program() -> None:
    """A program that runs a node and ends without stopping it: the node says good-bye."""
    ben = node("Ben", BEN)
    place = f"host='{HOSTS[ANN]}', listen='{HOSTS[ANN]}', to={list(HOSTS.values())}, interval=100"
    text = f"import zre; node = zre.Node('Ann', uuid='{ANN.hex}', {place}); node.start(); node.recv(5)"
    begun = time.monotonic()
    subprocess.run([sys.executable, "-c", text], check=True, timeout=15)
    assert isinstance(ben.recv(SOON), zre.Enter)
    assert isinstance(ben.recv(SOON), zre.Exit) and time.monotonic() - begun < 15


CASES = [
    two_nodes_talk,
    refusals_have_their_line,
    packed_contents_are_any_octets,
    neither_waits_for_the_other,
    unread_events_have_a_bound,
    a_full_node_is_told,
    a_slow_peer_is_told,
    a_program_that_dies_is_told,
    an_idle_node_that_fails_is_told,
    signals_are_not_for_the_program,
    asyncio_has_the_same,
    addresses_are_found,
    a_broadcast_is_enough,
    a_session_ends_with_its_program,
]
