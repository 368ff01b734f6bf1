#!/usr/bin/env python3
"""A service registry without a server: who offers a service says so in the headers of its node.

    registry.py offer SERVICE=ENDPOINT...     offers services until Ctrl-C
    registry.py find SERVICE                  prints the endpoints of all that offer it, within two seconds
    registry.py                               shows both, on the loopback interface

`--interface NAME` chooses the network. A header `X-SERVICE-printer: tcp://10.0.0.7:9100` offers a printer. A service
is gone with its node: after an exit at once, after a crash when the node's silence ends it.
"""
import argparse
import contextlib
import sys
import time
from typing import Dict, List, Optional

import zre

HEADER = "X-SERVICE-"


def offering(services: Dict[str, str]) -> Dict[str, str]:
    """The headers of a node that offers these services."""
    return {HEADER + service: endpoint for service, endpoint in services.items()}


def found(node: zre.Node, service: str) -> List[str]:
    """The endpoints of a service that the peers of a node offer now."""
    offers = []
    for peer in node.peers():
        with contextlib.suppress(KeyError):  # it has gone meanwhile
            value = node.peer_header_value(peer, HEADER + service)
            if value is not None:
                offers.append(value.decode("utf-8", "replace"))
    return sorted(offers)


def wait_for(node: zre.Node, service: str, seconds: float, many: int = 1) -> List[str]:
    """The endpoints of a service, once there are so many or the time is over."""
    end = time.monotonic() + seconds
    while len(found(node, service)) < many and time.monotonic() < end:
        node.recv(max(0.0, end - time.monotonic()))  # a peer entered, or something else happened
    return found(node, service)


def offer(services: Dict[str, str], interface: Optional[str]) -> int:
    with contextlib.suppress(KeyboardInterrupt), zre.Node("registry", offering(services), interface) as node:
        for event in node:
            if isinstance(event, zre.Enter):
                print(f"{event.name_text} is here", flush=True)
    return 0


def find(service: str, interface: Optional[str]) -> int:
    with zre.Node("lookup", interface=interface) as node:
        time.sleep(2)  # two beacons of each
        endpoints = found(node, service)
    print(*endpoints, sep="\n", end="\n" if endpoints else "")
    return 0 if endpoints else 1


def shown() -> int:
    """Two nodes with three offers and one that looks for them, on one machine; then one of the two stops."""
    hosts = [f"127.0.0.{last}" for last in (31, 32, 33)]
    offers: List[Dict[str, str]] = [
        {"printer": "tcp://10.0.0.7:9100"},
        {"printer": "tcp://10.0.0.8:9100", "clock": "udp://10.0.0.8:123"},
        {},
    ]
    nodes = [
        zre.Node(f"node {host}", offering(services), host=host, listen=host, to=hosts, interval=200)
        for host, services in zip(hosts, offers)
    ]
    with contextlib.ExitStack() as running:
        for node in nodes:
            running.enter_context(node)
        looking = nodes[-1]
        before = wait_for(looking, "printer", 10, many=2)
        clocks = wait_for(looking, "clock", 10)
        nodes[0].stop()
        end = time.monotonic() + 10
        while len(found(looking, "printer")) > 1 and time.monotonic() < end:
            looking.recv(0.2)
        after = found(looking, "printer")
    print(f"printers: {', '.join(before)}\nclocks: {', '.join(clocks)}\nprinters, one stopped: {', '.join(after)}")
    return 0 if (len(before), len(clocks), len(after)) == (2, 1, 1) else 1


def main() -> int:
    assert __doc__ is not None
    head, usage = __doc__.split("\n\n")[:2]
    parser = argparse.ArgumentParser(description=head, usage=usage.strip())
    parser.add_argument("word", nargs="?", choices=("offer", "find"))
    parser.add_argument("services", nargs="*")
    parser.add_argument("--interface")
    options = parser.parse_args()
    if options.word == "offer":
        pairs = [service.partition("=") for service in options.services]
        if not pairs or not all(equals for _, equals, _ in pairs):
            parser.error("offer wants SERVICE=ENDPOINT")
        return offer({service: endpoint for service, _, endpoint in pairs}, options.interface)
    if options.word == "find":
        if len(options.services) != 1:
            parser.error("find wants one SERVICE")
        return find(options.services[0], options.interface)
    return shown()


if __name__ == "__main__":
    sys.exit(main())
