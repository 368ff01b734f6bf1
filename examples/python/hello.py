#!/usr/bin/env python3
"""Joins the group chat and answers each shout there by a whisper, until Ctrl-C."""
import contextlib
import zre

with contextlib.suppress(KeyboardInterrupt), zre.Node("Echo", {"X-LANG": "en"}) as node:
    node.join("chat")
    for event in node:
        print(event)
        if isinstance(event, zre.Shout):
            node.whispers(event.peer, "heard %d octets", sum(map(len, event.content)))
