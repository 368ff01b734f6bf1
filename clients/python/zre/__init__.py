"""Nodes of the ZeroMQ Realtime Exchange Protocol (RFC 36/ZRE) for Python programs, over the program `zre`.

`Node` for programs with threads or with none, `zre.aio.Node` for asyncio; `python3 -m zre node`, `hub` and `talk` for
people and programs. `zre.lines` and `zre.quoting` read and write the program's lines.
"""
from .events import (
    Cause,
    Closed,
    Enter,
    Evasive,
    Event,
    Exit,
    Ignored,
    Join,
    Leave,
    PeerEvent,
    Refused,
    Shout,
    Stop,
    Whisper,
)
from .lines import BadLine
from .network import NoInterface
from .node import Node
from .session import Full, NodeDied, NodeError, NotRunning
from .settings import NoProgram

__version__ = "1.0.0"
__all__ = [
    "BadLine",
    "Cause",
    "Closed",
    "Enter",
    "Evasive",
    "Event",
    "Exit",
    "Full",
    "Ignored",
    "Join",
    "Leave",
    "NoInterface",
    "NoProgram",
    "Node",
    "NodeDied",
    "NodeError",
    "NotRunning",
    "PeerEvent",
    "Refused",
    "Shout",
    "Stop",
    "Whisper",
]
