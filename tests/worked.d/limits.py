"""Worked journals for the limits of a node: each at its value and one past it."""
from typing import Iterable, List, Sequence, Tuple

SIGNATURE = "ff00000000000000007f"
GREETING = SIGNATURE + "03004e554c4c" + "00" * 48
IDENTITY = "084964656e746974790000001101000102030405060708090a0b0c0d0e0f"
SOCKET_TYPE = "0552454144590b536f636b65742d5479706500000006444541" + "4c4552"
READY = "043a" + SOCKET_TYPE + IDENTITY
ID = "000102030405060708090A0B0C0D0E0F"
BEACON = "datagram 10.0.0.2 5a524501000102030405060708090a0b0c0d0e0fc000"
ENTER = f"ENTER {ID} Ann tcp://10.0.0.2:49152 %"
ENDPOINT = "147463703a2f2f31302e302e302e323a3439313532"
NOWHERE = "4" * 32


def size_of(octets: int) -> str:
    return f"{octets:016x}"


def long_string(text: str) -> str:
    return f"{len(text) // 2:08x}{text}"


def frame(body: str) -> str:
    """A frame of the long form."""
    return f"02{size_of(len(body) // 2)}{body}"


def hello(groups: Sequence[str] = (), headers: Sequence[Tuple[str, str]] = ()) -> str:
    body = f"aaa101020001{ENDPOINT}{len(groups):08x}{''.join(map(long_string, groups))}0003416e6e{len(headers):08x}"
    return frame(body + "".join(f"{len(name) // 2:02x}{name}{long_string(value)}" for name, value in headers))


def numbered(number: int) -> str:
    return f"{number:04d}".encode().hex()


def of_group(kind: str, number: int, group: str) -> str:
    return frame(f"aaa1{kind}02{number:04x}{len(group) // 2:02x}{group}01")


def entries(*pieces: str) -> List[str]:
    """A connection of the peer on which these come after its handshake."""
    return [f"0 {BEACON}", "0 opened 1", f"0 piece 1 {GREETING}{READY}{pieces[0]}",
            *(f"0 piece 1 {piece}" for piece in pieces[1:])]


def ends(cause: str) -> str:
    return f"EXIT {ID} Ann {cause}"


def joins(numbers: Iterable[int]) -> List[str]:
    return [f"JOIN {ID} Ann {number:04d}" for number in numbers]


GROUPS = [numbered(number) for number in range(1, 1026)]
HEADERS = [(numbered(number), "76") for number in range(1, 258)]
SHOWN = ",".join(f"{number:04d}=v" for number in range(1, 257))
OTHERS = [f"0 datagram 10.0.0.3 5a524501{'aa' * 14}{number:04x}c000" for number in range(1, 257)]
WHISPER = "0106aaa10202"
# A READY, and a PING, of 65,536 octets.
LONG_READY = f"06{size_of(65536)}{SOCKET_TYPE}{IDENTITY}0158{65536 - 64:08x}" + "00" * (65536 - 64)
LONG_PING = f"06{size_of(65536)}0450494e47" + "00" * (65536 - 5)

# What it shows, the entries, the lines that are written, and the exit status.
CASES: List[Tuple[str, List[str], List[str], int]] = [
    ("256 known peers, and one more", [*OTHERS, *entries(hello())], ["IGNORED 1 Full"], 0),
    ("255 known peers, and one more", [*OTHERS[1:], *entries(hello())], [ENTER], 0),
    ("512 connections, and one more",
     [f"0 opened {number}" for number in range(1, 514)] + ["0 shut 1", "0 opened 514", "0 opened 515"],
     ["CLOSED 513 TooMany", "CLOSED 515 TooMany"], 0),
    ("a message of 1,048,576 octets, and one of one more",
     entries(hello(), f"{WHISPER}0002{frame('77' * 1048570)}{WHISPER}000302{size_of(1048571)}"),
     [ENTER, f"WHISPER {ID} Ann {'w' * 1048570}", ends("fault"), "CLOSED 1 TooLarge 1048768"], 0),
    ("a message of 1,024 frames, and one of one more",
     entries(hello(), f"{WHISPER}0002{'0100' * 1022}0000{WHISPER}0003{'0100' * 1023}00"),
     [ENTER, f"WHISPER {ID} Ann ~{',~' * 1022}", ends("fault"), "CLOSED 1 TooManyFrames 4281"], 0),
    ("READY of 65,536 octets, and of one more",
     ["0 opened 1", f"0 piece 1 {GREETING}{LONG_READY}{hello()}", "0 opened 2",
      f"0 piece 2 {GREETING}06{size_of(65537)}"],
     [ENTER, "CLOSED 2 TooLarge 64"], 0),
    ("a command of 65,536 octets, and of one more",
     entries(hello(), LONG_PING, of_group("04", 2, "67"), f"06{size_of(65537)}"),
     [ENTER, f"JOIN {ID} Ann g", ends("fault"), "CLOSED 1 TooLarge 65736"], 0),
    ("1,024 groups of a peer, and JOIN of one more",
     entries(hello(GROUPS[:1024]), of_group("04", 2, GROUPS[7]), of_group("04", 3, GROUPS[1024])),
     [ENTER, *joins(range(1, 1025)), *joins([8]), ends("limit")], 0),
    ("1,025 groups of a peer", entries(hello(GROUPS)), ["IGNORED 1 Limit"], 0),
    ("a group of 255 octets", entries(hello(["67" * 255])), [ENTER, f"JOIN {ID} Ann {'g' * 255}"], 0),
    ("a group of 256 octets", entries(hello(["67" * 256])), ["IGNORED 1 Limit"], 0),
    ("256 headers of a peer", entries(hello(headers=HEADERS[:256])),
     [ENTER[:-1] + SHOWN], 0),
    ("257 headers of a peer", entries(hello(headers=HEADERS)), ["IGNORED 1 Limit"], 0),
    ("1,024 groups of the node, and one more",
     [f"0 do join {number:04d}" for number in range(1, 1026)] + ["0 do join 0001", "0 do leave 0001", "0 do join 1025"],
     ["REFUSED LIMIT 1025", "REFUSED SAME 0001"], 0),
    ("a message of 1,048,576 octets that goes out, and of one more",
     entries(hello()) + [f"0 do whisper {ID} " + "w" * 1048570, f"0 do whisper {ID} " + "w" * 1048571],
     [ENTER, "REFUSED TOOBIG"], 0),
    ("a message of 1,024 frames that goes out, and of one more",
     entries(hello()) + [f"0 do whisper {ID} ~{',~' * 1022}", f"0 do whisper {ID} ~{',~' * 1023}"],
     [ENTER, "REFUSED TOOBIG"], 0),
    ("4,194,304 octets that wait on a link, and one more",
     entries(hello()) + [f"0 do whisper {ID} " + "w" * 1048570] * 3
     + [f"0 do whisper {ID} " + "w" * 1048361, f"0 do whisper {ID} ~"],
     [ENTER, ends("slow 4194304 10")], 0),
]
