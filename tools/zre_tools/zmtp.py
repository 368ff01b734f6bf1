"""Where the items of a ZMTP stream end: greeting, commands and messages. What they are is what `zre show` writes."""
from typing import List


def item_ends(octets: bytes) -> List[int]:
    """The place behind each greeting, command and whole message of a stream, in the order of the lines of `zre show`.
    It ends with the first that isn't whole or can't be read."""
    if len(octets) < 64:
        return []
    ends, at = [64], 64
    while at < len(octets):
        flags = octets[at]
        long = flags in (2, 3, 6)
        head = 9 if long else 2
        if flags not in (0, 1, 2, 3, 4, 6) or at + head > len(octets):
            break
        size = int.from_bytes(octets[at + 1 : at + head], "big")
        if at + head + size > len(octets):
            break
        at += head + size
        if flags not in (1, 3):
            ends.append(at)
    return ends
