"""How the tools run the program, read their files, write and end."""
import os
import subprocess
import sys
from typing import Callable, List, Sequence

from .words import plain, plain_text

TOP = os.path.dirname(os.path.dirname(os.path.dirname(os.path.realpath(__file__))))
# $ZRE, else that of this checkout; where the tools are installed, that on the path.
LAUNCHER = os.path.join(TOP, "zre")
PROGRAM = os.environ.get("ZRE") or (LAUNCHER if os.path.isfile(LAUNCHER) else "zre")


class Trouble(Exception):
    """Why a tool can't do what it was asked, in one line, and its exit status."""

    def __init__(self, text: str, status: int = 1) -> None:
        super().__init__(text)
        self.status = status


class Refused(Trouble):
    """The program found its input bad: what it wrote before that, and its line BADINPUT."""

    def __init__(self, line: bytes, before: bytes) -> None:
        super().__init__(plain(line))
        self.place = [int(number) for number in line.split(b" ")[1:]]
        self.before = before


def run(words: Sequence[str], given: bytes) -> bytes:
    """What the program writes of its input. Bad input is `Refused`."""
    try:
        ended = subprocess.run([PROGRAM, *words], input=given, stdout=subprocess.PIPE, stderr=subprocess.PIPE,
                               check=False)
    except OSError as error:
        raise Trouble(f"{PROGRAM} can't be run: {error.strerror}") from None
    if ended.returncode not in (2, 3):
        # of bad words and bad input the tool tells by itself
        sys.stderr.write(ended.stderr.decode(errors="replace"))
    if ended.returncode == 3:
        before, line = split_last(ended.stdout)
        raise Refused(line, before)
    if ended.returncode == 2:
        raise Trouble(f"USAGE: these are no words of `zre {words[0]}`: {plain_text(' '.join(words[1:]))}", 2)
    if ended.returncode != 0:
        raise Trouble(f"`zre {words[0]}` ended with the status {ended.returncode}")
    return ended.stdout


def split_last(text: bytes) -> List[bytes]:
    """The lines before the last one, with their ends, and the last one without its end."""
    at = text.rstrip(b"\n").rfind(b"\n") + 1
    return [text[:at], text[at:].rstrip(b"\n")]


def read_file(name: str) -> bytes:
    """The octets of a file; of standard input where the name is `-`."""
    try:
        if name == "-":
            return sys.stdin.buffer.read()
        with open(name, "rb") as file:
            return file.read()
    except OSError as error:
        raise Trouble(f"{name}: {error.strerror}") from None


def warn(tool: str, text: str) -> None:
    """A line on standard error."""
    print(f"{tool}: {text}", file=sys.stderr)


def ended(tool: str, work: Callable[[], str]) -> int:
    """Writes the text that the work gives; the answer is the exit status. Nothing is written where the work fails, and
    its reason is then on standard error."""
    try:
        text = work()
    except Refused as refused:
        print(refused, file=sys.stderr)
        return refused.status
    except Trouble as trouble:
        warn(tool, str(trouble))
        return trouble.status
    return written(text)


def written(text: str) -> int:
    """Writes text to standard output; the answer is the exit status: 0, or 5 where writing failed."""
    try:
        sys.stdout.buffer.write(text.encode("utf-8", "backslashreplace"))
        sys.stdout.buffer.flush()
    except OSError:
        os.dup2(os.open(os.devnull, os.O_WRONLY), 1)
        return 5
    return 0
