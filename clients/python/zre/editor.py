"""A line that is edited in the last row of a terminal, while other lines come above it.

The line never takes more than one row: a longer one is shown in part, round the cursor. So it can be taken off and
drawn again at any time.
"""
import os
import shutil
import termios
import tty
import unicodedata
from contextlib import contextmanager
from typing import Callable, Iterator, List, Optional

# Keys by the octets that terminals send for them.
_KEYS = {
    b"\x1b[D": "left", b"\x1bOD": "left", b"\x02": "left",
    b"\x1b[C": "right", b"\x1bOC": "right", b"\x06": "right",
    b"\x1b[A": "up", b"\x1bOA": "up", b"\x10": "up",
    b"\x1b[B": "down", b"\x1bOB": "down", b"\x0e": "down",
    b"\x1b[H": "home", b"\x1bOH": "home", b"\x1b[1~": "home", b"\x1b[7~": "home", b"\x01": "home",
    b"\x1b[F": "end", b"\x1bOF": "end", b"\x1b[4~": "end", b"\x1b[8~": "end", b"\x05": "end",
    b"\x7f": "rub", b"\x08": "rub", b"\x1b[3~": "delete", b"\x0b": "cut", b"\x15": "clear", b"\x17": "word",
    b"\r": "enter", b"\n": "enter", b"\t": "tab", b"\x0c": "redraw", b"\x03": "break", b"\x04": "eof",
}  # fmt: skip
_HISTORY = 500  # Lines that are remembered.


def width(text: str) -> int:
    """The columns that a text takes."""
    return sum(_columns(character) for character in text)


def _columns(character: str) -> int:
    if unicodedata.combining(character) or unicodedata.category(character) in ("Cf", "Mn", "Me"):
        return 0
    return 2 if unicodedata.east_asian_width(character) in "WF" else 1


@contextmanager
def keys_alone(terminal: int) -> Iterator[None]:
    """The terminal hands over each key at once, and shows none by itself."""
    before = termios.tcgetattr(terminal)
    try:
        tty.setraw(terminal, termios.TCSADRAIN)
        yield
    finally:
        termios.tcsetattr(terminal, termios.TCSADRAIN, before)


class Editor:
    """The line, its cursor, and the lines before it. `complete` gives what may stand for the text before the cursor."""

    def __init__(self, terminal: int, complete: Callable[[str], List[str]]) -> None:
        self._terminal, self._complete = terminal, complete
        self.prompt = "> "
        self._line, self._at, self._from = "", 0, 0
        self._history: List[str] = []
        self._place = 0  # in the history; its length stands for the line that is new
        self._new = ""
        self._unread = b""

    # ---- The screen ----

    def _put(self, text: str) -> None:
        octets = text.encode("utf-8", "backslashreplace")
        while octets:
            octets = octets[os.write(self._terminal, octets) :]

    def show(self, text: str) -> None:
        """Puts a line above the one that is edited."""
        self._put(f"\r\x1b[K{text}\r\n{self._drawn()}")

    def draw(self) -> None:
        """Draws the line that is edited."""
        self._put(self._drawn())

    def clear(self) -> None:
        """Takes the line off the screen."""
        self._put("\r\x1b[K")

    def _drawn(self) -> str:
        """The part of the line that fits, with the cursor in it."""
        space = max(8, shutil.get_terminal_size().columns - width(self.prompt) - 1)
        self._from = min(self._from, self._at)
        while width(self._line[self._from : self._at]) > space:
            self._from += 1
        to = self._at
        while to < len(self._line) and width(self._line[self._from : to + 1]) <= space:
            to += 1
        behind = width(self._line[self._at : to])
        return f"\r\x1b[K{self.prompt}{self._line[self._from:to]}" + (f"\x1b[{behind}D" if behind else "")

    # ---- The keys ----

    def read(self) -> Iterator[Optional[str]]:
        """The lines that the keys pressed so far finish; None where the user wants to go. Draws what they change."""
        octets = os.read(self._terminal, 4096)
        if not octets:
            yield None
            return
        self._unread += octets
        while self._unread:
            key = self._next()
            if not key:
                break
            if key == "enter":
                line, self._line, self._at = self._line, "", 0
                if line and self._history[-1:] != [line]:
                    self._history = (self._history + [line])[-_HISTORY:]
                self._place = len(self._history)
                yield line
            elif key == "break" or (key == "eof" and not self._line):
                yield None
            else:
                self._press(key)
        self.draw()

    def _next(self) -> str:
        """The next key by its name, or a character; nothing where its octets aren't whole, and "none" for others."""
        if self._unread.startswith(b"\x1b"):
            return self._next_escape()
        if self._unread[:1] in _KEYS:
            name, self._unread = _KEYS[self._unread[:1]], self._unread[1:]
            return name
        first = self._unread[0]
        size = 1 if first < 0xC0 else 2 if first < 0xE0 else 3 if first < 0xF0 else 4
        if len(self._unread) < size:
            return ""
        character, self._unread = self._unread[:size].decode("utf-8", "replace"), self._unread[size:]
        return character if character.isprintable() and len(character) == 1 else "none"

    def _next_escape(self) -> str:
        for size in range(2, 9):
            if self._unread[:size] in _KEYS:
                name, self._unread = _KEYS[self._unread[:size]], self._unread[size:]
                return name
        end = 1
        if self._unread[1:2] in (b"[", b"O"):
            end = 2
            while end < len(self._unread) and not 0x40 <= self._unread[end] <= 0x7E:
                end += 1
        self._unread = self._unread[end + 1 :]
        return "none"

    def _press(self, key: str) -> None:
        """What a key does to the line."""
        line, at = self._line, self._at
        if len(key) == 1:
            self._line, self._at = line[:at] + key + line[at:], at + 1
        elif key == "left":
            self._at = max(0, at - 1)
        elif key == "right":
            self._at = min(len(line), at + 1)
        elif key == "home":
            self._at = 0
        elif key == "end":
            self._at = len(line)
        elif key == "rub":
            self._line, self._at = line[: max(0, at - 1)] + line[at:], max(0, at - 1)
        elif key in ("delete", "eof"):
            self._line = line[:at] + line[at + 1 :]
        elif key == "cut":
            self._line = line[:at]
        elif key == "clear":
            self._line, self._at = line[at:], 0
        elif key == "word":
            kept = line[:at].rstrip()
            kept = kept[: kept.rfind(" ") + 1]
            self._line, self._at = kept + line[at:], len(kept)
        elif key in ("up", "down"):
            self._recall(-1 if key == "up" else 1)
        elif key == "tab":
            self._finish_word()

    def _recall(self, step: int) -> None:
        place = self._place + step
        if not 0 <= place <= len(self._history):
            return
        if self._place == len(self._history):
            self._new = self._line
        self._place = place
        self._line = self._new if place == len(self._history) else self._history[place]
        self._at = len(self._line)

    def _finish_word(self) -> None:
        """Completes the text before the cursor as far as all that may stand there agree, else shows them."""
        before = self._line[: self._at]
        found = self._complete(before)
        if not found:
            return
        common = os.path.commonprefix(found)
        if len(found) > 1 and common == before:
            self.show("    " + "   ".join(text[before.rfind(" ") + 1 :] for text in found))
        self._line, self._at = common + self._line[self._at :], len(common)
