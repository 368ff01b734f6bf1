"""The places of a source where something is done: each statement, arm and closure of its functions, with its lines.

A copy of the source has a call `hit(N)` at each place, so that a run of it can tell which lines it reached. Contracts,
ghost items and the bodies of macros have no places.
"""
from __future__ import annotations

import re
from typing import Dict, List, NamedTuple, Optional, Tuple

TOKEN = re.compile(r"""(?P<space>\s+|//[^\n]*)
    |(?P<text>b?"(?:\\.|[^"\\])*"|b?'(?:\\(?:x[0-9a-fA-F]{2}|u\{[^}]*\}|.)|[^\\'\n])'|\d[\w.]*\b)
    |(?P<label>'[a-z_]\w*)
    |(?P<word>\w[\w']*)
    |(?P<mark>=>|->|::|\.\.=?|&&|\|\||[=!<>+*/-]=|.)""", re.VERBOSE | re.DOTALL)
OPEN, CLOSE = ("(", "[", "{"), (")", "]", "}")
ENDS = (*CLOSE, ";", ",")
CLAUSES = ("requires", "ensures")
ITEMS = ("use", "const", "static", "ghost", "macro_rules")
BLOCK_LIKE = ("if", "match", "for", "while", "loop", "unsafe", "{")
# How many tokens are looked at ahead.
AHEAD = 3
KEYWORDS = ("return", "else", "move", "in", "loop", "unsafe", "break", "=>")
# A line with nothing but these does nothing.
IDLE = frozenset([*OPEN, *CLOSE, ";", ",", "?", ".", "else"])
# The macros of which a block is a part that is run.
WITH_BLOCK = ("for_members",)


class Token(NamedTuple):
    """A token: its text, whether it is a name or a literal, and where it begins."""
    text: str
    is_word: bool
    start: int
    line: int


class Place(NamedTuple):
    """A place: its function, and the line where it begins."""
    function: str
    line: int


def tokens_of(text: str) -> List[Token]:
    found, line = [], 1
    for token in TOKEN.finditer(text):
        if token.lastgroup != "space":
            found.append(Token(token[0], token.lastgroup in ("word", "text"), token.start(), line))
        line += token[0].count("\n")
    return found


class Places:
    """The places of a source, numbered from `first` on: `found`, and for each line that does something the number of
    the place that it belongs to: `lines`."""

    def __init__(self, text: str, first: int, hit: str) -> None:
        self.text, self.first, self.hit = text, first, hit
        self.tokens = [*tokens_of(text), *[Token("", False, len(text), 0)] * AHEAD]
        self.found: List[Place] = []
        self.lines: Dict[int, int] = {}
        self.added: List[Tuple[int, str]] = []
        self.function = ""
        self._items()

    def counted(self) -> str:
        """The source with its calls."""
        pieces, before = [], 0
        for at, text in sorted(self.added, key=lambda one: one[0]):
            pieces += [self.text[before:at], text]
            before = at
        return "".join([*pieces, self.text[before:]])

    # What all of it is made of

    def _is(self, at: int, *texts: str) -> bool:
        return self.tokens[at].text in texts

    def _place(self, at: int) -> int:
        """A new place, which begins with this token."""
        self.found.append(Place(self.function, self.tokens[at].line))
        return self.first + len(self.found) - 1

    def _add(self, at: int, text: str, is_behind: bool = False) -> None:
        """Puts a text before a token, or right behind it."""
        token = self.tokens[at]
        self.added.append((token.start + (len(token.text) if is_behind else 0), text))

    def _call(self, place: int) -> str:
        return f"{self.hit}({place}); "

    def _own(self, at: int, place: int) -> int:
        """A token belongs to a place; the one after it."""
        token = self.tokens[at]
        if token.text not in IDLE:
            self.lines.setdefault(token.line, place)
        return at + 1

    def _past(self, at: int, place: Optional[int] = None) -> int:
        """The token after a group, which has no places of its own."""
        depth = 0
        while True:
            depth += self._is(at, *OPEN) - self._is(at, *CLOSE)
            at = at + 1 if place is None else self._own(at, place)
            if depth == 0:
                return at

    def _until(self, at: int, *texts: str, place: Optional[int] = None) -> int:
        """The first token with one of these texts outside of groups."""
        while not self._is(at, *texts):
            at = self._past(at, place)
        return at

    # Items

    def _items(self) -> None:
        at = 0
        while at < len(self.tokens) - AHEAD:
            if self._is(at, "#") and self._is(at + 1, "[", "!"):
                at = self._past(at + 1 + self._is(at + 1, "!"))
            elif self._is(at, *ITEMS) and not self._is(at + 1, "fn"):
                at = self._item(at)
            elif self._is(at, "fn") and self.tokens[at + 1].is_word:
                at = self._function(at)
            else:
                at += 1

    def _item(self, at: int) -> int:
        """The token after an item or a ghost field, which have no places."""
        if self._is(at, "macro_rules"):
            return self._past(self._until(at, "{"))
        at = self._until(at, ";", ",", "}")
        return at if self._is(at, "}") else at + 1

    def _function(self, at: int) -> int:
        outer, self.function = self.function, self.tokens[at + 1].text
        at = self._body(at)
        at = self._block(at) if self._is(at, "{") else at + 1
        self.function = outer
        return at

    def _body(self, at: int) -> int:
        """Where a body begins, or the head of a function without one ends: past its clauses."""
        at = self._until(at, "{", ";", *CLAUSES)
        while self._is(at, *CLAUSES):
            at = self._until(self._past(self._until(at, "{")), "{", ";", *CLAUSES)
        return at

    # Statements

    def _block(self, at: int) -> int:
        at += 1
        while not self._is(at, "}"):
            at = self._statement(at)
        return at + 1

    def _statement(self, at: int) -> int:
        if self._is(at, ";"):
            return at + 1
        if self._is(at, "#"):
            return self._past(at + 1)
        if self._is(at, "fn"):
            return self._function(at)
        if self._is(at, *ITEMS):
            return self._item(at)
        place = self._place(at)
        self._add(at, self._call(place))
        is_label = self._is(at + 1, ":") and self.tokens[at].text.startswith("'")
        head = at + 2 if is_label else at
        if self._is(head, *BLOCK_LIKE):
            at = self._unit(head, place)
            if not self._is(at, ".", "?"):
                return at
        at = self._expression(at, place)
        if not self._is(at, ";", "}"):
            raise ValueError(f"line {self.tokens[at].line}: {self.tokens[at].text!r} ends no statement")
        return at

    # Expressions

    def _expression(self, at: int, place: int, ends: Tuple[str, ...] = ENDS) -> int:
        """The first token after an expression: one of these."""
        while not self._is(at, *ends):
            at = self._unit(at, place)
        return at

    def _unit(self, at: int, place: int) -> int:
        """The token after a part of an expression: a token, a group, or a whole `if` or `match`."""
        token = self.tokens[at]
        if token.text in ("if", "while", "match"):
            at = self._expression(self._own(at, place), place, ("{",))
            return self._arms(at) if token.text == "match" else self._otherwise(self._block(at), place)
        if token.text == "let":
            return self._until(at, "=", ";", place=place)
        if token.text == "for":
            at = self._until(at, "in", place=place)
            return self._block(self._expression(at + 1, place, ("{",)))
        if token.text == "{":
            return self._members(at, place) if self._is_literal(at) else self._block(at)
        if token.text in ("(", "["):
            return self._members(at, place)
        if token.text in ("|", "||") and self._begins_closure(at):
            return self._closure(at, place)
        if token.text == "::" and self._is(at + 1, "<"):
            return self._types(at + 1, place)
        if self._is(at + 1, "!") and token.is_word and self._is(at + 2, *OPEN):
            return self._macro(at, place)
        return self._own(at, place)

    def _otherwise(self, at: int, place: int) -> int:
        """What follows the block of an `if`."""
        if not self._is(at, "else"):
            return at
        return self._unit(at + 1, place)

    def _is_literal(self, at: int) -> bool:
        """Whether a brace begins the fields of a value, not a block."""
        before = self.tokens[at - 1]
        return before.is_word and before.text not in KEYWORDS

    def _members(self, at: int, place: int) -> int:
        """A group of expressions."""
        at = self._own(at, place)
        while not self._is(at, *CLOSE):
            at = self._expression(at, place)
            if self._is(at, ",", ";"):
                at += 1
        return at + 1

    def _types(self, at: int, place: int) -> int:
        """The token after a list of types in angle brackets."""
        depth = 0
        while True:
            depth += self._is(at, "<") - self._is(at, ">")
            at = self._own(at, place)
            if depth == 0:
                return at

    def _begins_closure(self, at: int) -> bool:
        before = self.tokens[at - 1]
        return before.text in KEYWORDS or not (before.is_word or before.text in (*CLOSE, "?", ">"))

    def _closure(self, at: int, outer: int) -> int:
        at = at + 1 if self._is(at, "||") else self._until(at + 1, "|", place=outer) + 1
        if self._is(at, "{", "->", *CLAUSES):
            return self._block(self._body(at))
        return self._wrapped(at, self._place(at))

    def _wrapped(self, at: int, place: int) -> int:
        """An expression that a block with a call is put around."""
        self._add(at, f"{{ {self._call(place)}")
        at = self._expression(at, place)
        self._add(at - 1, " }", is_behind=True)
        return at

    def _arms(self, at: int) -> int:
        at += 1
        while not self._is(at, "}"):
            place = self._place(at)
            at = self._until(at, "=>", place=place) + 1
            if self._is(at, "{"):
                self._add(at, self._call(place), is_behind=True)
                at = self._block(at)
            else:
                at = self._wrapped(at, place)
            at += self._is(at, ",")
        return at + 1

    def _macro(self, at: int, place: int) -> int:
        end = self._past(at + 2)
        at = self._own(at, place)
        while at < end:
            is_block = self.tokens[at].text == "{" and self._is(at - 1, "=>")
            if is_block and any(self._is(back, *WITH_BLOCK) for back in range(at - 8, at)):
                at = self._block(at)
            else:
                at = self._own(at, place)
        return end
