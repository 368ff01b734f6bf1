"""Many cases in one process: what the program `zre_cases` answers, and what must hold of that."""
from __future__ import annotations

import random
import re
import struct
import subprocess
import time
from dataclasses import dataclass
from functools import lru_cache
from typing import Callable, Dict, Iterator, List, NamedTuple, Optional, Tuple

import checked  # beside this file
import pools
from pools import Case

Answer = Tuple[int, bytes]
# How many cases a process takes, from how many whole inputs they are made, how long it may run, and of how many cases
# the program itself is started for one.
BATCH, BASES, LIMIT, SAMPLE = 4000, 40, 120, 500
# After so many cases a line says that they are done.
TELL = 200_000
TEXT = re.compile(rb"(?:(?!BADINPUT)[!-~]+(?: [!-~]+)*\n)*")
REFUSAL = re.compile(rb"BADINPUT [0-9]+(?: [0-9]+)?\n")
# What these commands write of a beginning of the input isn't a beginning of the text.
AT_THE_END = (b"table", b"audit", b"simulate")

# The second reading: the text and the status of words over an input.
Second = Callable[[List[bytes], bytes], Tuple[bytes, int]]


class Found(NamedTuple):
    """A case of which something doesn't hold, and what."""
    which: int
    case: Case
    what: str


def sized(octets: bytes) -> bytes:
    return struct.pack(">I", len(octets)) + octets


@lru_cache
def packed_words(words: Tuple[bytes, ...]) -> bytes:
    return bytes([len(words)]) + b"".join(map(sized, words))


def packed(case: Case) -> bytes:
    """A case as `zre_cases` reads it."""
    return packed_words(case.words) + bytes([case.most]) + sized(case.octets)


@dataclass(eq=False)
class Ended(Exception):
    """The program ended before it answered all cases; at which one, and how."""
    at: int
    how: str


def answers(program: str, cases: List[Case]) -> List[Answer]:
    """What the program answers to each."""
    with subprocess.Popen([program], stdin=subprocess.PIPE, stdout=subprocess.PIPE) as process:
        try:
            text, _ = process.communicate(b"".join(map(packed, cases)), LIMIT)
        except subprocess.TimeoutExpired:
            process.kill()
            text, _ = process.communicate()
    told, at = [], 0
    while at + 5 <= len(text):
        status, size = struct.unpack_from(">BI", text, at)
        if at + 5 + size > len(text):
            break
        told.append((status, text[at + 5:at + 5 + size]))
        at += 5 + size
    if process.returncode or len(told) != len(cases):
        raise Ended(len(told), f"status {process.returncode}")
    return told


def unrefused(case: Case, answer: Answer) -> bytes:
    """The text without the line of a refusal. It is whole lines, and the status is that of the text."""
    status, text = answer
    lines = TEXT.match(text)
    assert lines is not None  # no line matches too
    end = lines.end()
    if status == 0 and end == len(text):
        return text
    if status == 3 and REFUSAL.fullmatch(text, end):
        return text[:end]
    if status == 2 and text == b"USAGE\n" and case.words not in READ:
        return text
    raise checked.Wrong(f"status {status}, and of {len(text)} octets of text the first {end} are whole lines")


# The words that are in a command's list without any doubt.
READ = {tuple(word.encode() for word in words) for words in pools.ALL}


def begun(chance: random.Random, case: Case) -> Case:
    """A beginning of the input of a case, whole."""
    return Case(case.words, 0, case.octets[:int(chance.random() * len(case.octets))])


class Judges(NamedTuple):
    """What answers are compared with: the program itself, for some cases, others of the kind of `zre_cases`, and the
    second reading."""
    program: Optional[str] = None
    others: Tuple[str, ...] = ()
    second: Optional[Second] = None


class Many:
    """Batches of cases by a seed."""

    def __init__(self, cases: str, seed: int, judges: Judges) -> None:
        self.cases, self.seed, self.judges = cases, seed, judges
        self.files = pools.kept("corpus") + pools.kept("data")
        self.counts: Dict[str, int] = {}

    def count(self, what: str, more: int) -> None:
        self.counts[what] = self.counts.get(what, 0) + more

    def made(self, batch: int) -> Tuple[random.Random, List[Case]]:
        """The cases of a batch, and the chance after them."""
        chance = random.Random(f"{self.seed} {batch}")
        bases = pools.some_bases(chance, BASES, self.files)
        return chance, [pools.a_case(chance, bases) for _ in range(BATCH)]

    def tried(self, batch: int, only: Optional[int] = None) -> Iterator[Found]:
        """Tries the cases of a batch, or one of them, and yields what is wrong."""
        chance, cases = self.made(batch)
        beginnings = [begun(chance, case) for case in cases]
        first = batch * BATCH
        if only is not None:
            cases, beginnings, first = [cases[only]], [beginnings[only]], first + only
        try:
            found = list(self.wrong(cases, beginnings))
        except Ended as ended:
            found = [(ended.at % len(cases), f"the program ends before its answer: {ended.how}")]
        self.count("cases", len(cases))
        for at, what in found:
            yield Found(first + at, cases[at], what)

    def wrong(self, cases: List[Case], beginnings: List[Case]) -> Iterator[Tuple[int, str]]:
        """What is wrong, each with the place of its case."""
        whole = [Case(case.words, 0, case.octets) for case in cases]
        told = answers(self.cases, whole)
        in_pieces, shorter = answers(self.cases, cases), answers(self.cases, beginnings)
        for at, case in enumerate(cases):
            try:
                self.judge(case, told[at], in_pieces[at], shorter[at])
            except checked.Wrong as wrong:
                yield at, str(wrong)
        yield from self.of_upgraded(cases, told)
        for other in self.judges.others:
            self.count(f"all, compared with {other}", len(cases))
            pairs = enumerate(zip(answers(other, whole), told))
            yield from ((at, f"{other} answers otherwise") for at, (one, two) in pairs if one != two)
        if self.judges.program:
            yield from self.of_program(self.judges.program, cases, told)
        if self.judges.second:
            yield from self.of_second(self.judges.second, cases, told)

    @staticmethod
    def judge(case: Case, told: Answer, in_pieces: Answer, shorter: Answer) -> None:
        """What holds of every answer, of pieces, and of a beginning."""
        text = unrefused(case, told)
        if told != in_pieces:
            raise checked.Wrong(f"in pieces of {case.most} octets the answer is another")
        if case.words[:1] and case.words[0] not in AT_THE_END and not text.startswith(unrefused(case, shorter)):
            raise checked.Wrong("the text of a beginning isn't the beginning of the text")
        if case.words[:1] == (b"replay",):
            checked.each_peer_is_there(text)

    def of_upgraded(self, cases: List[Case], told: List[Answer]) -> Iterator[Tuple[int, str]]:
        """A capture that can be upgraded is replayed to the same."""
        upgraded = [at for at, case in enumerate(cases) if case.words[:1] == (b"upgrade",) and told[at][0] == 0]
        before = answers(self.cases, [Case((b"replay", *cases[at].words[1:]), 0, cases[at].octets) for at in upgraded])
        after = answers(self.cases, [Case((b"replay",), 0, told[at][1]) for at in upgraded])
        for at, one, two in zip(upgraded, before, after):
            if one != two:
                yield at, "an upgraded capture is replayed to another text"

    def of_program(self, program: str, cases: List[Case], told: List[Answer]) -> Iterator[Tuple[int, str]]:
        """Some of the cases by the program itself."""
        for at in range(len(cases) % SAMPLE, len(cases), SAMPLE):
            words = [program.encode(), *cases[at].words]
            if any(b"\0" in word for word in cases[at].words):
                continue
            self.count("some, compared with the program started for each", 1)
            ran = subprocess.run(words, input=cases[at].octets, stdout=subprocess.PIPE, stderr=subprocess.DEVNULL,
                                 timeout=LIMIT, check=False)
            if (ran.returncode, ran.stdout) != told[at]:
                yield at, f"the program has status {ran.returncode} and {len(ran.stdout)} octets"

    def of_second(self, second: Second, cases: List[Case], told: List[Answer]) -> Iterator[Tuple[int, str]]:
        """What the second reading says otherwise."""
        for at, case in enumerate(cases):
            text, status = second(list(case.words), case.octets)
            name = case.words[0].decode("ascii", "replace") if status != 2 else "words that are no command"
            self.count(f"{name}, compared with the second reading", 1)
            if (status, text) != told[at]:
                yield at, f"the second reading has status {status} and {len(text)} octets, not {told[at][0]} and " \
                    f"{len(told[at][1])}"


def until(many: Many, seconds: float, most: int) -> Iterator[Found]:
    """What is wrong in the first batches, until the time is over or there were so many cases."""
    end, batch = time.monotonic() + seconds, 0
    while time.monotonic() < end and batch * BATCH < most:
        yield from many.tried(batch)
        batch += 1
        if batch * BATCH % TELL == 0:
            print(f"{batch * BATCH} cases so far", flush=True)
