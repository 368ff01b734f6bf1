"""A draft of zre_cases that tells which places of the sources a run reaches."""
from __future__ import annotations

import glob
import os
import re
import shutil
import subprocess
import tempfile
from typing import Dict, Iterable, List, NamedTuple, Set, Tuple

import many  # in fuzz.d
from places import Places  # beside this file
from pools import Case

TOP = os.path.dirname(os.path.dirname(os.path.dirname(os.path.realpath(__file__))))
# The lowest crate, and what is added to it: each place calls it.
LOWEST, HIT = "zre_values", "\n#[inline(never)]\npub fn hit(place: u32) {\n    let _ = place;\n}\n"


class Line(NamedTuple):
    """A line of code: its file, its number, its function, the place by which it is reached, and whether `zre_cases` can
    call that function."""
    file: str
    number: int
    function: str
    place: int
    is_callable: bool

    @property
    def crate(self) -> str:
        return self.file.split("/")[0]


def crates() -> List[str]:
    """The crates that stand below zre_actor."""
    with open(os.path.join(TOP, "crates.txt"), encoding="ascii") as file:
        names = [line.split(":")[0] for line in file if re.match(r"[a-z_]+:", line)]
    return names[:names.index("zre_actor")]


def count_crate(folder: str, crate: str, first: int) -> Tuple[int, List[Line]]:
    """Puts calls into the sources of a crate; answers the number of the next place, and its lines."""
    found: List[Line] = []
    hit = "crate::hit" if crate == LOWEST else f"{LOWEST}::hit"
    for path in sorted(glob.glob(f"{folder}/{crate}/src/**/*.rt", recursive=True)):
        with open(path, encoding="utf-8") as file:
            places = Places(file.read(), first, hit)
        name = os.path.relpath(path, folder)
        found += [Line(name, line, places.found[place - first].function, place, False)
                  for line, place in sorted(places.lines.items())]
        first += len(places.found)
        with open(path, "w", encoding="utf-8") as file:
            file.write(places.counted() + (HIT if name == f"{LOWEST}/src/lib.rt" else ""))
    return first, found


def build(program: str) -> None:
    """Makes a draft of a copy of the sources with calls, and beside it the list of its lines."""
    first, lines = 0, []
    with tempfile.TemporaryDirectory(prefix="zre-places-") as room:
        folder, callable_ones = os.path.join(room, "crates"), os.path.join(room, "callable")
        shutil.copytree(os.path.join(TOP, "crates"), folder, ignore=shutil.ignore_patterns("out"))
        for name in ("crates.txt", "HANDLES"):
            shutil.copy(os.path.join(TOP, name), room)
        for crate in crates():
            first, more = count_crate(folder, crate, first)
            lines += more
        draft = [os.path.join(TOP, "scripts", "draft"), "--crate", "zre_cases", "--top", room]
        subprocess.run([*draft, "--places", callable_ones, "-o", program], check=True)
        with open(callable_ones, encoding="ascii") as file:
            may_call = set(map(int, file))
    with open(f"{program}.lines", "w", encoding="ascii") as file:
        file.writelines(f"{line.file} {line.number} {line.function} {line.place} {int(line.place in may_call)}\n"
                        for line in lines)


class Counted:
    """A program that counts its places."""

    def __init__(self, program: str, folder: str) -> None:
        self.program, self.told, self.cases = program, os.path.join(folder, "places"), os.path.join(folder, "cases")
        with open(f"{program}.lines", encoding="ascii") as file:
            rows = [line.split() for line in file]
        self.lines = [Line(name, int(number), function, int(place), is_callable == "1")
                      for name, number, function, place, is_callable in rows]
        self.by_place: Dict[int, Line] = {line.place: line for line in reversed(self.lines)}

    def reached(self, cases: Iterable[Case], output: str = os.devnull, **more: str) -> Set[int]:
        """The places of lines that a run over the cases reaches."""
        with open(self.cases, "wb") as file:
            file.write(b"".join(map(many.packed, cases)))
        with open(self.cases, "rb") as given, open(output, "wb") as written:
            subprocess.run([self.program], stdin=given, stdout=written, check=output == os.devnull and not more,
                           env={**os.environ, "PLACES": self.told, **more})
        with open(self.told, encoding="ascii") as told:
            return {int(place) for place in told} & self.by_place.keys()

    def refused(self, case: Case) -> Set[int]:
        """The places that are reached where one allocation after the other is refused."""
        return self.reached([case], REFUSED=self.cases)

    def reached_by_all(self, cases: List[Case]) -> Set[int]:
        """The places that the cases reach, and what a run reaches whose output has no room."""
        return self.reached(cases) | self.reached(cases[:1], "/dev/full")
