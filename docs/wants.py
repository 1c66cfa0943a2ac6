#!/usr/bin/env python3
"""Tells where docs/memory.md and the code differ: the page lists each function that answers want of memory by itself."""
import pathlib
import re
import sys

docs = pathlib.Path(__file__).resolve().parent
crates = docs.parent / "crates"
WANT = r"(?:\w+::Memory|AllocError)"
ANSWERS = re.compile(rf"Err\({WANT}\)(?! =>)|, AllocError\)\)|\|_\| {WANT}|ok_or\(AllocError\)|(?:reason|made|status): {WANT}"
                     rf"|unwrap_or\({WANT}\)|close\({WANT}\)|=> {WANT}|^\s+{WANT}$|without_run\(alloc, {WANT}\)")

TURNS = re.compile(rf"\b(?:Err\()?(?:{WANT}|ErrorKind::OutOfMemory)\)? => ")  # one word for it becomes another


def answers():
    """Each place of the code that makes the answer: its file and its function. What turns one word for it into another is none."""
    for path in sorted(crates.glob("*/src/**/*.rt")):
        place, name = path.relative_to(crates).as_posix(), None
        if path.name == "tests.rt" or place.split("/")[0].endswith("_tests"):
            continue
        for line in path.read_text().splitlines():
            found = re.match(r"\s*(?:pub(?:\([\w ]+\))? )?(?:const )?(?:unsafe )?fn (\w+)", line)
            name = found[1] if found else name
            if ANSWERS.search(line) and not TURNS.search(line) and name != "from" and not line.lstrip().startswith("//"):
                yield place, name


def faults():
    there = set(answers())
    listed = set(re.findall(r"^\| `([\w/.]+)` `(\w+)` \|", (docs / "memory.md").read_text(), re.M))
    for place, name in sorted(there - listed):
        yield f"memory.md does not list {name} of {place}, which answers want of memory by itself"
    for place, name in sorted(listed - there):
        yield f"memory.md lists {name} of {place}, which makes no such answer"


if __name__ == "__main__":
    found = list(faults())
    print(*found, sep="\n", end="\n" if found else "")
    sys.exit(bool(found))
