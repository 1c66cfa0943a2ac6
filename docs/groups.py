#!/usr/bin/env python3
"""The crates by the groups of crates.txt, for the scripts that make pages; and ./docs/groups.py tells where two pages do not follow them.
docs/promises.md has the headings `### GROUP` of crates.txt, in that order (others may follow), and the tables below a heading list the crates of
its group, and no others. A row whose first cell is empty goes on with the crate before, and the calls in the last cells have to be in their crate.
docs/architecture.md has one row for each group, with its crates in the order of crates.txt."""
import pathlib
import re
import sys

docs = pathlib.Path(__file__).resolve().parent
top = docs.parent
PROMISES, MAP = docs / "promises.md", docs / "architecture.md"


def groups():
    """The crates of each group in their order. A line of comment alone between blank lines and crates is the group's name."""
    found, name = {}, None
    for line in (top / "crates.txt").read_text().splitlines():
        if line.startswith("#"):
            name = line.lstrip("# ")
        elif line.strip():
            found.setdefault(name, []).append(line.split(":")[0].split()[0])
    return found


def order():
    """All crates in the order of crates.txt."""
    return [crate for crates in groups().values() for crate in crates]


def section(page, begin):
    """What stands below a heading of the second level, by headings of the third: the crates in the first cells of the tables."""
    text = page.read_text().partition(f"\n{begin}\n")[2].partition("\n## ")[0]
    parts = re.split(r"\n### (.*)\n", "\n" + text)
    rows = (re.findall(r"^\| ([^|]*) \|", part, re.M) for part in parts[2::2])
    return {name: [word for row in table for word in re.findall(r"`(\w+)`", row)] for name, table in zip(parts[1::2], rows)}


def words_of(crate):
    """The words of the code and of the laws of a crate, and the names of its files."""
    files = [*top.glob(f"crates/{crate}/src/**/*.rt"), *top.glob(f"crates/{crate}/specs/**/*.antt")]
    lines = (line for path in files for line in path.read_text().splitlines() if not line.lstrip().startswith(("//", "--")))
    return {path.stem for path in files} | {word for line in lines for word in re.findall(r"\w+", line)}


def strange_calls(page):
    """The calls in the last cells of rows of four cells that are not in the crate of their row, or in the one that the cell names. A row
    whose first cell is empty goes on with the crate of the row before."""
    crate, known = None, {name: None for name in order()}
    for row in re.findall(r"^\| (.*) \|$", page.read_text(), re.M):
        cells = re.split(r"(?<!\\)\|", row)
        marks = re.findall(r"`([^`]+)`", cells[-1])
        crate = next(iter(re.findall(r"`(\w+)`", cells[0])), None) or (crate if not cells[0].strip() else None)
        if len(cells) != 4 or crate not in known:
            continue
        homes = [crate, *(name for mark in marks for name in re.split(r"::", mark) if name in known)]
        for home in homes:
            known[home] = known[home] or words_of(home)
        for word in (word for mark in marks for word in re.findall(r"\w+", mark)):
            if word not in known and not any(word in known[home] for home in homes):
                yield f"{page.name}: {word} in a row of {crate} is in no code of {', '.join(dict.fromkeys(homes))}"


def faults():
    wanted = groups()
    yield from strange_calls(PROMISES)
    told = section(PROMISES, "## Crate by crate")
    if list(told)[:len(wanted)] != list(wanted):
        yield f"{PROMISES.name}: the headings below 'Crate by crate' are {', '.join(told)}, and the groups of crates.txt {', '.join(wanted)}"
    for name in set(told) & set(wanted):
        if sorted(told[name]) != sorted(wanted[name]):
            differ = ", ".join(sorted(set(told[name]) ^ set(wanted[name]))) or "a crate twice"
            yield f"{PROMISES.name}: the tables of '{name}' and the group of crates.txt differ by {differ}"
    rows = {name: re.findall(r"`(\w+)`", crates) for name, crates in re.findall(r"^\| \[([^\]]*)\].* \| ([^|]*) \|$", MAP.read_text(), re.M)}
    if list(rows) != list(wanted):
        yield f"{MAP.name}: the groups are {', '.join(rows)}, and those of crates.txt {', '.join(wanted)}"
    for name in set(rows) & set(wanted):
        if rows[name] != wanted[name]:
            yield f"{MAP.name}: the crates of '{name}' are in crates.txt {', '.join(wanted[name])}"


if __name__ == "__main__":
    found = list(faults())
    print("\n".join(found), end="\n" if found else "")
    sys.exit(bool(found))
