"""The library that a text may use without declaring it, from docs/base.oz: `HELPERS` are what translations call, and `BASE` the names that a
text may use, each with its definition in one line, in the order in which they are defined."""
import pathlib
import re

WORD = re.compile(r"'(?:[^'\\]|\\.)*'|\w+", re.ASCII)


def definitions():
    """The definitions of docs/base.oz, in one table for each of its headings: a definition stands behind a comment that names it."""
    tables = []
    for paragraph in (pathlib.Path(__file__).resolve().parent.parent / "docs" / "base.oz").read_text().split("\n\n"):
        lines = paragraph.strip().split("\n")
        said = " ".join(line.strip() for line in lines if not line.startswith("%"))
        if said in ("", "declare"):
            tables.append({})
        else:
            tables[-1][re.match(r"% (\w+):", lines[0])[1]] = said
    return tables


HELPERS, BASE = definitions()


def named_in(definition):
    """The library's names in a definition."""
    return [name for name in BASE if name in WORD.findall(definition)]


def needed(names):
    """These names, and those that their definitions need, in the order of the table."""
    found, open_ = set(), list(names)
    while open_:
        name = open_.pop()
        if name not in found:
            found.add(name)
            open_ += named_in(BASE[name])
    return [name for name in BASE if name in found]


def prelude(helpers, names, suffix):
    """What stands before a text that uses these helpers and names: empty where it uses none."""
    used = [word for word in HELPERS if word in helpers]
    wanted = needed(names)
    if not used and not wanted:
        return ""
    made = [WORD.sub(lambda match: word + suffix if match[0] == word else match[0], HELPERS[word]) for word in used]
    declared = [word + suffix for word in used] + wanted
    return " ".join(["local", *declared, "in", *made, *(BASE[name] for name in wanted)])
