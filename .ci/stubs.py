"""Writes crates whose functions have no bodies, so that a crate above them is checked by their contracts alone.

Of a function that is left out its head and its contract stay, its body is `unreachable!()`, and its proof a hole. Methods of traits
and closed tests stay whole. The layout is that of `rt fmt`: a function begins at the margin or four columns in, and its body ends by a
brace that stands under its head.
"""
import os
import pathlib
import re
import shutil

HEAD = re.compile(r"( {4})?(?:pub(?:\([\w ]+\))? )?(const )?(?:unsafe )?(?:extern \"C\" )?fn (\w+)")
TYPE = re.compile(r"(?:pub(?:\([\w ]+\))? )?(?:struct|enum) (\w+)")
IMPL = re.compile(r"impl(?:<[^>]*(?:<[^>]*>[^>]*)*>)?\s+(.*?)\s*(?:where.*)?\{?$")
TRAIT = re.compile(r"(?:pub(?:\(\w+\))? )?trait ")
HOLE = """use {module}.Statement.{{statement}}

pub {name}_spec : {{M : Type 1}} → statement M
{name}_spec = ?
"""


def module_of(path, source):
    """The words of a file's module, none for a root file."""
    words = list(path.relative_to(source).with_suffix("").parts)
    return [] if words in (["lib"], ["main"]) else words


class Function:
    """A function of a file: its lines, where its body begins, its module, and the type whose method it is."""

    def __init__(self, lines, first, module, owner):
        found = HEAD.match(lines[first])
        self.indent, self.is_const, self.name = found[1] or "", bool(found[2]), found[3]
        self.first, self.module, self.owner = first, module, owner
        self.open = first if lines[first].rstrip().endswith("}") and "{" in lines[first] else self.opening(lines)
        self.is_short = lines[self.open].endswith("}")
        self.last = self.open if self.is_short else lines.index(self.indent + "}", self.open)

    def opening(self, lines):
        """The line whose last sign begins the body: behind a contract it stands alone."""
        for number in range(self.first, len(lines)):
            line = lines[number]
            if line in (self.indent + "{", self.indent + "{}") or line.endswith("{}") and line.startswith(self.indent + ")"):
                return number
            is_head = number == self.first or line.startswith(self.indent + ")")
            if is_head and line.endswith("{") and not line.strip().startswith(("ensures", "requires")):
                return number
        raise ValueError(f"the function {self.name} has no body")

    def path(self):
        """Its path in the crate, as a check prints it but for the signs between."""
        return "/".join([*self.module, *([self.owner] if self.owner else []), self.name])

    def is_named(self, names):
        """Whether a name is the end of its path, or that of a module or type that it stands in."""
        path = "/" + self.path() + "/"
        return any(path.endswith(f"/{name}/") or path.startswith(f"/{name}/") for name in names)


class File:
    """A file of code, with the functions that can be left out and, of each, its lines."""

    def __init__(self, lines, module, homes):
        self.lines, self.module, self.homes, self.functions = lines, module, homes, []
        self.owner, self.is_whole, self.is_test = None, False, False
        number = 0
        while number < len(lines):
            self.look(lines[number])
            found = self.function(number)
            number = found.last + 1 if found else number + 1

    def look(self, line):
        """What a line that begins at the margin tells of those behind it."""
        found = IMPL.match(line)
        if re.match(r"#\[(cfg\(test\)|test)", line):
            self.is_test = True
        elif found:
            self.is_whole = " for " in line
            self.owner = None if self.is_whole else re.match(r"\w+", found[1])[0]
        elif TRAIT.match(line):
            self.is_whole, self.owner = True, None
        elif line.startswith("}"):
            self.owner, self.is_whole, self.is_test = None, False, False

    def function(self, number):
        """The function that begins at a line, kept where it can be left out."""
        found = HEAD.match(self.lines[number])
        is_inner = found and found[1]
        if not found or self.is_whole or self.is_test or is_inner and not self.owner:
            return None
        home = self.module if not is_inner or self.module in self.homes.get(self.owner, []) else self.homes.get(self.owner, [None])[0]
        if home is None:
            return None
        it = Function(self.lines, number, home, self.owner if is_inner else None)
        if not it.is_const:
            self.functions.append(it)
        return it

    def without(self, left_out):
        """The lines, without the bodies of these functions."""
        lines = list(self.lines)
        for it in reversed(left_out):
            if not it.is_short:
                lines[it.open + 1:it.last] = [it.indent + "    unreachable!()"]
            above = it.first
            while above and re.match(r"\s*#\[(tactic|cycle)", lines[above - 1]):
                above -= 1
            del lines[above:it.first]
        return lines


def files_of(crate):
    """The files of a crate's code, each with its place below src/."""
    source = crate / "src"
    texts = {path: path.read_text().split("\n") for path in sorted(source.rglob("*.rt"))}
    homes = {}
    for path, lines in texts.items():
        for line in lines:
            found = TYPE.match(line)
            if found:
                homes.setdefault(found[1], []).append(module_of(path, source))
    for path, lines in texts.items():
        module = module_of(path, source)
        yield path.relative_to(source), lines if module[:1] == ["tests"] else File(lines, module, homes)


def functions_of(crate):
    """The functions of a crate, each with its file."""
    for place, file in files_of(crate):
        if isinstance(file, File):
            for it in file.functions:
                yield place, it


def write(path, text):
    path.parent.mkdir(parents=True, exist_ok=True)
    path.write_text(text)


def leave_out(crate, to, kept):
    """Writes a crate into a folder without the bodies of its functions, but for those that are named by `kept`."""
    shutil.rmtree(to, ignore_errors=True)
    if (crate / "specs").is_dir():
        shutil.copytree(crate / "specs", to / "specs")
    holes = set()
    for place, file in files_of(crate):
        left_out = [it for it in file.functions if not it.is_named(kept)] if isinstance(file, File) else []
        write(to / "src" / place, "\n".join(file.without(left_out) if isinstance(file, File) else file))
        for it in left_out:
            holes.add(it.path())
            write(to / "proofs" / it.path() / "Proof.antt", HOLE.format(module=".".join(["Rattle", crate.name, "proofs", *it.path().split("/")]), name=it.name))
    copy_proofs(crate / "proofs", to / "proofs", holes, kept)


def copy_proofs(proofs, to, holes, kept):
    """Copies the proofs but those of functions that were left out, and of cycles of calls in which no function stays."""
    for folder, _, names in os.walk(proofs):
        place = pathlib.Path(folder).relative_to(proofs)
        if place.as_posix() in holes or is_left_out(place, holes, kept):
            continue
        for name in names:
            (to / place).mkdir(parents=True, exist_ok=True)
            shutil.copy2(pathlib.Path(folder) / name, to / place / name)


def is_left_out(place, holes, kept):
    """Whether a folder is that of a cycle of calls of which no function stays."""
    if not place.name.startswith("+"):
        return False
    inside, first = place.parent.as_posix(), place.name[1:]
    stays = any(name.startswith(inside) or name.split("/")[-1] == first for name in kept)
    return not stays or f"{inside}/{first}" in holes
