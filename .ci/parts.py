"""Cuts a module of LLVM, as lines of its text, into parts that compile side by side and are linked to one program.

A short item, as a function that is worth copying into its callers or a constant, is in each part that uses it, and the linker keeps
one of each. A long function is in one part alone, and that is the part of its user where it has a single one. What one part alone
uses is internal to it, so that the compiler may do there what it may do in the whole.
"""
import collections
import re

SHORT = 250  # the most lines of a short function: measured, the program of the parts is as fast as that of the whole
NAME = re.compile(r'@("[^"]*"|[-\w$.]+)')


class Module:
    """The functions and the data of a module by their names, with the names that each uses, and its other lines."""

    def __init__(self, lines):
        self.texts, self.others, self.long = {}, [], []
        lines = iter(lines)
        for line in lines:
            if line.startswith("define "):
                text = [line]
                while text[-1] != "}\n":
                    text.append(next(lines, "}\n"))
                name = NAME.search(line)[1]
                self.texts[name] = text
                if len(text) > SHORT or name == "main":
                    self.long.append(name)
            elif line.startswith("@"):
                self.texts[NAME.match(line)[1]] = [line]
            else:
                self.others.append(line)
        self.uses = {name: (self.texts.keys() & NAME.findall("".join(text))) - {name} for name, text in self.texts.items()}

    def homes(self):
        """The long functions in groups: those that one and the same item leads to, each by the single user of the next."""
        users, groups = collections.defaultdict(list), {}
        for name, used in self.uses.items():
            for it in used:
                users[it].append(name)
        for name in self.long:
            first, way = name, {name}
            while len(users[first]) == 1 and users[first][0] not in way:
                first = users[first][0]
                way.add(first)
            groups.setdefault(first, []).append(name)
        return groups.values()

    def shares(self, count):
        """The long functions of each part, about as many lines of them in each."""
        size = {name: len(self.texts[name]) for name in self.long}
        shares, lines, whole = [[] for _ in range(count)], 0, sum(size.values())
        for group in self.homes():
            shares[min(count - 1, lines * count // whole)] += group
            lines += sum(map(size.get, group))
        return shares

    def reached(self, share):
        """What a part has to name: its long functions, and what these use and the short items that they lead to."""
        found, left, long = set(share), list(share), set(self.long)
        while left:
            new = self.uses[left.pop()] - found
            found |= new
            left += new - long
        return found


def shown(text, linkage):
    """An item that other parts can use, too."""
    first = re.sub(r"^(define|@.*? =) (internal|private) ", rf"\1 {linkage} ", text[0], count=1)
    return [first, *text[1:]]


def declared(text):
    """That a function stands in another part."""
    return [re.sub(r"^define( internal)?(.*) \{$", r"declare hidden\2", text[0])]


def cut(lines, count):
    """The lines of each of so many parts. Fails by ValueError where the module is none that is known here."""
    module = Module(lines)
    if "main" not in module.texts:
        raise ValueError("the module has no main")
    shares = module.shares(count)
    reached = [module.reached(share) for share in shares]
    parts_of = collections.Counter(name for names in reached for name in names)
    long = set(module.long)
    for share, names in zip(shares, reached):
        part = list(module.others)
        for name, text in module.texts.items():
            if name not in names:
                continue
            if name in long and name not in share:
                part += declared(text)
            elif parts_of[name] == 1:
                part += text
            else:
                part += shown(text, "hidden" if name in long else "linkonce_odr hidden")
        yield part
