"""The text of a program in the kernel language, as `reading.read` gives it: each name is V and the number of declarations around its own."""
import re

from reading import RESERVED


def atom_text(text):
    if re.fullmatch(r"[a-z][A-Za-z0-9_]*", text) and text not in RESERVED:
        return text
    return "'" + text.replace("\\", "\\\\").replace("'", "\\'").replace("\n", "\\n") + "'"


def simple_text(value):
    """An integer, an atom or a feature."""
    return str(value).replace("-", "~") if isinstance(value, int) else atom_text(value)


class Printer:
    """Prints statements, where `names` has the names that are declared around with those in the text."""

    def __init__(self, names, count):
        self.names, self.count = names, count

    def inside(self, declared):
        """Where these names are declared, too, and what they are in the text."""
        made = {name: f"V{self.count + at}" for at, name in enumerate(declared)}
        return Printer({**self.names, **made}, self.count + len(made)), " ".join(made.values())

    def record(self, label, fields):
        return f"{atom_text(label)}({' '.join(simple_text(feature) + ':' + self.names[name] for feature, name in fields)})"

    def value(self, kind, *parts):
        if kind == "variable":
            return self.names[parts[0]]
        if kind == "record":
            return self.record(*parts)
        if kind == "procedure":
            inside, formals = self.inside(parts[0])
            return f"proc {{$ {formals}}} {inside.statement(parts[1])} end"
        if kind == "operation":
            return f"{self.names[parts[1]]} {parts[0]} {self.names[parts[2]]}"
        if kind == "selection":
            source, (by, said) = parts
            return f"{self.names[source]}.{self.names[said] if by == 'variable' else simple_text(said)}"
        return simple_text(parts[0])

    def statement(self, statement):
        kind, parts, _ = statement
        printing = getattr(self, "print_" + kind, None)
        return printing(*parts) if printing else f"{{{kind} {' '.join(self.names[name] for name in parts)}}}"

    def print_sequence(self, *statements):
        return " ".join(map(self.statement, statements)) or "skip"

    def print_local(self, declared, body):
        inside, names = self.inside(declared)
        return f"local {names} in {inside.statement(body)} end"

    def print_tell(self, left, value):
        return f"{self.names[left]} = {self.value(*value)}"

    def print_if(self, subject, first, second):
        return f"if {self.names[subject]} then {self.statement(first)} else {self.statement(second)} end"

    def print_case(self, subject, pattern, first, second):
        fields = pattern[2] if pattern[0] == "record" else ()
        inside, _ = self.inside([name for _, name in fields])
        shown = inside.record(*pattern[1:]) if fields else simple_text(pattern[1])
        return f"case {self.names[subject]} of {shown} then {inside.statement(first)} else {self.statement(second)} end"

    def print_call(self, callee, names):
        return "{" + " ".join(self.names[name] for name in (callee, *names)) + "}"

    def print_thread(self, body, place):
        return f"thread {f'at {place} ' if place else ''}{self.statement(body)} end"

    def print_try(self, body, name, handler):
        inside, caught = self.inside([name])
        return f"try {self.statement(body)} catch {caught} then {inside.statement(handler)} end"

    def print_raise(self, name):
        return f"raise {self.names[name]} end"


def kernel_text(program):
    return Printer({}, 0).statement(program)
