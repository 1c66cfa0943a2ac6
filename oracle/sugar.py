"""What sugar stands for: statements of the kernel, as docs/language.md has it.

A value is one that a tell of the kernel may have, where names stand for values that are variables alone, or one of these:

    ("record", label, fields)             with values in its fields, as they stand in the text
    ("operation", sign, value, other)     and ("selection", value, by)
    ("call", name, values)                and ("built in", name, values)
    ("function", formals, value)          ("if", value, chosen, other)          ("brackets", value)
    ("case", value, clauses, other)       where a clause is a pattern with a value
"""
from statements import built_in, call, caught, choice, in_order, local, match, raising, sequence, tell


class Expansion:
    """Makes statements. Its new names are such as no text has. `places` has, by their `id`, the values that stand in the text, each with where it
    begins and ends; `made` the statements that tell these, so too."""

    def __init__(self):
        self.names, self.places, self.made = 0, {}, []

    def new(self):
        self.names += 1
        return f"'{self.names}"

    def named(self, value):
        """The name of a part: its own where it is a variable, else a new one."""
        return value[1] if value[0] == "variable" else self.new()

    def held(self, parts, then):
        """A statement that uses parts by their names, in a `local` for each that is no variable, one within the other."""
        names = tuple(map(self.named, parts))
        made = then(*names)
        for part, name in reversed(list(zip(parts, names))):
            if part[0] != "variable":
                made = local((name,), sequence(self.told(name, part), made))
        return made

    def told(self, left, value):
        """The statement that tells a value to a variable."""
        kind, *parts = value
        making = getattr(self, "told_" + kind.replace(" ", "_"), None)
        made = making(left, *parts) if making else tell(left, value)
        if id(value) in self.places:
            self.made.append((made, *self.places[id(value)][1:]))
        return made

    def told_record(self, left, label, fields):
        names = {feature: self.named(part) for feature, part in fields}
        inner = [feature for feature, part in fields if part[0] != "variable"]
        parts = dict(fields)
        made = sequence(
            tell(left, ("record", label, in_order(names.items()))), *(self.told(names[feature], parts[feature]) for feature in inner)
        )
        for feature in reversed(inner):
            made = local((names[feature],), made)
        return made

    def told_operation(self, left, sign, value, other):
        return self.held((value, other), lambda first, second: tell(left, ("operation", sign, first, second)))

    def told_selection(self, left, value, by):
        return self.held((value,), lambda source: tell(left, ("selection", source, by)))

    def told_call(self, left, callee, values):
        return self.held(values, lambda *names: call(callee, (*names, left)))

    def told_built_in(self, left, name, values):
        return self.held(values, lambda *names: built_in(name, (*names, left)))

    def told_function(self, left, formals, value):
        result = self.new()
        return tell(left, ("procedure", (*formals, result), self.told(result, value)))

    def told_if(self, left, value, chosen, other):
        return self.held((value,), lambda subject: choice(subject, self.told(left, chosen), self.told(left, other)))

    def told_case(self, left, value, clauses, other):
        made = [(pattern, self.told(left, result)) for pattern, result in clauses]
        return self.matched(value, made, self.told(left, other))

    def told_brackets(self, left, value):
        return self.told(left, value)

    def matched(self, value, clauses, other):
        """A `case` of clauses, each but the first in the `else` of the one before."""
        def nested(subject):
            made = other
            for pattern, chosen in reversed(clauses):
                made = match(subject, pattern, chosen, made)
            return made

        return self.held((value,), nested)

    def finished(self, body, last):
        """`try body finally last end`."""
        name, exception = self.new(), self.new()
        tried = caught(body, exception, sequence(call(name, ()), raising(exception)))
        return local((name,), sequence(tell(name, ("procedure", (), last)), tried, call(name, ())))
