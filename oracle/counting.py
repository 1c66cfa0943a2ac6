"""Which statements of a program count in a cell: they exchange its content for the old one and an amount.

    local Old New in .. {Exchange C Old New} New = Old + K .. end

is such a count where nothing else uses `Old` and `New`; an amount that is an integer in the text has a name of its own, as `local K in K = 1
New = Old + K end`. Two counts in one cell that holds an integer may change places, and nobody
can tell: the cell has the same content then, and no thread has kept the one between. That is so as long as all amounts are integers
that are known, and no sum is too large for 128 bits.
"""
MOST_AMOUNT = 2**31
MOST_CONTENT = 2**61

# What a statement does to cells, besides counts: "other" exchanges or amounts that are not known from the text.
OTHER = "other"


def without_name(statement):
    """A tell, and the name that an integer in it has, where that is so: `local K in K = 1 X = Y + K end`. Else the statement and None."""
    kind, parts, _ = statement
    if kind == "local" and len(parts[0]) == 1 and parts[1].kind == "sequence" and len(parts[1].parts) == 2:
        named, telling = parts[1].parts
        if is_small_integer(named) and named.parts[0] == parts[0][0]:
            return telling, parts[0][0]
    return statement, None


def amount_names(first, second, declared, free_elsewhere):
    """The variables of the amount where these two statements are a count: one, or none where the text has it; else None."""
    second, literal = without_name(second)
    if first.kind != "Exchange" or second.kind != "tell" or second.parts[1][0] != "operation":
        return None
    cell, old, new = first.parts
    left, (_, sign, one, other) = second.parts
    if sign == "+" and other == old:
        one, other = other, one
    private = {old, new}
    if sign not in ("+", "-") or left != new or one != old or len(private) < 2 or private & {cell, other}:
        return None
    if not private <= declared or private & free_elsewhere:
        return None
    return frozenset({other} - {literal})


class Counts:
    """The counts of a program, by the identities of their exchanges, and what each statement does to cells."""

    def __init__(self, program):
        self.amounts, self.deeds = {}, {}
        self.find(program, frozenset())

    def find(self, statement, declared):
        """Looks for counts in a sequence whose variables a `local` directly around it declares, and in all that it has."""
        if statement.kind == "sequence":
            parts = statement.parts
            for at in range(len(parts) - 1):
                elsewhere = frozenset().union(*(other.free for other in parts[:at] + parts[at + 2 :]))
                amount = amount_names(parts[at], parts[at + 1], declared, elsewhere)
                if amount is not None:
                    self.amounts[id(parts[at])] = parts[at + 1], amount
        names = frozenset(statement.parts[0]) if statement.kind == "local" else frozenset()
        for body in bodies(statement):
            self.find(body, names)

    def deed(self, statement):
        """The amounts' variables that are free in a statement, or OTHER where it may do more to a cell than count."""
        if id(statement) not in self.deeds:
            self.deeds[id(statement)] = self.amounts_in(statement, frozenset(), frozenset())
        return self.deeds[id(statement)]

    def amounts_in(self, statement, declared, known):
        """As `deed`, with what is declared around it within, and which variables are integers by a tell that has been made."""
        if statement.kind == "Exchange":
            if id(statement) not in self.amounts:
                return OTHER
            names = self.amounts[id(statement)][1] - known
            return OTHER if names & declared else names
        found = frozenset()
        own = own_names(statement)
        declared, known = declared | own, known - own
        for body in bodies(statement):
            amounts = self.amounts_in(body, declared, known)
            if amounts == OTHER:
                return OTHER
            found |= amounts
            if statement.kind == "sequence" and is_small_integer(body):
                known |= {body.parts[0]}
        return found


def is_small_integer(statement):
    return statement.kind == "tell" and statement.parts[1][0] == "integer" and abs(statement.parts[1][1]) <= MOST_AMOUNT


def bodies(statement):
    """The statements within a statement."""
    kind, parts, _ = statement
    if kind == "sequence":
        return parts
    if kind == "tell":
        return (parts[1][2],) if parts[1][0] == "procedure" else ()
    return tuple(part for part in parts if hasattr(part, "kind"))


def own_names(statement):
    """The variables that a statement declares for its bodies, whichever of these."""
    kind, parts, _ = statement
    if kind == "local":
        return frozenset(parts[0])
    if kind == "case" and parts[1][0] == "record":
        return frozenset(name for _, name in parts[1][2])
    if kind == "try":
        return frozenset({parts[1]})
    if kind == "tell" and parts[1][0] == "procedure":
        return frozenset(parts[1][1])
    return frozenset()
