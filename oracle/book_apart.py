"""Which values of the book's language need statements, so that they stand apart in a translation."""
from book_patterns import is_flat

# The most parts of a list or a string that is written as one, and how many parts each piece of a longer one has.
LONG = 50
# The most that the parts of a chain of bars may count in the language that `run` reads: a variable counts once and any other value twice.
MOST_OF_CHAIN = 200


def bars(value):
    """The parts of a chain of bars, and its bars."""
    parts, signs = [], []
    while value.kind == "bar":
        parts.append(value.left)
        signs.append(value.sign)
        value = value.right
    return [*parts, value], signs


def is_apart(tokens, value):
    if not hasattr(value, "is_apart"):
        value.is_apart = value.kind in ("local", "thread", "try", "raise") or stands_apart(tokens, value)
    return value.is_apart


def stands_apart(tokens, value):
    if value.kind in ("if", "case"):
        return is_form_apart(tokens, value)
    if value.kind == "call":
        return value.hole or value.parts[0].kind != "variable"
    if value.kind == "operation":
        return tokens[value.sign].said in ("andthen", "orelse") and is_apart(tokens, value.right)
    if value.kind == "brackets":
        return is_apart(tokens, value.parts[0])
    if value.kind == "bar":
        return sum(1 + (part.kind != "variable") for part in bars(value)[0]) > MOST_OF_CHAIN
    return (value.kind == "list" and len(value.parts) > LONG) or (value.kind == "string" and len(tokens[value.first].value) > LONG)


def is_form_apart(tokens, form):
    """Whether an `if` or a `case` has no `else`, a body that is not plain, or a clause that is not flat."""
    bodies = [form.body] if form.kind == "if" else [clause.body for clause in form.clauses]
    if form.rest is None or not all(is_plain(tokens, body) for body in bodies):
        return True
    if form.kind == "case" and not all(map(is_flat, form.clauses)):
        return True
    return not is_plain(tokens, form.rest.body) if form.rest.kind == "else" else is_form_apart(tokens, form.rest)


def is_plain(tokens, body):
    """Whether a body that has a value is that value alone, and it needs no statements."""
    return body.inner is None and len(body.phrases) == 1 and not is_apart(tokens, body.phrases[0])
