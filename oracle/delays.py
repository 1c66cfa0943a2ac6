"""A text with delays: before some of its statements stands a call that takes time and does nothing else. Its outputs are those of the
text; the machine of `central`, which makes one run of a text, comes by them to other orders of its threads."""
from reading import statement_places

COUNTS = (1, 5, 12, 40)
FRONT = (
    "local Delay DelayOne "
    + " ".join(f"Delay{count}Times" for count in COUNTS)
    + " in DelayOne = 1 "
    + " ".join(f"Delay{count}Times = {count}" for count in COUNTS)
    + " proc {Delay N} case N of 0 then skip else local M in M = N - DelayOne {Delay M} end end end "
)


def delayed(text, random):
    """The text with a delay of a length drawn before each statement that is drawn."""
    often = random.choice((0.1, 0.3, 0.6))
    parts, before = [], 0
    for place in sorted(statement_places(text)):
        parts.append(text[before:place])
        if random.random() < often:
            parts.append(f"{{Delay Delay{random.choice(COUNTS)}Times}} ")
        before = place
    return FRONT + "".join(parts) + text[before:] + "\nend"
