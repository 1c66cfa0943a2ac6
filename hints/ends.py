"""What the end of a run means, by the status of the program, and by the text where it is there."""
import os
import pathlib
import re
import sys

from scopes import tokens

MOST_STEPS, MOST_MESSAGES = 1_000_000_000, 4_000_000_000
MOST_BYTES = 65_536  # of a text that is looked at
FLOAT = re.compile(r"(?<![\w.])\d+\.\d+", re.ASCII)


def limit_of(words, option):
    """The number behind an option among the words, or None."""
    pairs = [word.split("=", 1) for word in words if word.startswith(option + "=")]
    pairs += [list(pair) for pair in zip(words, words[1:]) if pair[0] == option]
    return int(pairs[0][1]) if pairs and pairs[0][1].isdecimal() else None


def more_of(words, option, most):
    """Ten times what an option allowed, which is a million where it is left out."""
    return min(most, 10 * (limit_of(words, option) or 1_000_000))


def read(file):
    """The tokens of a text, and the text with its comments and quoted atoms blank."""
    if not file:
        return [], ""
    try:
        text = pathlib.Path(file).read_bytes().decode("latin-1")
    except OSError:
        return [], ""
    if len(text) > MOST_BYTES:
        return [], ""
    bare = re.sub(r"%[^\n]*|/\*.*?\*/|'(?:[^'\\\n]|\\.)*'", lambda it: re.sub(r"[^\n]", " ", it[0]), text, flags=re.S)
    return list(tokens(text)), bare


RACES = "./oz races FILE.oz lists whether the text can end otherwise"
SECONDS = 3


def by_machine(name, file):
    """What the plain machine of the oracle finds of a text, or None where it does not come so far."""
    sys.path.append(str(pathlib.Path(__file__).resolve().parent.parent / "oracle"))
    try:
        import rest

        text = pathlib.Path(file).read_bytes() if file else b""
        return getattr(rest, name)(text.decode(), SECONDS) if 0 < len(text) <= MOST_BYTES else None
    except (ImportError, OSError, UnicodeDecodeError):
        return None


def of_waiting(file, words):
    """What waiting threads may mean: of each what it waits for, where the plain machine comes so far. An agent at rest is no fault."""
    found = by_machine("rest", file)
    if found is None:
        agents = " An agent that has read all messages of its port waits so, and that is no fault." if any(token.word == "NewPort" for token in words) else ""
        return [f"waiting=N counts threads that wait for variables that nobody will bind, and nothing goes on.{agents} {RACES}"]
    told = []
    for it in [it for it in found if not it.is_at_rest][:3]:
        names = " or ".join(it.names) or "a part that nothing binds"
        thread = f"the thread of {it.thread}" if it.thread else "the first thread"
        told.append(f"{os.environ.get('OZ_NAME') or file}:{it.place}: {thread} waits for {names}: {it.statement}")
    left = sum(not it.is_at_rest for it in found) - len(told)
    if left:
        told.append(f"so do {left} more")
    resting = sum(it.is_at_rest for it in found)
    if resting == len(found) and found:
        return ["each thread that waits has read all messages of its port, and waits for the next one: an agent at rest, and no fault"]
    if resting:
        told.append(f"{resting} more wait for the next message of a port, which is no fault")
    if not found:
        return [f"in another order no thread waits: {RACES}"]
    return told + [f"so it is in one order of the threads: {RACES}"] * any(token.word == "thread" for token in words)


def of_steps(given, file):
    steps = more_of(given, "--steps", MOST_STEPS)
    told = ["a site made as many steps as --steps allows, and could go on: a loop without an end, or a long run"]
    calls = by_machine("busy", file)
    if calls:
        told += [f"{os.environ.get('OZ_NAME') or file}:{at}: called again and again: {said}" for said, at in calls[:5]]
    if (limit_of(given, "--steps") or 1_000_000) >= 10_000_000:
        return [*told, "ten million steps and more are mostly a loop: print what changes in it, and allow few steps"]
    return [*told, f"--steps 1000 shows how it begins, and --steps {steps} whether more is enough"]


def of_end(status, given, file=None):
    """The lines that are told of an end."""
    words, bare = read(file)
    told = []
    for number in FLOAT.finditer(bare):
        line = bare.count("\n", 0, number.start()) + 1
        whole, part = number[0].split(".")
        told.append(f"{number[0]} in line {line} is the field {part} of the integer {whole}, which raises error(type): there are no floats, so 314 div 100")
        break
    if status == 1:
        told += of_waiting(file, words)
    elif status == 4:
        told += of_steps(given, file)
    elif status == 5:
        messages = more_of(given, "--messages", MOST_MESSAGES)
        told.append(
            f"the sites sent more messages than --messages allows: --messages {messages} allows more. Threads that share much send none "
            "at one site: --sites 1, or thread at the same number"
        )
    elif status == 8:
        told.append("memory was wanting: a run keeps 40 to 200 bytes a step, so fewer --steps, or a text that makes less, need less")
    elif status == 9:
        told.append(
            "wrong entry=I counts the turns of a saved run from 0: turn I comes behind the end of the run, cannot be made as it is told, or "
            "prints other lines; or the last line is another, where I is the number of turns"
        )
    elif status == 10:
        told.append("what was read is no saved run: ./oz save FILE.oz > RUN writes one, and ./oz check RUN reads it")
    return told
