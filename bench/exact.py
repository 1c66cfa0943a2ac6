"""The lines of bench/run that repeat on a busy machine: instructions, as valgrind counts them, and bytes of memory."""
import os
import pathlib
import re
import shutil
import subprocess
import tempfile

from instructions import instructions
from placed import round_cell
from runs import QUIET, STOPPED, at, central, doubling, once, placed, steps_by_halving, steps_law
from shapes import KIB, TEXT_SIZES, born, build_reverse, countdown, naive_reverse, pairs_told, repeated, sends, shown_while_made

here = pathlib.Path(__file__).resolve().parent

# instructions a step: the mean over the shapes by `central`, and the greatest
MOST_MEAN_INSTRUCTIONS, MOST_INSTRUCTIONS = 480, 700

# bytes a step of programs over lists
MOST_LIST_BYTES = 36
LISTS = (build_reverse, naive_reverse)

# on one site beside `central`
MOST_ONE_SITE_INSTRUCTIONS, MOST_ONE_SITE_BYTES = 1.2, 1.3

# of a message that carries no equations: instructions at both ends, and bytes of what a run keeps of it
MOST_MESSAGE_INSTRUCTIONS, MOST_MESSAGE_BYTES = 3000, 400

# reading beside the plain reader, and how its line begins
MOST_READING = 1.0
PLAIN = "statements "

# a send beside a variable that is made and told a pair
MOST_SEND = 1.25

# by what the instructions grow where the work doubles
MOST_GROWTH = 2.2

# threads that are born for ever: what each does, the steps that go to each, what becomes of it, and its bytes, at most, beside its picks: those
# of one that has ended are so few that 10,000,000 take 200 MB. And the numbers of threads at which they are counted
BORN = [("skip", 4, "has ended", 20), ("{Wait X}", 3, "waits", 250)]
BORN_THREADS = (10000, 20000)


def there_is_valgrind():
    return shutil.which("valgrind") is not None


def instructions_of(program, text, steps, end):
    """How many instructions a run by `central` takes."""
    return instructions(program, central(steps), text, end)


def instructions_of_steps(program, text, steps, end):
    """How many instructions the steps of a run take, without the reading of its text."""
    return instructions_of(program, text, steps, end) - instructions_of(program, text, 1, STOPPED)


def marked(right, said):
    return "" if right else f"  <- {said}"


def show_grown(name, sizes, counts):
    """Prints by what the instructions grow where the work doubles, from each size to the next, at most."""
    grown = max(doubling(more, count, (less, before)) for less, before, more, count in zip(sizes, counts, sizes[1:], counts[1:]))
    right = grown <= MOST_GROWTH
    print(f"{name:14} {grown:.2f} times as many instructions where it doubles{marked(right, 'grows faster')}", flush=True)
    return right


def show_step_instructions(name, program, runs, kept):
    """Prints the instructions a step by `central` and on one site, which are kept in `kept`. A run is its text and its steps."""
    if not there_is_valgrind():
        return True
    (less, few), (more, many) = runs
    read = [instructions_of(program, text, 1, STOPPED) for text in (less, more)]
    by = [[instructions(program, words, text, QUIET) for text in (less, more)] for words in (central(many), placed(1))]
    one, sites = ((taken[1] - read[1] - (taken[0] - read[0])) / (many - few) for taken in by)
    right = sites <= MOST_ONE_SITE_INSTRUCTIONS * one and one <= MOST_INSTRUCTIONS
    kept.append((one, sites, name))
    print(f"{name:14} {one:.0f} instructions a step, on one site {sites:.0f}: {sites / one:.2f} times as many{marked(right, 'more')}", flush=True)
    return right & show_grown(name, (few, many), [taken - before for taken, before in zip(by[0], read)])


def show_step_bytes(shape, program, runs, kept):
    """Prints the bytes a step by `central` and on one site, which are kept in `kept`. A run is its text and its steps."""
    (_, few), (_, many) = runs
    held = [[once(program, text, words, QUIET)[2] for text, _ in runs] for words in (central(many), placed(1))]
    one, sites = (max((more - less) * KIB / (many - few), 0.1) for less, more in held)
    right = sites <= MOST_ONE_SITE_BYTES * one and not (shape in LISTS and one > MOST_LIST_BYTES)
    kept.append((one, sites, shape.__name__))
    print(f"{shape.__name__:14} {one:.1f} bytes a step, on one site {sites:.1f}: {sites / one:.2f} times as many{marked(right, 'more')}", flush=True)
    return right


def show_means(counts, held):
    """Prints the mean and the greatest of the instructions a step by `central`, and how the means on one site stand beside those by `central`."""
    if not counts:
        return True
    (one, sites), (bytes_one, bytes_sites) = ([sum(row[k] for row in rows) / len(rows) for k in (0, 1)] for rows in (counts, held))
    most, _, name = max(counts)
    right = one <= MOST_MEAN_INSTRUCTIONS and most <= MOST_INSTRUCTIONS
    print(f"{'all shapes':14} {one:.0f} instructions a step in the mean, {most:.0f} at most ({name}){marked(right, 'more')}", flush=True)
    alike = sites <= MOST_ONE_SITE_INSTRUCTIONS * one and bytes_sites <= MOST_ONE_SITE_BYTES * bytes_one
    said = f"{sites / one:.2f} times as many instructions and {bytes_sites / bytes_one:.2f} times as many bytes on one site, in the mean"
    print(f"{'all shapes':14} {said}{marked(alike, 'more')}", flush=True)
    return right & alike


def messages_of(program, text, words):
    """How many messages a run delivers, which are all that are sent where it comes to rest: the entries of the saved run that begin with one."""
    saved = subprocess.run([program, *words[:-1], "save"], input=text.encode(), stdout=subprocess.PIPE).stdout.decode()
    return len(re.findall(r"^turn \d+ \d", saved, re.MULTILINE))


def show_message_costs(program, shape, sites, size):
    """Prints what a message costs: what the sites take beyond the same text without places on one site, by the messages. The bytes are those of
    two doublings, since tables double."""
    if not there_is_valgrind():
        return True
    each = a_message(program, shape, sites, (size // 8, size // 4), lambda *run: instructions(*run, QUIET))
    kept = a_message(program, shape, sites, (size, 4 * size), lambda program, words, text: once(program, text, words, QUIET)[2] * KIB)
    right = shape is not round_cell or each <= MOST_MESSAGE_INSTRUCTIONS and kept <= MOST_MESSAGE_BYTES
    print(f"{shape.__name__:14} {each:.0f} instructions and {kept:.0f} bytes a message{marked(right, 'more')}", flush=True)
    return right


def a_message(program, shape, sites, sizes, cost):
    """What so many sites take beyond the same text without places on one site, by the messages, from the first size to the second."""
    texts = [shape(max(number, 4 * (1 + place))) for place, number in enumerate(sizes)]
    sent = [messages_of(program, text, placed(sites)) for text in texts]
    here, alone = ([cost(program, words, text) for text in some]
                   for words, some in ((placed(sites), texts), (placed(1), [re.sub(r"thread at \d+", "thread", text) for text in texts])))
    return ((here[1] - here[0]) - (alone[1] - alone[0])) / (sent[1] - sent[0])


def show_instructions(name, unit, program, runs, counted):
    """Prints the instructions, counted so, for each unit of work that the second run has and the first has not. A run is its
    text, its steps, how its last line begins, and its work."""
    if not there_is_valgrind():
        return
    (first, less), (second, more) = ((counted(program, *run[:3]), run[3]) for run in runs)
    print(f"{name:14} {(second - first) / (more - less):.0f} instructions a {unit}", flush=True)


def plain_reader(folder):
    """The plain reader of plain.rs, built in this folder, or None where no compiler of Rust is there."""
    if shutil.which("rustc") is None:
        return None
    made = os.path.join(folder, "plain")
    subprocess.run(["rustc", "--edition", "2021", "-O", "-o", made, str(here / "plain.rs")], check=True)
    return made


def reading_instructions(program, words, piece, begins):
    """The instructions that a byte of a text takes which is read."""
    sizes = (TEXT_SIZES[0] // 2, TEXT_SIZES[0])
    less, more = (instructions(program, words, repeated(piece, size), begins) for size in sizes)
    return (more - less) / ((sizes[1] - sizes[0]) * KIB)


def show_text_instructions(program, plain, piece):
    """Prints the instructions that a byte of a text takes which is read, by the program and by the plain reader, and the time of the longest text
    by both."""
    if not there_is_valgrind():
        return True
    mine, beside, right = reading_instructions(program, central(1), piece, STOPPED), "", True
    if plain is not None:
        text = repeated(piece, TEXT_SIZES[-1])
        other = reading_instructions(plain, [], piece, PLAIN)
        times = [min(once(which, text, words, begins)[0] for _ in range(5)) for which, words, begins in ((program, central(1), STOPPED), (plain, [], PLAIN))]
        right = mine <= MOST_READING * other
        beside = f", {mine / other:.2f} times as many and {times[0] / times[1]:.2f} times as long as a plain reader"
    print(f"{piece.__name__:14} {mine:.0f} instructions a byte{beside}{marked(right, 'more')}", flush=True)
    return right


def show_send(program):
    """A send at the port's owner, which makes a variable, beside a variable that is made and told a pair, each without the loop around it."""
    if not there_is_valgrind():
        return True
    each, turns = {}, (5000, 10000)
    for shape in (countdown, sends, pairs_told):
        law = steps_law(program, shape, 1, (8, 16, 32))
        less, more = (instructions_of_steps(program, shape(n), int(at(law, n)), QUIET) for n in turns)
        each[shape] = (more - less) / (turns[1] - turns[0])
    send, pair = each[sends] - each[countdown], each[pairs_told] - each[countdown]
    right = send <= MOST_SEND * pair
    print(f"{'sends':14} {send:.0f} instructions a send, {send / pair:.2f} times as many as a variable told a pair{marked(right, 'slower')}", flush=True)
    return right


def show_shown(program):
    """A value that is shown while it grows: the walk over it goes on from where it stopped."""
    if not there_is_valgrind():
        return True
    sizes = (50, 100, 200, 400)
    runs = [(text, steps_by_halving(program, text)) for text in map(shown_while_made, sizes)]
    return show_grown("shown_while_made", sizes, [instructions_of_steps(program, text, steps, QUIET) for text, steps in runs])


def bytes_beside_picks(program, text, steps):
    """The bytes that a run by `central` has at its peak which no function of the list of picks asked for."""
    with tempfile.NamedTemporaryFile("r") as told:
        counted = ["valgrind", "--tool=massif", "--threshold=0.0", "--peak-inaccuracy=0.0", f"--massif-out-file={told.name}"]
        subprocess.run([*counted, program, *central(steps)], input=text.encode(), capture_output=True)
        peak = told.read().split("heap_tree=peak\n")[1].split("#---")[0]
    all_bytes, picks, inside = None, 0, None
    for line in peak.splitlines():
        depth = len(line) - len(line.lstrip())
        number = int(line.split(":")[1].split()[0])
        if all_bytes is None:
            all_bytes = number
        if inside is not None and depth <= inside:
            inside = None
        if inside is None and "pick_list::" in line:
            inside, picks = depth, picks + number
    return all_bytes - picks


def show_born(program):
    """Prints the bytes of a thread that has ended, and of one that waits, beside their picks."""
    if not there_is_valgrind():
        return True
    all_right = True
    for body, steps, said, most in BORN:
        less, more = (bytes_beside_picks(program, born(body), steps * threads) for threads in BORN_THREADS)
        each = (more - less) / (BORN_THREADS[1] - BORN_THREADS[0])
        right = each <= most
        all_right &= right
        print(f"{'born':14} {each:.1f} bytes a thread that {said}, beside its picks{marked(right, 'more')}", flush=True)
    return all_right
