"""Runs of the program, and what they cost: their steps and messages, found by halving, their time and their memory."""
import math
import os
import shutil
import subprocess
import tempfile
import time
from fractions import Fraction

QUIET = "quiescent ended="
STOPPED = "stopped steps site=1"

# Who starts a run tells its peak memory, but no less than what it has itself. The command `time` has little; this has some 15 MiB and more.
TIME = shutil.which("time")
PEAK = [TIME, "-f", "%M", "-o"]


def central(steps):
    """The words of a run on the centralised machine."""
    return ["--steps", str(steps), "central"]


def placed(sites, workers=0):
    """The words of a run on so many sites, which no limit ends."""
    return ["--sites", str(sites), "--workers", str(workers), "--steps", "1000000000", "--messages", "4000000000", "run"]


def last_line(program, text, steps):
    done = subprocess.run([program, *central(steps)], input=text.encode(), stdout=subprocess.PIPE)
    return done.stdout.decode().rstrip("\n").split("\n")[-1]


def ends(program, text, steps):
    return last_line(program, text, steps).startswith(QUIET)


def steps_by_halving(program, text):
    low, high = 0, 1
    while not ends(program, text, high):
        low, high = high, 2 * high
    while high - low > 1:
        middle = (low + high) // 2
        low, high = (low, middle) if ends(program, text, middle) else (middle, high)
    return high


def at(points, x):
    """The polynomial through the points, at x."""
    total = Fraction(0)
    for i, (xi, yi) in enumerate(points):
        term = Fraction(yi)
        for j, (xj, _) in enumerate(points):
            if i != j:
                term *= Fraction(x - xj, xi - xj)
        total += term
    return total


def steps_law(program, shape, degree, sizes):
    points = [(size, steps_by_halving(program, shape(size))) for size in sizes]
    law = points[:degree + 1]
    for size, steps in points:
        if at(law, size) != steps:
            raise SystemExit(f"{shape.__name__}: the steps are no polynomial of degree {degree}")
    return law


def comes_to_rest(program, text, words, messages):
    """Whether a run by these words, but with so many messages, ends by itself."""
    place = words.index("--messages") + 1
    told = subprocess.run([program, *words[:place], str(messages), *words[place + 1:]], input=text.encode(), stdout=subprocess.PIPE)
    return told.stdout.decode().rstrip("\n").split("\n")[-1].startswith(QUIET)


def messages_by_halving(program, text, words):
    """How many messages the sites of a run without workers send."""
    low, high = -1, 1
    while not comes_to_rest(program, text, words, high):
        low, high = high, 2 * high
    while high - low > 1:
        middle = (low + high) // 2
        low, high = (low, middle) if comes_to_rest(program, text, words, middle) else (middle, high)
    return high


def once(program, text, words, end):
    """The processor time of a run, in seconds, its time by the clock, and its peak memory, in KiB; the last line begins with `end`."""
    with tempfile.TemporaryFile() as given, tempfile.TemporaryFile() as printed, tempfile.NamedTemporaryFile("r") as told:
        given.write(text.encode())
        given.seek(0)
        began = time.monotonic()
        run = subprocess.Popen([*PEAK, told.name, program, *words] if TIME else [program, *words], stdin=given, stdout=printed)
        _, status, used = os.wait4(run.pid, 0)
        clock = time.monotonic() - began
        run.returncode = os.waitstatus_to_exitcode(status)
        printed.seek(0)
        line = printed.read().decode().rstrip("\n").split("\n")[-1]
        peak = int(told.read().split()[-1]) if TIME else used.ru_maxrss
    if not line.startswith(end):
        raise SystemExit(f"the run ended with: {line}")
    return used.ru_utime + used.ru_stime, clock, peak


def cost(program, text, words, end):
    """The least processor time of three runs, in seconds, and the peak memory, in KiB; the last line begins with `end`."""
    runs = [once(program, text, words, end) for _ in range(3)]
    return min(run[0] for run in runs), max(run[2] for run in runs)


def clock(program, text, words):
    """The least time by the clock of three runs, in seconds."""
    return min(once(program, text, words, QUIET)[1] for _ in range(3))


def doubling(work, seconds, before):
    """By what the time grows where the work doubles."""
    if before is None:
        return None
    return (seconds / before[1]) ** (math.log(2) / math.log(work / before[0]))
