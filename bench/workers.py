"""The lines of bench/run on workers: how long many take, and how often they go through the lock of the book."""
import math
import os
import re
import shutil
import subprocess
import tempfile

from placed import loops
from runs import QUIET, cost, once, placed, steps_by_halving
from shapes import countdown

LEAST_FOUR_WORKERS = 2.5
MOST_MORE_WORKERS = 1.25
MOST_ONE_WORKER = 1.3
MOST_WAYS = 1.25
MOST_IDLE_WORKERS = 1.5
MOST_AGAINST = 1.25

# the turns of the loop of one thread beside workers with nothing to do
IDLE_TURNS = 100000

# the turns of the loop at each of so many sites, which share nothing; by so many workers, on so many processors
LOOP_TURNS = {4: 400000, 16: 40000, 64: 10000}
WORKERS = (1, 2, 4, 16, 64)
PROCESSORS = (1, 2, 4)

# the turns of the loops whose ways through the lock are counted, and the steps of a site's turn
COUNTED_LOOP_TURNS = 1000
STEPS_A_TURN = 64


def show_ratio(name, said, program, text, words, most):
    """Prints how many times as long a run takes by the second words as by the first."""
    for _ in range(3):
        first, second = (cost(program, text, each, QUIET)[0] for each in words)
        if second <= most * first:
            break
    print(f"{name:14} {second / first:.2f} times as long {said}{'' if second <= most * first else '  <- slower'}", flush=True)
    return second <= most * first


def least_clocks(program, text, sites, processors):
    """The least time by the clock of five runs by each number of workers, in seconds, on these processors. The runs are taken in turn."""
    on = ",".join(map(str, processors))
    least = dict.fromkeys(WORKERS, math.inf)
    for _ in range(5):
        for workers in WORKERS:
            taken = once("taskset", text, ["-c", on, program, *placed(sites, workers)], QUIET)[1]
            least[workers] = min(least[workers], taken)
    return least


def show_workers(program):
    """Loops at sites that share nothing: no number of workers is much slower than one, and four are faster on four processors."""
    right, free = True, sorted(os.sched_getaffinity(0))
    for sites, turns in LOOP_TURNS.items():
        text = loops(turns, sites)
        for count in PROCESSORS:
            if count > len(free):
                continue
            for _ in range(3):
                least = least_clocks(program, text, sites, free[:count])
                fast = count < 4 or sites != 4 or least[1] >= LEAST_FOUR_WORKERS * least[4]
                fast &= max(least.values()) <= MOST_MORE_WORKERS * least[1]
                if fast:
                    break
            told = ", ".join(f"{workers}: {seconds:.3f}" for workers, seconds in least.items())
            print(f"{'loops':14} {turns:7} at {sites} sites on {count} processors, seconds by workers {told};"
                  f" four are {least[1] / least[4]:.2f} times as fast as one{'' if fast else '  <- slower'}", flush=True)
            right &= fast
    return right


def calls_of(program, text, words, name):
    """How often a run calls the function whose name has this part. Each call's line is behind one with the function's number."""
    with tempfile.NamedTemporaryFile("r") as told:
        counted = ["valgrind", "--tool=callgrind", f"--callgrind-out-file={told.name}"]
        subprocess.run([*counted, program, *words], input=text.encode(), capture_output=True, check=True)
        lines = told.read().split("\n")
    numbers = {match[1] for match in (re.match(r"c?fn=(\(\d+\)) .*" + re.escape(name), line) for line in lines) if match}
    called, calls = "", 0
    for line in lines:
        if line.startswith("cfn="):
            called = line[4:].split(" ")[0]
        elif line.startswith("calls=") and called in numbers:
            calls += int(line[6:].split(" ")[0])
    return calls


def show_ways(program):
    """How many ways through the lock of the book a site's turn takes, where it has more to do."""
    if shutil.which("valgrind") is None:
        return True
    text = loops(COUNTED_LOOP_TURNS, 4)
    turns = steps_by_halving(program, text) / STEPS_A_TURN
    ways = calls_of(program, text, placed(4, 1), "CountedLock::enter") / turns
    print(f"{'loops':14} {COUNTED_LOOP_TURNS:7} {ways:.2f} ways through the lock a turn{'' if ways <= MOST_WAYS else '  <- more'}", flush=True)
    return ways <= MOST_WAYS


def show_against(name, program, other, text, sites):
    """Prints how many times as long four workers take by this program as by another build of it, by the time of the processor."""
    words = placed(sites, 4)
    for _ in range(3):
        # the two in turn, so that both have the machine as it is
        pairs = [(once(program, text, words, QUIET)[0], once(other, text, words, QUIET)[0]) for _ in range(5)]
        mine, others = (min(pair[k] for pair in pairs) for k in (0, 1))
        if mine <= MOST_AGAINST * others:
            break
    right = mine <= MOST_AGAINST * others
    print(f"{name:14} {mine / others:.2f} times as long by four workers as by the other build{'' if right else '  <- slower'}", flush=True)
    return right


def show_idle(program):
    """One thread alone, with many workers that have nothing to do."""
    words = (placed(64, 1), placed(64, 64))
    text = countdown(IDLE_TURNS)
    return show_ratio("countdown", "by 64 workers as by one, on 64 sites", program, text, words, MOST_IDLE_WORKERS)
