"""Runs of the program, and whether what they print is in the list of a text."""
import pathlib
import subprocess

TOP = pathlib.Path(__file__).resolve().parent.parent
SITES = (1, 2, 3, 7, 64)
WORKERS = (0, 1, 2, 4)
SEEDS = (1, 2)
MOST_SECONDS = 60


def program_of(path):
    """The program at this path; the one that ./oz runs where none is given."""
    return path or subprocess.run([str(TOP / "oz"), "program"], check=True, stdout=subprocess.PIPE, text=True).stdout.strip()


def ways():
    """The words of each run of a text."""
    yield ["central"]
    for sites in SITES:
        for workers in WORKERS:
            yield ["--sites", str(sites), "--workers", str(workers)]
        for seed in SEEDS:
            yield ["--sites", str(sites), "--seed", str(seed)]


def fault(program, words, text, lawful):
    """What a run printed, and what is wrong with it, or None."""
    try:
        done = subprocess.run([program, *words], input=text.encode(), stdout=subprocess.PIPE, timeout=MOST_SECONDS)
    except subprocess.TimeoutExpired:
        return "", f"no end after {MOST_SECONDS} seconds"
    printed = done.stdout.decode(errors="replace")
    if printed not in lawful:
        return printed, "no order of its threads prints this"
    if done.returncode != (0 if printed.endswith(" waiting=0\n") else 1):
        return printed, f"the status is {done.returncode}"
    return printed, None
