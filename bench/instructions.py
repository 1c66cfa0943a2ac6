"""How many instructions a run takes, as valgrind counts them."""
import re
import subprocess


def instructions(program, words, text, begins):
    """Those of a run with these words on this text, whose last line has to begin so."""
    counted = ["valgrind", "--tool=callgrind", "--callgrind-out-file=/dev/null"]
    done = subprocess.run([*counted, program, *words], input=text, capture_output=True, text=True)
    line = done.stdout.rstrip("\n").split("\n")[-1]
    if not line.startswith(begins):
        raise SystemExit(f"a counted run ended with: {line}")
    return int(re.search(r"Collected *: *([0-9]+)", done.stderr).group(1))
