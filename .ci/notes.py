"""What the scripts that build programs have in common: how they run commands, where programs stand, and the note beside each.

A program stands in out/KIND/NUMBER/, KIND being `unproved` or `proved` and NUMBER what .ci/fingerprint tells of the sources, so a
program is never run for other sources than its own. The file `note` beside it has a line for each of: the commit, whether sources
differ from it, and the toolchain.
"""
import contextlib
import errno
import os
import pathlib
import shutil
import signal
import subprocess
import sys

top = pathlib.Path(__file__).resolve().parent.parent
PROGRAM = "oz_main"
CODE_OF = {"unproved": ["code"], "proved": []}
ENDING = (signal.SIGINT, signal.SIGTERM, signal.SIGHUP)
KEPT = 8  # so many programs of each kind stay, the newest


def end_on_signals():
    """Has a signal end this script with what it has begun. A second signal changes nothing."""
    def end(number, _):
        for it in ENDING:
            signal.signal(it, signal.SIG_IGN)
        sys.exit(128 + number)
    for it in ENDING:
        signal.signal(it, end)


@contextlib.contextmanager
def started(words, **how):
    """A command that runs, in a session of its own, all of which is ended where this ends before it.

    A signal that comes while the command begins waits until this can end it."""
    how = {"stdin": subprocess.DEVNULL, "stdout": subprocess.PIPE, "stderr": subprocess.STDOUT, **how}
    signal.pthread_sigmask(signal.SIG_BLOCK, ENDING)
    try:
        with subprocess.Popen(list(map(str, words)), text=True, errors="replace", start_new_session=True, preexec_fn=let_signals, **how) as command:
            try:
                let_signals()
                yield command
            finally:
                end_session(command)
    finally:
        let_signals()


def let_signals():
    signal.pthread_sigmask(signal.SIG_UNBLOCK, ENDING)


def end_session(command):
    """Ends a command and what it has begun, at last with force."""
    for number in (signal.SIGTERM, signal.SIGKILL):
        with contextlib.suppress(ProcessLookupError):
            os.killpg(command.pid, number)
        with contextlib.suppress(subprocess.TimeoutExpired):
            command.wait(timeout=5)


def said(*words):
    """What a command prints, or nothing where it cannot."""
    try:
        run = subprocess.run(words, cwd=top, stdin=subprocess.DEVNULL, stdout=subprocess.PIPE, stderr=subprocess.DEVNULL, text=True)
    except OSError:
        return ""
    return run.stdout.strip() if run.returncode == 0 else ""


def number(kind):
    """The number of the sources that a program of this kind is made of."""
    words = [top / ".ci" / "fingerprint", *CODE_OF[kind]]
    return subprocess.run(words, stdout=subprocess.PIPE, text=True, check=True).stdout.strip()


def text():
    """The note of a program that is built now."""
    commit = said("git", "rev-parse", "--short=12", "HEAD") or "none"
    changed = said("git", "status", "--porcelain", "--", "HANDLES", "crates.txt", "crates")
    return f"commit {commit}{' with changes' if changed else ''}\nkit {said('rt', 'version')}\n"


def put(ready, place):
    """Moves a folder to its place. One that another puts there meanwhile is of the same sources, and stays."""
    shutil.rmtree(place, ignore_errors=True)
    try:
        ready.rename(place)
    except OSError as error:
        if error.errno not in (errno.EEXIST, errno.ENOTEMPTY):
            raise
        shutil.rmtree(ready)


def keep(kind, number, program, note):
    """Puts a program and its note where they are looked for, at once, and drops the oldest. Gives the program's place."""
    store = top / "out" / kind
    ready = store / f"ready-{os.getpid()}"
    ready.mkdir(parents=True)
    shutil.copy2(program, ready / PROGRAM)
    (ready / "note").write_text(note)
    put(ready, store / number)
    with contextlib.suppress(FileNotFoundError):
        os.utime(store / number)
    old = sorted((it for it in store.iterdir() if it.is_dir()), key=lambda it: it.stat().st_mtime, reverse=True)[KEPT:]
    for folder in old:
        with contextlib.suppress(OSError):
            shutil.rmtree(folder)
    return store / number / PROGRAM


def main(before):
    """Keeps the program that a passed gate left, where the sources are those of its beginning: .ci/notes.py NUMBER."""
    if number("proved") != before:
        sys.exit("a source was changed while the gate ran, so its program is not kept")
    keep("proved", before, top / "crates" / PROGRAM / "out" / PROGRAM, text())


if __name__ == "__main__":
    main(sys.argv[1])
