"""Holds the plain replay over sites to the program: saved runs of texts, whose lines, ends and numbers of steps have to agree, and what a trace tells
to what has to hold of every run."""
import json
import subprocess

from draws import Counting, Drawn
from saved_reading import read_saved
from tracing import WrongRun, trace_text

MOST_STEPS = 3000
# one run in so many is turned wrong, too
EVERY = 10


class Untrue(Exception):
    """A trace tells what cannot be."""


def hold(is_so, said):
    if not is_so:
        raise Untrue(said)


def ways(number):
    """The words of a run, by its number: the fixed order, a drawn one, or two workers."""
    order = (("--workers", "0"), ("--seed", str(number)), ("--workers", "2"))[number % 3]
    return "--sites", str(number // 3 % 4 + 1), *order, "--steps", str(MOST_STEPS)


def texts(count):
    """Racy texts, drawn at random."""
    for number in range(count):
        yield (Drawn if number % 2 else Counting)(f"replay {number}").text


def saved(program, text, number):
    """A saved run of a text, or None where it has none, and what `check` says of it."""
    data = subprocess.run([program, *ways(number), "save"], input=text.encode(), stdout=subprocess.PIPE).stdout
    if not data.startswith(b"ozrun "):
        return None, None
    checked = subprocess.run([program, "check"], input=data, stdout=subprocess.PIPE).stdout
    return data, checked.decode().split("\n")[-2]


def fault(program, text, number):
    """What is wrong with the replay of a run of this text, or None."""
    data, checked = saved(program, text, number)
    if data is None:
        return None
    run = read_saved(data)
    try:
        told, world = trace_text(run, False)
        hold(checked == f"checked entries={len(run.entries)} picks={world.picks}", f"{checked}, and {world.picks} picks by the replay")
        holds(json.loads(told))
        return None if number % EVERY or refuses(run) else "a wrong run is made again"
    except (WrongRun, Untrue) as wrong:
        return f"{' '.join(ways(number))}: {wrong}"


def refuses(run):
    """Whether the replay refuses the run with other lines, with a unit more, and with another end."""
    first = run.entries[0]
    others = (
        run._replace(entries=[first._replace(lines=(*first.lines, b"more")), *run.entries[1:]]),
        run._replace(entries=[*run.entries[:-1], run.entries[-1]._replace(units=(*run.entries[-1].units, (run.sites, 99999)))]),
        run._replace(end=run.end + b"0"),
    )
    for other in others:
        try:
            trace_text(other, False)
            return False
        except WrongRun:
            pass
    return True


# ---- what holds of each trace


class Facts:
    """What a page derives from a trace, entry by entry: who waits for what, what each site knows, and where tokens are."""

    def __init__(self, trace):
        self.trace, self.known, self.waits, self.ended = trace, {}, {}, set()
        self.site_of, self.tokens, self.stationary, self.sent = {"1.0": 1}, {}, set(), []

    def learn(self, site, equations):
        for variable, term in equations:
            hold(self.known.setdefault((site, variable), term) == term, f"{variable} has two terms at site {site}")
            owner = int(variable.split(".")[0])
            hold(self.known.get((owner, variable)) == term, f"{variable} is known at site {site} and not at its owner")

    def value(self, site, variable):
        while isinstance(self.known.get((site, variable)), str):
            variable = self.known[site, variable]
        return self.known.get((site, variable))

    def is_woken(self, site, thread):
        """Whether what a thread waits for has come."""
        row, effect = self.waits[thread]
        if "w" not in effect:
            return False
        is_any = row == -1 or (row >= 0 and self.trace["rows"][row][0] == "test")
        return any((site, it) in self.known if is_any else self.value(site, it) is not None for it in effect["w"])

    def deliver(self, site, kind, to, about):
        hold(to == site, f"{kind} came to site {site}")
        if kind == "Put":
            hold(self.tokens[about[0]] == "travels", f"the token of {about[0]} comes from nowhere")
            self.tokens[about[0]] = site
        if kind in ("PortEnd", "CellOld"):
            self.waits.pop(about[0])
        for unit in self.serving:
            if kind in ("Put", "CellMake") and self.site_of[unit[0]] == site:
                self.waits.pop(unit[0])

    def send(self, site, kind, to, *about):
        self.sent.append((kind, to, about))
        hold(to != site, f"{kind} goes to its own sender")
        if kind == "Put":
            hold(self.tokens[about[0]] == site, f"site {site} sends the token of {about[0]}, and has it not")
            self.tokens[about[0]] = "travels"
        if kind == "Spawn":
            self.site_of[about[0]] = to
        if kind == "CellMake":
            self.stationary.add(about[0])

    def unit(self, site, thread, row, variables=(), effect=None):
        effect = effect or {}
        hold(self.site_of[thread] == site and thread not in self.ended, f"{thread} goes on at site {site}")
        hold(thread not in self.waits or self.is_woken(site, thread), f"{thread} goes on, and was not woken")
        self.waits.pop(thread, None)
        self.learn(site, effect.get("eq", ()))
        if "t" in effect:
            self.site_of[effect["t"]] = site
        if "c" in effect and self.trace["rows"][row][0] == "cell":
            self.tokens[effect["c"]] = site
        if "x" in effect and effect["x"][0] in self.tokens and self.trace["rows"][row][0] == "exchange":
            hold(self.tokens[effect["x"][0]] == site, f"{thread} exchanges without the token")
        if {"w", "wc", "wp"} & set(effect):
            self.waits[thread] = row, effect
        if "end" in effect:
            self.ended.add(thread)

    def entry(self, entry):
        site = entry["s"]
        self.serving = entry.get("d", [])
        self.learn(site, entry.get("eq", ()))
        if "m" in entry:
            hold(entry["m"] < len(self.sent), "a message comes before it is sent")
            kind, to, about = self.sent[entry["m"]]
            self.deliver(site, kind, to, about)
        for unit in entry["u"]:
            self.unit(site, *unit)
        for message in entry["out"]:
            self.send(site, *message)


def holds(trace):
    """Holds a trace to what has to be so in every run."""
    facts = Facts(trace)
    for entry in trace["entries"]:
        facts.entry(entry)
    if trace["end"].startswith("quiescent"):
        wanted = f"quiescent ended={len(facts.ended)} waiting={len(facts.site_of) - len(facts.ended)}"
        hold(trace["end"] == wanted, f"{trace['end']} and not {wanted}")
        for thread in facts.waits:
            hold(not facts.is_woken(facts.site_of[thread], thread), f"{thread} was woken, and stays")
        hold("travels" not in facts.tokens.values(), "a token travels at the end")
        hold(set(facts.waits) == set(facts.site_of) - facts.ended, "who did not end waits")


def agree_with_replay(program, given, count):
    """Whether the runs of the given texts, and of so many racy ones, are made again."""
    wrong = 0
    drawn = list(texts(count))
    for number, text in enumerate([*given, *drawn]):
        said = fault(program, text, number)
        if said:
            wrong += 1
            print(f"{said}\n{text}")
    print(f"replay over sites: {len(given) + len(drawn)} runs, {wrong} wrong")
    return wrong == 0
