"""A trace as a message sequence chart in text: a column for each site, or for each thread where one site ran; a line for a turn, and an arrow where a
message is delivered."""
SIGNS = {"bar": "│", "line": "─", "right": "▶", "left": "◀", "dot": "●", "wait": "‖", "print": "▸", "raise": "✗", "times": "×"}
PLAIN = {"bar": "|", "line": "-", "right": ">", "left": "<", "dot": "o", "wait": "~", "print": ">", "raise": "!", "times": "x"}


class Chart:
    def __init__(self, trace, width, signs):
        self.trace, self.signs = trace, signs
        used = sorted({entry["s"] for entry in trace["entries"]})
        self.one = len(used) == 1
        if self.one:  # a lane for each thread, where there is one site
            used = list(dict.fromkeys(unit[0] for entry in trace["entries"] for unit in entry["u"]))
        self.lane = max(14, min(34, (width - 6) // len(used)))
        self.place = {lane: 6 + k * self.lane for k, lane in enumerate(used)}
        self.total = 6 + len(used) * self.lane
        self.names, self.messages = {}, []
        for entry in trace["entries"]:
            for unit in entry["u"]:
                self.name(unit)
            self.messages.extend((entry["s"], said) for said in entry.get("out", []))

    def name(self, unit):
        """The names of variables: of the `local` that made them, else of a pattern."""
        if len(unit) < 3 or unit[1] < 0:
            return
        row = self.trace["rows"][unit[1]]
        declared = row[3] if row[0] == "local" else []
        made = unit[3] if len(unit) > 3 else {}
        for kind in ("c", "p"):
            if kind in made:
                self.names[kind + made[kind]] = self.names.get(unit[2][1], made[kind])
        for named, variable in zip(declared, unit[2]):
            if named:
                self.names[variable] = named[0]

    def blank(self, turn=""):
        """A line of the chart: the lanes alone."""
        cells = list(f"{turn:>4}".ljust(self.total))
        for at in self.place.values():
            cells[at] = self.signs["bar"]
        return cells

    def put(self, cells, at, text):
        for k, sign in enumerate(text[: max(0, len(cells) - at)]):
            cells[at + k] = sign

    def about(self, said):
        kind, _, *about = said
        first = self.names.get(about[0], about[0])
        if kind not in ("Register", "BindReq", "Binding"):
            first = self.names.get(("p" if kind == "PortSend" else "c") + about[0], about[0])
        if kind in ("Spawn", "PortEnd", "CellOld"):
            first = about[0]
        if kind in ("BindReq", "Binding"):
            first += " = " + self.term(about[1])
        return f"{kind} {first}"

    def term(self, term):
        if isinstance(term, str):
            return self.names.get(term, "_" + term)
        if isinstance(term, int):
            return str(term).replace("-", "~")
        if "l" in term:
            parts = [self.names.get(variable, "_") for _, variable in term["f"]]
            return "|".join(parts) if term["l"] == "|" else f"{term['l']}({' '.join(parts)})"
        return term.get("i") or term.get("a") or ("<P/%d>" % term["n"] if "q" in term else "<Cell>" if "c" in term else "<Port>")

    def arrow(self, cells, number, to):
        source, said = self.messages[number]
        start, end = self.place[source], self.place[to]
        low, high = min(start, end), max(start, end)
        for at in range(low + 1, high):
            cells[at] = self.signs["line"]
        cells[start] = self.signs["dot"]
        cells[end - 1 if end > start else end + 1] = self.signs["right" if end > start else "left"]
        label = f" {number} {self.about(said)} "[: max(3, high - low - 4)]
        self.put(cells, low + (high - low - len(label) + 1) // 2, label)

    def stints(self, entry):
        """The threads that went on: with how many units, what their last one waits for or that it raised, and their lines."""
        printed = {}
        for unit, line in entry["lines"]:
            printed.setdefault(unit, []).append(line)
        found = []
        for number, unit in enumerate(entry["u"]):
            if not found or found[-1][0] != unit[0]:
                found.append([unit[0], 0, "", []])
            found[-1][1] += 1
            found[-1][3].extend(printed.get(number, ()))
            effect = unit[3] if len(unit) > 3 else {}
            if "w" in effect or "wc" in effect or "wp" in effect:
                found[-1][2] = self.signs["wait"] + self.awaited(unit, effect)
            elif "r" in effect:
                found[-1][2] = self.signs["raise"]
        return found

    def awaited(self, unit, effect):
        """What a unit waits for: a name, and the place of its statement."""
        variable = next(iter(effect.get("w", ())), "")
        if unit[1] < 0:
            return self.names.get(variable, "")
        row = self.trace["rows"][unit[1]]
        named = [name for name, used in zip(row[3], unit[2]) if used == variable and name]
        own = row[3][1 if row[0] in ("calc", "test", "select") else 0] if row[3] else 0
        name = named[0][0] if named else own[0] if own else ""
        return f"{name} {row[1][0]}:{row[1][1]}".strip()

    def text_at(self, turn, at, text):
        cells = self.blank(turn)
        room = self.total - at - 2
        self.put(cells, at + 2, text if len(text) <= room else text[: room - 1] + "…")
        return "".join(cells).rstrip()

    def lines(self):
        """All lines: of the turns of the trace's window."""
        first, last = self.trace.get("window", (0, len(self.trace["entries"])))
        head = [" "] * self.total
        self.put(head, 0, "turn")
        for site, at in self.place.items():
            self.put(head, max(5, at - 2), f"{'thread' if self.one else 'site'} {site}")
        yield "".join(head).rstrip()
        for number, entry in enumerate(self.trace["entries"]):
            if first <= number <= last:
                yield from self.turn(number, entry)
        yield self.trace["end"]

    def turn(self, number, entry):
        turn = number
        if "m" in entry and entry["m"] < len(self.messages) and not self.one:
            cells = self.blank(turn)
            self.arrow(cells, entry["m"], entry["s"])
            yield "".join(cells).rstrip()
            turn = ""
        said = [f"{thread}{self.signs['times']}{count}{mark}" for thread, count, mark, _ in self.stints(entry)]
        if not self.one and (said or turn != ""):
            yield self.text_at(turn, self.place[entry["s"]], " ".join(said))
        for thread, count, mark, lines in self.stints(entry):
            if self.one:
                yield self.text_at(turn, self.place[thread], f"{self.signs['times']}{count}{mark}")
                turn = ""
            for line in lines:
                yield self.text_at("", self.place[thread if self.one else entry["s"]], self.signs["print"] + " " + line)
