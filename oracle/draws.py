"""Texts drawn at random. The same seed draws the same text."""
import random


class Drawn:
    """A text drawn at random: threads placed at sites share a few variables, cells, a port and a procedure."""

    BODIES = (
        "X = Y",
        "{Browse X}",
        "Y = g(X)",
        "X = Y {Browse Y}",
        "thread at 2 X = Y end",
        "if X then skip else {Browse Y} end",
        "case X of f(H T) then Y = T else Y = X end",
        "try X = Y catch E then {Browse E} end",
    )

    def __init__(self, seed):
        self.random = random.Random(seed)
        self.names = ["A", "B", "C", "D", "E"][: self.random.randint(2, 5)]
        self.cells = ["K", "L"][: self.random.choice((0, 0, 1, 1, 2))]
        self.ports = ["R"] if self.random.random() < 0.4 else []
        makers = [self.maker(self.cell(cell)) for cell in self.cells] + [self.maker(f"{{NewPort {self.name()} {port}}}") for port in self.ports]
        threads = [self.thread(2) if self.random.random() < 0.7 else self.statement(2) for _ in range(self.random.randint(2, 5))]
        made = f"local P {' '.join(self.cells + self.ports + self.names)} in proc {{P X Y}} {self.random.choice(self.BODIES)} end"
        self.text = " ".join([made, *makers, *threads, "end"])

    def name(self):
        return self.random.choice(self.names)

    def place(self):
        return f"at {self.random.randint(1, 70)} " if self.random.random() < 0.8 else ""

    def thread(self, depth):
        return f"thread {self.place()}{self.statements(depth)} end"

    def cell(self, cell):
        """How a cell is made: mobile, or stationary at some site."""
        if self.random.random() < 0.6:
            return f"{{NewCell {self.name()} {cell}}}"
        return f"local Home in Home = {self.random.randint(1, 70)} {{NewCellAt {self.name()} {cell} Home}} end"

    def maker(self, made):
        return f"thread {self.place()}{made} end" if self.random.random() < 0.5 else made

    def statements(self, depth, most=3):
        return " ".join(self.statement(depth - 1) for _ in range(self.random.randint(1, most)))

    def statement(self, depth):
        chosen = self.random.choices(("tell", "act", "body"), (8, 7, 4 if depth > 0 else 0))[0]
        return getattr(self, chosen)(depth)

    def tell(self, depth):
        a, b, c = self.name(), self.name(), self.name()
        simple = ("1", "2", "a", "true", "P", b, b, b)
        made = (f"f({b} {c})", f"f({b} {c})", f"f(x:{b})", f"{b}|{c}", f"{b} + {c}", f"{b} =< {c}", f"{b}.1")
        return f"{a} = {self.random.choice(simple + made)}"

    def act(self, depth):
        a, b = self.name(), self.name()
        acts = [f"{{Browse {a}}}"] * 4 + [f"{{Wait {a}}}", f"{{P {a} {b}}}", f"{{P {a} {b}}}", f"raise {a} end", f"{{{a} {b} {b}}}"]
        for cell in self.cells:
            acts += [f"{{Exchange {cell} {a} {b}}}"] * 3
        for port in self.ports:
            acts += [f"{{Send {port} {a}}}"] * 3
        return self.random.choice(acts)

    def body(self, depth):
        a = self.name()
        inner = lambda most=2: self.statements(depth, most)
        bodies = (
            lambda: self.thread(depth),
            lambda: self.thread(depth),
            lambda: f"try {inner()} catch E then {{Browse E}} end",
            lambda: f"case {a} of f(H T) then {{Browse H}} {{P H T}} else {inner(1)} end",
            lambda: f"case {a} of H|T then H = T else {inner(1)} end",
            lambda: f"if {a} then {inner(1)} else {inner(1)} end",
            lambda: f"local N in {inner(1)} {a} = f(N N) {{P N {self.name()}}} end",
        )
        return self.random.choice(bodies)()


class Counting:
    """A text drawn at random whose threads count in cells, send to a mailbox and a port, take a lock, print and wait for each other. Most of these
    texts have no tell that fails."""

    FRONT = "One = 1 Two = 2 Less = ~3 Free = free {NewCell One C} {NewCell Two K} {NewCell Free L} {NewCell Mails M} {NewPort Sent R}"
    STATEMENTS = (
        "local O N in {Exchange C O N} N = O + One end",
        "local O N in {Exchange C O N} N = Two + O end",
        "local O N in {Exchange C O N} N = O - Less end",
        "local O N Ten in Ten = 10 {Exchange C O N} N = O + Ten end",
        "local O N in {Exchange K O N} N = O + One end",
        "{Add One}",
        "{Add Two}",
        "{Once}",
        "{Exchange C A A}",
        "local V in {Exchange C V V} {Browse V} end",
        "local O N in {Exchange C O N} N = O * Two end",
        "local O N in {Exchange L O N} {Wait O} {Once} N = O end",
        "local O N in {Exchange M O N} O = A|N end",
        "local O N in {Exchange M O N} O = Two|N end",
        "{Send R Two}",
        "{Send R A}",
        "case Sent of H|T then {Browse H} else skip end",
        "A = One",
        "{Wait A}",
        "{Browse Two}",
        "thread {Once} B = A end",
        "{Wait B}",
        "case Mails of H|T then {Browse H} else skip end",
    )

    def __init__(self, seed):
        self.random = random.Random(seed)
        chosen = self.random.sample(self.STATEMENTS, 5) + ["{Once}", "local O N in {Exchange C O N} N = O + One end"]
        threads = [self.thread(chosen, f"D{number}") for number in range(1, self.random.randint(2, 4))]
        waits = [f"{{Wait D{number}}}" for number in range(1, len(threads) + 1) if self.random.random() < 0.7]
        procedures = (
            "proc {Once} local O N in {Exchange C O N} N = O + One end end "
            "proc {Add X} local O N in {Exchange C O N} N = O + X end end"
        )
        body = " ".join([self.FRONT, procedures, *threads, *waits, "local V in {Exchange C V V} {Browse V} end"])
        self.text = f"local Once Add One Two Less Free C K L M R Mails Sent A B D1 D2 D3 in {body} end"

    def thread(self, chosen, done):
        statements = [self.random.choice(chosen) for _ in range(self.random.randint(1, 3))]
        return f"thread at {self.random.randint(1, 4)} {' '.join(statements)} {done} = Free end"
