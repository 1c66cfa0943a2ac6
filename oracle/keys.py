"""When two states of the plain machine are one: their keys are equal where a renaming of threads, variables, cells, ports and procedures
makes them the same, as far as the threads that are left can come. What no thread can come to, as the old content of a cell that was
read and dropped, is in no key."""


class Key:
    """What some threads of a state are, up to the numbers of their variables, cells and procedures."""

    def __init__(self, state, names):
        self.state, self.numbers, self.said = state, {}, []
        for name in names:
            self.said.append("thread")
            self.add_stack(state.threads[name])

    def add_stack(self, stack):
        while stack:
            (kind, *parts), stack = stack
            self.said.append(kind)
            if kind == "report":
                self.add(parts[0])
            elif kind == "goals":
                for pairs in parts:
                    self.said.append(len(pairs))
                    for side in [side for pair in pairs for side in pair]:
                        self.add(side)
            else:
                self.said.extend(part if isinstance(part, str) else id(part) for part in parts[:-1])
                self.add_names(parts[-1])

    def add_names(self, environment):
        for name in sorted(environment):
            self.add(environment[name])

    def add(self, side):
        """Adds a variable with what it is bound to, where it comes first, or a node."""
        left = [side]
        while left:
            side = left.pop()
            if isinstance(side, int):
                side = self.opened(side)
            if side is not None:
                left.extend(reversed(self.behind(side)))

    def opened(self, variable):
        """The node of a variable that comes for the first time."""
        root = self.state.root(variable)
        known = root in self.numbers
        self.said.append(self.numbers.setdefault(root, len(self.numbers)))
        return None if known else self.state.known(root)

    def behind(self, node):
        """Adds a node, and gives the variables that it leads to."""
        self.said.append(node[0])
        if node[0] in ("integer", "atom"):
            self.said.append(node[1])
            return ()
        if node[0] == "record":
            self.said.extend((node[1], *(feature for feature, _ in node[2])))
            return [variable for _, variable in node[2]]
        known = node[:2] in self.numbers
        self.said.append(self.numbers.setdefault(node[:2], len(self.numbers)))
        if known:
            return ()
        if node[0] in ("cell", "port"):
            return [self.state.held[node]]
        self.said.append(id(node[3]))
        return [node[4][name] for name in sorted(node[4])]


def key(state):
    """The key of a state. Threads stand in the order of what each is by itself, since nothing that is printed tells their names."""
    alone = {name: hash(tuple(Key(state, [name]).said)) for name in state.threads}
    return state.ended, *Key(state, sorted(alone, key=lambda name: (alone[name], name))).said


def key_by_names(state):
    """The key of a state where each thread keeps its name and the number of those that it started."""
    names = sorted(state.threads)
    return state.ended, *((name, state.births[name]) for name in names), *Key(state, names).said
