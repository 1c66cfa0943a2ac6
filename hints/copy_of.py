"""A text that is mended place by place, which knows of each of its bytes where it came from."""


class Copy:
    """The bytes of a text as characters, each with its place in the text that was given."""

    def __init__(self, text, origin=None):
        self.text = text
        self.origin = list(range(len(text) + 1)) if origin is None else origin

    def put(self, start, stop, said):
        """A copy with other characters between two places; what is new there counts as standing at the first."""
        origin = self.origin[:start] + [self.origin[start]] * len(said) + self.origin[stop:]
        return Copy(self.text[:start] + said + self.text[stop:], origin)

    def blank(self, start, stop):
        """A copy with blanks between two places, where lines end as they did."""
        return self.put(start, stop, "".join("\n" if it == "\n" else " " for it in self.text[start:stop]))


def line_and_column(text, at):
    """The line and the column of a place, both from 1."""
    return text.count("\n", 0, at) + 1, at - (text.rfind("\n", 0, at) + 1) + 1
