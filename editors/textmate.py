"""Reads a text by a TextMate grammar, as far as the grammar of vscode/ goes: match, begin and end, captures, includes. Its regular
expressions are taken by the `re` of Python, which reads those of this grammar as Oniguruma does: it has none in which the two differ."""
import json
import re


class Grammar:
    """A grammar, with its regular expressions made ready."""

    def __init__(self, path):
        self.rules = json.loads(path.read_text())
        self.ready = {}

    def regex(self, said):
        return self.ready.setdefault(said, re.compile(said))

    def flat(self, patterns):
        """Patterns with what they include in their place."""
        for pattern in patterns:
            if "include" in pattern:
                yield from self.flat([self.rules["repository"][pattern["include"][1:]]])
            elif "match" in pattern or "begin" in pattern:
                yield pattern
            else:
                yield from self.flat(pattern["patterns"])

    def scopes(self, text):
        """The innermost scope of each byte's character, line by line, None where there is none."""
        found, open_rules = [], []
        for line in text.split("\n"):
            row = [rule.get("name") for rule in open_rules[-1:]] * len(line) or [None] * len(line)
            self.read_line(line, row, open_rules)
            found.append(row)
        return found

    def read_line(self, line, row, open_rules):
        at = 0
        while at <= len(line):
            inner = open_rules[-1] if open_rules else None
            rules = [{"match": inner["end"], "closes": True}] if inner else []
            rules += self.flat(inner.get("patterns", []) if inner else self.rules["patterns"])
            found = [(self.regex(rule.get("match") or rule["begin"]).search(line, at), rule) for rule in rules]
            found = [(match, rule) for match, rule in found if match]
            if not found:
                return
            match, rule = min(found, key=lambda pair: pair[0].start())
            self.take(match, rule, row, open_rules)
            if match.end() == at and not rule.get("closes"):
                at += 1
            at = max(at, match.end())
            if rule.get("closes") and match.start() == match.end() == len(line):
                return

    def take(self, match, rule, row, open_rules):
        """Marks what a rule has found, and opens or closes."""
        if rule.get("closes"):
            inner = open_rules.pop()
            outer = inner.get("name")
            row[match.start() :] = [outer] * (match.end() - match.start()) + [
                open_rules[-1].get("name") if open_rules else None
            ] * (len(row) - match.end())
            return
        row[match.start() : match.end()] = [rule.get("name")] * (match.end() - match.start())
        for number, capture in rule.get("captures", {}).items():
            row[match.start(int(number)) : match.end(int(number))] = [capture["name"]] * len(match[int(number)])
        if "begin" in rule:
            open_rules.append(rule)
            row[match.end() :] = [rule.get("name")] * (len(row) - match.end())
