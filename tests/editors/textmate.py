"""Runs a TextMate grammar over lines, as an editor does."""
import collections, json, re

Rule = collections.namedtuple("Rule", "start stop name captures patterns")


class Grammar:
    """A TextMate grammar. Of all that may begin, the first on the line does, and of these the first in the rules; the end of the
    rule that is open comes before them. Where an editor would stop, since it came no further, there is an error."""

    KEYS = {"comment", "match", "name", "captures", "begin", "beginCaptures", "end", "patterns", "include"}

    def __init__(self, path):
        self.source = json.loads(path.read_text())
        self.rules, self.lines, self.used = {}, {}, set()
        self.root = Rule(None, None, None, {}, self.source["patterns"])

    def of(self, patterns):
        """The rules that some patterns come to, in their order."""
        if id(patterns) not in self.rules:
            self.rules[id(patterns)] = [rule for one in patterns for rule in self.of_one(one)]
        return self.rules[id(patterns)]

    def of_one(self, one):
        if set(one) - self.KEYS:
            raise ValueError(f"a rule has keys that are not run here: {sorted(set(one) - self.KEYS)}")
        if "include" in one:
            name = one["include"].removeprefix("#")
            self.used.add(name)
            return self.of_one(self.source["repository"][name])
        if "match" not in one and "begin" not in one:
            return self.of(one["patterns"])
        captures = {int(group): given for group, given in one.get("captures", one.get("beginCaptures", {})).items()}
        return [Rule(re.compile(one.get("match", one.get("begin"))), re.compile(one["end"]) if "end" in one else None,
                     one.get("name"), captures, one.get("patterns", []))]

    def scopes(self, lines):
        """The innermost scope of each character of each line, without its last part; none where there is none."""
        stack, shown = (self.root,), []
        for line in lines:
            # A line is read by the rules that are open in front of it, and many decks have the same lines.
            key = (line, *map(id, stack))
            if key not in self.lines:
                own, behind = [None] * (len(line) + 1), [(rule, -1) for rule in stack]
                self.read(line + "\n", 0, behind, own)
                scopes = [scope and scope.removesuffix(".pathway") for scope in own[:-1]]
                self.lines[key] = scopes, tuple(rule for rule, begun in behind)
            scopes, stack = self.lines[key]
            shown.append(scopes)
        return shown

    def read(self, line, at, stack, shown):
        kept = {}

        def search(regex):
            """The next match, which is that of before where it is not passed yet."""
            if regex not in kept or kept[regex] and kept[regex].start() < at:
                kept[regex] = regex.search(line, at)
            return kept[regex]

        while True:
            open_rule, begun = stack[-1]
            found = open_rule.stop and search(open_rule.stop)
            chosen = None
            for rule in self.of(open_rule.patterns):
                match = search(rule.start)
                if match and (not found or match.start() < found.start()):
                    found, chosen = match, rule
            self.paint(shown, at, found.start() if found else len(line), stack)
            if not found:
                return
            if chosen is None:
                if found.end() == at == begun:
                    raise ValueError(f"a rule begins and ends at character {at} of {line!r}")
                self.paint(shown, found.start(), found.end(), stack)
                stack.pop()
            elif chosen.stop is None:
                if found.end() == at:
                    raise ValueError(f"a rule takes no character at {at} of {line!r}")
                self.paint(shown, found.start(), found.end(), stack + [(chosen, 0)])
                self.capture(line, found, chosen, shown)
            else:
                if found.end() == at and chosen is open_rule:
                    raise ValueError(f"a rule begins in itself at {at} of {line!r}")
                stack.append((chosen, at))
                self.paint(shown, found.start(), found.end(), stack)
                self.capture(line, found, chosen, shown)
            at = found.end()

    def paint(self, shown, start, end, stack):
        """Shows the innermost scope of the rules that are open."""
        scope = next((rule.name for rule, begun in reversed(stack) if rule.name), None)
        if scope:
            shown[start:end] = [scope] * (end - start)

    def capture(self, line, found, rule, shown):
        """What a rule shows of its captures. One with patterns is read by these, whatever stands around it."""
        for group, given in sorted(rule.captures.items()):
            start, end = found.span(group)
            if start < 0:
                continue
            if "name" in given or "patterns" in given:
                shown[start:end] = [given.get("name")] * (end - start)
            if "patterns" in given:
                self.read(line[:end], start, [(Rule(None, None, None, {}, given["patterns"]), -1)], shown)
