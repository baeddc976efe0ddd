"""The ways through a program (docs/reference/LANGUAGE.md): its statements as a graph, and what may happen on its ways."""
from collections import deque

from explaining.facts import Facts, after, at_start, condition_of
from explaining.steps import Trees, steps_of

MOST_STATES = 6000
MOST_PERFORMS = 24
NOTHING = Facts(frozenset())


class Node:
    """A place of a program: a statement, with the nodes that may be next, or the end of a paragraph."""

    def __init__(self, kind, step=None, following=None, paragraph=None):
        self.kind, self.step, self.next, self.paragraph = kind, step, following, paragraph
        self.then = self.other = None
        self.piece = step.piece if step else None
        self.condition = condition_of(step.piece) if kind in ("if", "until") else None


def kind_of(piece):
    """How a statement goes on."""
    words = {token.upper for token in piece.tokens}
    if piece.verb == "PERFORM":
        return "until" if "UNTIL" in words else "times" if "TIMES" in words else "choice" if "DEPENDING" in words else "perform"
    return "if" if piece.verb == "IF" else "size" if piece.opens else "do"


class State:
    """A place on a way: the node, the paragraphs that are performed, what is known, and the mark that a walk sets."""

    def __init__(self, node, stack, facts, mark, before=None):
        self.node, self.stack, self.facts, self.mark, self.before = node, stack, facts, mark, before

    @property
    def place(self):
        return id(self.node), self.stack, self.mark

    def way(self):
        """The states from the start to this one."""
        found, state = [], self
        while state:
            found.append(state)
            state = state.before
        return found[::-1]


class TooManyWays(Exception):
    """A program has more ways than can be gone."""


class Graph:
    """The graph of a program. On its ways is known what the statements of a kind hang on."""

    def __init__(self, program, is_meant):
        self.program, self.paragraphs, self.firsts = program, program.paragraphs, {}
        self.asked = Trees(program).asked(is_meant)
        first_nodes = []
        for place, (name, pieces) in enumerate(self.paragraphs):
            end = Node("end", paragraph=place)
            first_nodes.append(self.chain(steps_of(pieces), end))
            self.firsts.setdefault(name.upper, place)
        self.first_nodes = first_nodes

    def chain(self, steps, following):
        """The node of the first of these statements, with what follows them after the last."""
        for step in reversed(steps):
            node = Node(kind_of(step.piece), step, following)
            if node.kind in ("if", "size"):
                node.then, node.other = self.chain(step.then, following), self.chain(step.other, following)
            following = node
        return following

    def walk(self, meet, mark=None, knows=True):
        """Goes all ways from the start. What a walk makes of a statement says `meet`: it is given the state and the statement, or
        none at the end of the program, and gives the next mark and whether the way goes on. It gives for each place those from
        which it is reached."""
        facts = at_start(self.program, self.asked) if knows else NOTHING
        waiting = deque([State(self.first_nodes[0], (), facts, mark)] if self.first_nodes else [])
        seen, before = set(), {}
        while waiting:
            state = waiting.popleft()
            key = (*state.place, state.facts.frozen())
            if state.before:
                before.setdefault(state.place, set()).add(state.before.place)
            if key in seen:
                continue
            seen.add(key)
            if len(seen) > MOST_STATES:
                raise TooManyWays
            for following in self.following(state, meet):
                following.facts = following.facts if knows else NOTHING
                waiting.append(following)
        return before

    def following(self, state, meet):
        """The states that may be next."""
        node, piece = state.node, state.node.piece
        if node.kind == "end":
            yield from self.ended(state, meet)
            return
        mark, goes_on = meet(state, piece)
        ends = piece.verb == "STOP" or piece.verb == "EXIT" and len(piece.tokens) > 1
        if ends:
            meet(state, None)
        if not goes_on or ends:
            return
        facts = after(self.program, piece, state.facts)
        if node.kind == "if":
            holds = facts.holds(node.condition)
            if holds is not False:
                yield State(node.then, state.stack, facts.assume(node.condition, True), mark, state)
            if holds is not True:
                yield State(node.other, state.stack, facts.assume(node.condition, False), mark, state)
        elif node.kind == "size":
            yield State(node.then, state.stack, state.facts, mark, state)
            yield State(node.other, state.stack, facts, mark, state)
        elif piece.verb == "PERFORM":
            yield from self.performed(state, facts, mark)
        else:
            yield State(node.next, state.stack, facts, mark, state)

    def performed(self, state, facts, mark):
        """The states after a PERFORM: at the paragraph that it runs, and after it."""
        node = state.node
        targets = [self.firsts[tokens[0].upper] for tokens in node.piece.uses("paragraph")]
        holds = facts.holds(node.condition) if node.kind == "until" else None
        if node.kind == "until" and holds is not False:
            yield State(node.next, state.stack, facts.assume(node.condition, True), mark, state)
        if node.kind == "until":
            facts = facts.assume(node.condition, False)
        if node.kind == "times":
            yield State(node.next, state.stack, facts, mark, state)
        if holds is True or len(state.stack) >= MOST_PERFORMS:
            return
        back = node if node.kind in ("until", "times") else node.next
        for target in targets:
            yield State(self.first_nodes[target], (*state.stack, (target, back)), facts, mark, state)

    def ended(self, state, meet):
        """The states after the end of a paragraph."""
        place = state.node.paragraph
        if state.stack and state.stack[-1][0] == place:
            yield State(state.stack[-1][1], state.stack[:-1], state.facts, state.mark, state)
        elif place + 1 < len(self.first_nodes):
            yield State(self.first_nodes[place + 1], state.stack, state.facts, state.mark, state)
        else:
            meet(state, None)


def reaching(before, places, barred=()):
    """The places from which some of these are reached, with these, on ways that go through none that is barred."""
    found, waiting = set(places), list(places)
    while waiting:
        for place in before.get(waiting.pop(), ()):
            if place not in found and place not in barred:
                found.add(place)
                waiting.append(place)
    return found


def wrong_turn(state, good):
    """The statement of a way after which it comes to none of the good places any more, and the first one after that; none
    where it comes to none from its start on."""
    way = state.way()
    for here, following in zip(reversed(way[:-1]), reversed(way)):
        if here.place in good and following.place not in good:
            return turn_of(here, following)
    return None


def turn_of(here, following):
    """What a way does at a statement that it leaves for another place: the branch that it goes, or the statement itself."""
    node = here.node
    if node.kind in ("if", "size"):
        steps = node.step.then if following.node is node.then and node.step.then else node.step.other
        is_then = following.node is node.then and (node.step.then or node.then is not node.other)
        return (steps[0].piece if steps else node.piece), is_then
    return node.piece or following.node.piece, None
