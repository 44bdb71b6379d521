"""What the plan of a question reaches over a shelf, by docs/WALKS.md.

Sub-questions are gathered by a worklist, from the whole question with nothing
fixed to all that they lead to. Which side goes first is what the second judge
says, by names. Nothing is evaluated on the way: which rows or pairs are
possible is looked up in the bags over the whole graph.
"""

from collections import namedtuple
from functools import lru_cache

from neighbours import judge
from semantics import is_iri, is_variable, merge

MOST = 256

# A pattern, the variables that judging has fixed, and what is given to them.
Part = namedtuple("Part", "pattern fixed row")

# A path, whether judging has fixed its ends, and the terms there (None where there is none).
Walk = namedtuple("Walk", "path left right x y")


@lru_cache(maxsize=None)
def walkable(path, left, right):
    """Whether a line with this path is bounded, by which of its ends are fixed."""
    ends = ((b"?left", left), (b"?right", right))
    return judge.line_bounded(b"?left", path, b"?right", frozenset(end for end, fixed in ends if fixed))


def from_left_end(walk):
    """Whether the plan walks this star from its left end."""
    return walk.left and walkable(walk.path[1], True, False)


def term_at(meaning, row, end):
    return row[meaning.names.index(end)] if is_variable(end) else end


# ---------------------------------------------------------- what leads where


def path_leads(meaning, walk):
    path, left, right, x, y = walk
    if isinstance(path, bytes) or path[0] == "not":
        return
    kind, p = path[0], path[1]
    if kind == "inv":
        yield Walk(p, right, left, y, x)
    elif kind == "alt":
        yield Walk(p, left, right, x, y)
        yield Walk(path[2], left, right, x, y)
    elif kind == "seq":
        q = path[2]
        if walkable(p, left, False):
            yield Walk(p, left, False, x, None)
            for _, m in meaning.links(p).suited((x, None)):
                yield Walk(q, True, right, m, y)
        else:
            yield Walk(q, False, right, None, y)
            for m, _ in meaning.links(q).suited((None, y)):
                yield Walk(p, left, True, x, m)
    elif from_left_end(walk):
        for _, m in meaning.links(path).suited((x, None)):
            yield Walk(p, True, False, m, None)
    else:
        for m, _ in meaning.links(path).suited((None, y)):
            yield Walk(p, False, True, None, m)


def pattern_leads(meaning, part):
    pattern, fixed, row = part
    kind = pattern[0]
    if kind == "line":
        _, a, path, b = pattern
        known = [judge.known(end, fixed) for end in (a, b)]
        yield Walk(path, *known, *(term_at(meaning, row, end) for end in (a, b)))
    elif kind == "and":
        first, second = pattern[1:] if judge.bounded(pattern[1], fixed) else pattern[:0:-1]
        yield Part(first, fixed, row)
        for solution in meaning.bag(first).suited(row):
            yield Part(second, fixed | judge.sure(first), merge(row, solution))
    elif kind == "union":
        yield Part(pattern[1], fixed, row)
        yield Part(pattern[2], fixed, row)
    elif kind == "opt":
        yield Part(pattern[1], fixed, row)
        for solution in meaning.bag(pattern[1]).suited(row):
            yield Part(pattern[2], judge.sure(pattern[1]), solution)


def leads(meaning, asking):
    return (path_leads if isinstance(asking, Walk) else pattern_leads)(meaning, asking)


def whole(meaning, pattern):
    """A question with nothing fixed."""
    return Part(pattern, frozenset(), (None,) * len(meaning.names))


def reached(meaning, pattern):
    first = whole(meaning, pattern)
    met, agenda = {first}, [first]
    while agenda:
        asking = agenda.pop()
        yield asking
        for other in leads(meaning, asking):
            if other not in met:
                met.add(other)
                agenda.append(other)


# ------------------------------------------------------ too many, and needs


def crowded(meaning, asking):
    if isinstance(asking, Part):
        return len(meaning.bag(asking.pattern).suited(asking.row)) > MOST
    links = meaning.links(asking.path)
    if asking.path[0] == "star":
        end = (asking.x, None) if from_left_end(asking) else (None, asking.y)
        if len(links.suited(end)) > MOST:
            return True
    return len(links.suited((asking.x, asking.y))) > MOST


def needed_by(asking):
    """The IRI at the left end of an IRI or negated line."""
    if isinstance(asking, Walk) and (isinstance(asking.path, bytes) or asking.path[0] == "not"):
        if asking.x is not None and is_iri(asking.x):
            return {asking.x}
    return set()


def needs(meaning, pattern):
    """The IRIs that are needed, or None where there are too many possible solutions."""
    found = set()
    for asking in reached(meaning, pattern):
        if crowded(meaning, asking):
            return None
        found |= needed_by(asking)
    return found
