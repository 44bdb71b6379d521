#!/usr/bin/env python3
"""Judge questions: an independent judge beside the finder's own.

Reads the reader's result lines and adds a verdict to each that tells a
question: `sure N`, or `refused 7`. The rules are those of docs/BOUNDED.md,
with sets of names. A variable that is used nowhere else gets a name that no
text can have. Both orders of AND and of `/` are always tried.
"""

import re
import sys
from functools import lru_cache
from itertools import count

PART = re.compile(rb'\(([a-z]+)|(\))|("[^"]*"|<[^>]*>|\?[A-Za-z0-9_]+)')

FRESH = count()


def parse(text):
    """The tree of a prefix form, as nested tuples: (name, part, ..)."""
    stack = [[]]
    for opened, closed, leaf in PART.findall(text):
        if opened:
            stack.append([opened.decode()])
        elif closed:
            done = tuple(stack.pop())
            stack[-1].append(done)
        else:
            stack[-1].append(leaf)
    (tree,) = stack[0]
    return tree


def names_of(end):
    return frozenset([end]) if end.startswith(b"?") else frozenset()


def new_name():
    return b"?new-%d" % next(FRESH)


def sure(p):
    kind = p[0]
    if kind == "empty":
        return frozenset()
    if kind == "line":
        return names_of(p[1]) | names_of(p[3])
    if kind == "and":
        return sure(p[1]) | sure(p[2])
    if kind == "union":
        return sure(p[1]) & sure(p[2])
    return sure(p[1])  # opt


def known(end, fixed):
    return not end.startswith(b"?") or end in fixed


def line_bounded(a, path, b, fixed):
    kind = path[0] if isinstance(path, tuple) else "iri"
    if kind in ("iri", "not"):
        return known(a, fixed)
    if kind == "inv":
        return line_bounded(b, path[1], a, fixed)
    if kind == "alt":
        return line_bounded(a, path[1], b, fixed) and line_bounded(a, path[2], b, fixed)
    if kind == "seq":
        m = new_name()
        first, second = (a, path[1], m), (m, path[2], b)
        return any(
            line_bounded(*x, fixed) and line_bounded(*y, fixed | names_of(x[0]) | names_of(x[2]))
            for x, y in ((first, second), (second, first))
        )
    m, n = new_name(), new_name()  # star
    return (known(a, fixed) and line_bounded(m, path[1], n, frozenset([m]))) or (
        known(b, fixed) and line_bounded(m, path[1], n, frozenset([n]))
    )


@lru_cache(maxsize=None)
def bounded(p, fixed):
    kind = p[0]
    if kind == "empty":
        return True
    if kind == "line":
        return line_bounded(p[1], p[2], p[3], fixed)
    if kind == "and":
        return any(bounded(x, fixed) and bounded(y, fixed | sure(x)) for x, y in ((p[1], p[2]), (p[2], p[1])))
    if kind == "union":
        return bounded(p[1], fixed) and bounded(p[2], fixed) and sure(p[1]) == sure(p[2])
    return bounded(p[1], fixed) and bounded(p[2], sure(p[1]))  # opt


def judge(result):
    """A result line with its verdict."""
    if not result.startswith(b"ok "):
        return result
    tree = parse(result.split(b" ", 3)[3])
    if bounded(tree, frozenset()):
        return result + b" sure %d" % len(sure(tree))
    return result + b" refused 7"


def main():
    for line in sys.stdin.buffer:
        sys.stdout.buffer.write(judge(line.rstrip(b"\n")) + b"\n")


if __name__ == "__main__":
    main()
