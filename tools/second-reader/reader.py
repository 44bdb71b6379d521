#!/usr/bin/env python3
"""A second reader of question texts, for comparison with the finder's own.

Reads lines of hex from standard input, one text per line (an empty line is
the empty text), and writes one line for each text:

    ok NODES NAMES TREE       the text is a question within the limits
    refused N at OFFSET       refusals 2, 3, 5 and 6
    refused N                 refusals 1 and 4

It shares no method with the finder. Tokens are cut by one regular
expression. An Earley recogniser then follows the table GRAMMAR token by
token: the text stops being the beginning of a question exactly at the first
token that leaves the next Earley set empty. Trees are put together in the
chart, as the value of each completed rule.

docs/QUESTIONS.md states the language.
"""

import re
import sys

MAX_TEXT = 2048
MAX_OPEN = 16
MAX_NODES = 64
MAX_VARIABLES = 8
MAX_TERM = 128
MAX_NAME = 16

# ---------------------------------------------------------------- tokens

TOKEN = re.compile(
    rb"""
      (?P<blank>    [\x20\x09\x0d\x0a]+ )
    | (?P<iri>      < [\x21\x23-\x3b\x3d\x3f-\x5b\x5d\x5f\x61-\x7a\x7e\x80-\xff]+ > )
    | (?P<literal>  " [\x20\x21\x23-\x5b\x5d-\x7e\x80-\xff]* " )
    | (?P<variable> \? [A-Za-z0-9_]+ )
    | (?P<word>     [A-Za-z0-9_]+ )
    | (?P<mark>     [{}()|/^*!.] )
    | (?P<bad>      [\x00-\xff] )
    """,
    re.VERBOSE,
)


def tokens(text):
    """Yield (kind, offset, bytes). Keywords and marks are kinds of their own.

    The kind "bad" stands in no rule. It is a byte that begins no token, or
    the first byte of a token that is not closed or holds a byte out of place;
    nothing behind it is ever asked for. The last token is "end".
    """
    for match in TOKEN.finditer(text):
        kind, offset, raw = match.lastgroup, match.start(), match.group()
        if kind == "blank":
            continue
        if kind == "word":
            kind = raw.decode() if raw in (b"OPTIONAL", b"UNION") else "bad"
        elif kind == "mark":
            kind = raw.decode()
        yield kind, offset, raw
    yield "end", len(text), b""


# --------------------------------------------------------------- grammar

# A value is (number of nodes, spelling). A token's value is (0, its bytes).


def node(name, *parts):
    return (
        1 + sum(nodes for nodes, _ in parts),
        b"(" + b" ".join([name] + [spelling for _, spelling in parts]) + b")",
    )


def same(part):
    return part


def inner(_open, part, _close):
    return part


def one_node(token):
    return 1, token[1]


EMPTY = node(b"empty")

# (left side, right side, value of the left side from the values on the right)
# No right side is empty, and every nonterminal derives some tokens.
GRAMMAR = [
    ("text", ("group", "end"), lambda group, end: group),
    ("group", ("{", "}"), lambda a, b: EMPTY),
    ("group", ("{", "items", "}"), inner),
    ("items", ("joined",), same),
    ("items", ("optional",), lambda right: node(b"opt", EMPTY, right)),
    ("items", ("items", "joined"), lambda left, right: node(b"and", left, right)),
    ("items", ("items", "optional"), lambda left, right: node(b"opt", left, right)),
    ("joined", ("line",), same),
    ("joined", ("union",), same),
    ("optional", ("OPTIONAL", "group"), lambda word, group: group),
    ("union", ("group",), same),
    ("union", ("union", "UNION", "group"), lambda left, word, right: node(b"union", left, right)),
    ("line", ("term", "path", "term", "."), lambda a, path, b, dot: node(b"line", a, path, b)),
    ("term", ("iri",), same),
    ("term", ("literal",), same),
    ("term", ("variable",), same),
    ("path", ("sequence",), same),
    ("path", ("path", "|", "sequence"), lambda left, bar, right: node(b"alt", left, right)),
    ("sequence", ("step",), same),
    ("sequence", ("sequence", "/", "step"), lambda left, bar, right: node(b"seq", left, right)),
    ("step", ("starred",), same),
    ("step", ("^", "starred"), lambda hat, path: node(b"inv", path)),
    ("starred", ("base",), same),
    ("starred", ("base", "*"), lambda path, star: node(b"star", path)),
    ("base", ("iri",), one_node),
    ("base", ("!", "iri"), lambda bang, iri: node(b"not", one_node(iri))),
    ("base", ("!", "(", "members", ")"), lambda bang, a, members, b: node(b"not", members)),
    ("base", ("(", "path", ")"), inner),
    ("members", ("iri",), one_node),
    (
        "members",
        ("members", "|", "iri"),
        lambda left, bar, iri: (left[0] + 1, left[1] + b" " + iri[1]),
    ),
]

RULES_OF = {}
for _number, (_left, _right, _value) in enumerate(GRAMMAR):
    RULES_OF.setdefault(_left, []).append(_number)


class Chart:
    """An Earley chart that takes one token at a time.

    A set maps an item (rule, dot, origin) to the values left of the dot. The
    grammar is unambiguous and has no useless symbols, so an item with the dot
    moved is found in one way only; a second way would be a fault of the
    grammar, and is raised as one.
    """

    def __init__(self):
        self.sets = [{}]
        self.value = None
        self._close([((rule, 0, 0), ()) for rule in RULES_OF["text"]])

    def take(self, kind, raw):
        """Add the set behind this token. False when that set is empty."""
        before = self.sets[-1]
        moved = [
            ((rule, dot + 1, origin), values + ((0, raw),))
            for (rule, dot, origin), values in before.items()
            if GRAMMAR[rule][1][dot : dot + 1] == (kind,)
        ]
        if not moved:
            return False
        self.sets.append({})
        self._close(moved)
        return True

    def _close(self, agenda):
        here = len(self.sets) - 1
        current = self.sets[here]
        while agenda:
            item, values = agenda.pop()
            rule, dot, origin = item
            if item in current:
                if dot:
                    raise AssertionError("ambiguous grammar: %r" % (GRAMMAR[rule],))
                continue
            current[item] = values
            left, right, value = GRAMMAR[rule]
            if dot < len(right):
                # Predict. A token has no rules.
                for other in RULES_OF.get(right[dot], ()):
                    agenda.append(((other, 0, here), ()))
                continue
            # Complete. No right side is empty, so the set at origin is done.
            whole = value(*values)
            if left == "text":
                self.value = whole
            for (other, at, start), seen in self.sets[origin].items():
                if GRAMMAR[other][1][at : at + 1] == (left,):
                    agenda.append(((other, at + 1, start), seen + (whole,)))


# --------------------------------------------------------------- reading


def refused(number, offset=None):
    if offset is None:
        return b"refused %d" % number
    return b"refused %d at %d" % (number, offset)


def read(text):
    """The result line for one text, without its LF."""
    if len(text) > MAX_TEXT:
        return refused(1)
    chart = Chart()
    opened = 0
    names = []
    for kind, offset, raw in tokens(text):
        # The first token at fault ends the reading; within one token the
        # tests stand in the order of their numbers.
        if not chart.take(kind, raw):
            return refused(2, offset)
        if kind in ("{", "("):
            opened += 1
            if opened > MAX_OPEN:
                return refused(3, offset)
        elif kind in ("}", ")"):
            opened -= 1
        elif kind == "variable":
            if raw not in names:
                names.append(raw)
            if len(names) > MAX_VARIABLES:
                return refused(5, offset)
            if len(raw) - len(b"?") > MAX_NAME:
                return refused(6, offset)
        elif kind in ("iri", "literal"):
            if len(raw) - len(b"<>") > MAX_TERM:
                return refused(6, offset)
    nodes, tree = chart.value
    if nodes > MAX_NODES:
        return refused(4)
    return b"ok %d %s %s" % (nodes, b",".join(names) or b"-", tree)


def main():
    lines = sys.stdin.buffer.read().split(b"\n")
    if lines[-1] == b"":
        lines.pop()
    for line in lines:
        sys.stdout.buffer.write(read(bytes.fromhex(line.decode("ascii"))) + b"\n")


if __name__ == "__main__":
    main()
