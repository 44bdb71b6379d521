#!/usr/bin/env python3
"""Write the cases for crates/shelf_corpus: by hand, then by dice.

A line has a kind of weight, a question and a page file in hex, and the IRIs in
hex that are recorded. The dice are those of the second reader, with a fixed
seed, so the same is written each time.
"""

import re
import sys
from collections import namedtuple

import engine
import plan
from neighbours import texts, web
from semantics import Graph, Meaning, TooLarge, is_iri, terms_of

Case = namedtuple("Case", "kind text data iris")

# What a store holds at most. Every case stays within.
TERMS, TEXT, TRIPLES, RECORD = 1024, 32768, 4096, 256

# ------------------------------------------------------------------ by hand

FOUR_PAGES = b"""\
@page <m:1>
<m:1> <p:alt> <m:2> .
<m:1> <p:alt> <m:3> .
@page <m:2>
<m:2> <p:val> "10u" .
@page <m:3>
<m:3> <p:val> "10u" .
<m:2> <p:val> "22u" .
@page <m:4>
<m:4> <p:val> "47u" ."""

FEEDERS = b"""\
@page <b:7>
<b:7> <p:place> <c:1> .
<b:7> <p:place> <c:2> .
@page <c:1>
<c:1> <p:alt> <c:3> .
@page <c:2>
<c:2> <p:alt> <c:3> .
@page <c:3>
<c:3> <p:fits> <f:1> .
<c:3> <p:fits> <f:2> .
"""

STATIC = b"""\
@page <a:1>
<a:1> <p:alt> <x:1> .
@page <x:1>
<x:1> <p:val> <y:1> .
@page <b:1>
<b:1> <p:names> <y:2> .
@page <y:1>
<y:1> <p:leads> <z:1> .
"""

# lines before the first page, a broken page for each cause, an empty page, fragments, repeated triples
ODD = b"""\
<m:1> <p:alt> <m:9> .
@page <m:1>
<m:1> <p:alt> <m:2> .
<m:1> <p:alt> <m:2> .

<m:1> <p:sub> <m:2> .
<m:1> <p:alt> <m:1#a> .
<m:1> <p:alt> <m:3> .
<m:1> <p:alt> <m:5> .
<m:1> <p:alt> "m:2" .
<m:1> <p:alt> <m:8> .
<m:1#a> <p:val> "a" .
<m:2> <p:val> "of m:2, by m:1" .
@page <m:2>
<m:2> <p:val> "" .
<m:2> <p:alt> <m:2> .
<m:1> <p:val> "of m:1, by m:2" .
@page <m:3>
<m:3> oops
<m:3> <p:val> "3" .
@page <m:4>
@page <m:5>
<m:5> <p:val> "5" .
@page <m:5>
"""

FOUR = [
    b"{ <m:1> <p:alt>/<p:val> ?v . }",
    b"{ <m:1> <p:alt>* ?x . }",
    b"{ ?x ^<p:alt> <m:1> . }",
    b"{ <m:3> !<p:alt> ?x . }",
    b"{ }",
    b"{ <m:1> <p:alt> ?x . OPTIONAL { ?x <p:val> ?v . } }",
    b"{ <m:1> <p:alt> ?x . OPTIONAL { ?x <p:val> ?v . } <m:4> <p:val> ?v . }",
    b"{ { <m:4> <p:val> ?v . } { <m:1> <p:alt> ?x . OPTIONAL { ?x <p:val> ?v . } } }",
    b"{ <m:1> <p:alt>|<p:alt> ?x . }",
    b'{ "10u" <p:alt>* ?x . }',
    b'{ "10u" <p:alt> ?x . }',
    b"{ ?x <p:val> ?v . <m:1> <p:alt> ?x . }",
    b"{ <m:1> <p:alt>*/<p:val> ?v . }",
    b"{ <m:1> <p:alt>* <m:3> . }",
    b"{ <m:3> (^<p:alt>)* <m:1> . }",
    b"{ <m:1> <p:alt>/<p:val>/<p:alt> ?x . }",
    b"{ <m:1> (<p:alt>/<p:val>)* ?x . }",
    b"{ <m:1> (<p:alt>|<p:val>)* ?x . }",
    b"{ <m:1> <p:alt>/(<p:val>*) ?x . }",
    b"{ OPTIONAL { <m:1> <p:alt> ?x . } }",
    b"{ OPTIONAL { <m:4> <p:alt> ?x . } <m:1> <p:alt> ?y . }",
    b"{ <m:1> <p:alt> ?x . { ?x <p:val> ?v . } UNION { ?v ^<p:val> ?x . } }",
    b"{ { <m:1> <p:alt> ?x . } UNION { <m:1> !<p:val> ?x . } UNION { <m:1> <p:alt>* ?x . } }",
    b"{ { <m:1> <p:alt> ?x . OPTIONAL { ?x <p:val> ?v . } } UNION { ?x ^<p:alt> <m:1> . OPTIONAL { <m:4> <p:val> ?v . } } }",
    b"{ { <m:1> <p:alt> ?x . OPTIONAL { <m:4> <p:val> ?v . } } UNION { <m:1> <p:alt> ?x . } OPTIONAL { ?x <p:val> ?v . } }",
    b'{ <m:1> <p:alt> ?x . OPTIONAL { ?x <p:val> "22u" . } OPTIONAL { ?x <p:val> "10u" . ?x <p:val> ?v . } }',
    b"{ <m:1> <p:alt> ?x . OPTIONAL { ?x <p:val> ?v . OPTIONAL { ?x <p:alt> ?y . } } }",
    b"{ <m:4> <p:val> ?v . OPTIONAL { <m:1> <p:alt> ?x . OPTIONAL { ?x <p:val> ?v . } } }",
    b"{ <m:1> <p:alt> ?x . <m:1> <p:alt> ?y . }",
    b"{ <m:1> <p:alt>* ?x . ?x <p:alt>* ?x . }",
    b'{ <m:1> <p:alt> ?x . ?x <p:val> "10u" . }',
    b"{ <m:1> <p:alt> <m:2> . <m:2> <p:val> <m:1> . <m:3> <p:val> ?v . }",
]

BOARD = [
    b"{ <b:7> <p:place>/<p:alt> ?c . ?f ^<p:fits> ?c . }",
    b"{ ?f ^<p:fits> ?c . <b:7> <p:place>/<p:alt> ?c . }",
    b"{ <b:7> <p:place>/<p:alt>/<p:fits> ?f . }",
    b"{ <b:7> <p:place>/(<p:alt>/<p:fits>) ?f . }",
    b"{ ?f (^<p:fits>)/(^<p:alt>)/^<p:place> <b:7> . }",
    b"{ <b:7> <p:place> ?p . ?p <p:alt> ?c . ?c <p:fits> ?f . }",
]

PLANS = [
    b"{ { <a:1> <p:alt> ?x . OPTIONAL { ?x <p:val> ?y . } } { ?y <p:leads> ?z . <b:1> <p:names> ?y . } }",
    b"{ <a:1> <p:alt> ?x . OPTIONAL { ?x <p:val> ?y . } ?y ^(<p:leads>*) ?z . <b:1> <p:names> ?y . <b:1> <p:names> ?z . }",
    b"{ <y:1> <p:alt> ?x . <a:1> <p:alt> ?y . }",
    b"{ <a:1> <p:alt> ?y . <y:1> <p:alt> ?x . }",
    b"{ <a:1> <p:alt>/^<p:alt> <b:1> . }",
    b"{ <y:1> <p:alt>/^<p:alt> <b:1> . }",
    b"{ <a:1> <p:alt>* <b:1> . }",
    b"{ <a:1> (^<p:alt>)* <x:1> . }",
    b"{ <a:1> (<p:alt>|<p:val>|<p:leads>)*/^<p:names> <b:1> . }",
    b"{ <b:1> <p:names> ?y . <a:1> (<p:alt>/<p:val>)|<p:val> ?y . ?y <p:leads> ?z . }",
    b"{ <b:1> <p:names> ?y . { <a:1> <p:alt> ?x . OPTIONAL { ?x <p:val> ?y . ?y <p:leads> ?z . } } }",
    b"{ <b:1> <p:names> ?y . { <a:1> <p:alt> ?x . { ?x <p:val> ?y . ?y <p:leads> ?z . } } }",
    b"{ <a:1> <p:alt> ?a . ?a <p:val> ?b . ?b <p:leads> ?c . <b:1> <p:names> ?d . OPTIONAL { ?d <p:leads> ?e . } "
    b"<a:1> <p:alt> ?f . ?f <p:val>* ?g . ?b <p:leads>* ?h . }",
]

ODDITIES = [
    b"{ <m:1> <p:alt> ?x . }",
    b"{ <m:1> !<p:val> ?x . }",
    b"{ <m:1> !(<p:alt>|<p:val>|<p:val>) ?x . }",
    b"{ <m:1> !<p:alt>/<p:val> ?x . }",
    b"{ <m:1> <p:alt>/<p:val> ?x . }",
    b"{ <m:1> <p:alt>*/<p:val> ?x . }",
    b"{ <m:1> (<p:alt>|<p:sub>)/<p:val> ?x . }",
    b"{ <m:1> (!<p:none>)* ?x . }",
    b"{ <m:2> <p:alt>/<p:alt>/<p:val> ?x . }",
    b"{ <m:1#a> <p:val> ?x . <m:1#b> <p:val>* ?y . }",
    b"{ <m:1> <p:alt> ?x . OPTIONAL { ?x <p:val> ?v . } }",
    b"{ <m:3> <p:val> ?x . <m:5> <p:val> ?y . }",
    b"{ <m:4> <p:val>* ?x . <m:8> <p:val>* ?y . <m:9> <p:val>* ?z . }",
    b"{ <m:1> <p:val> ?v . }",
    b'{ <m:1> <p:alt>/<p:alt> ?v . <m:1> <p:alt> "m:2" . }',
    b"{ <m:1> <p:alt> ?x . ?x <p:alt> ?x . }",
]


def addresses(data):
    """The names of a file's pages, in order."""
    return list(dict.fromkeys(re.findall(rb"(?m)^@page <([^\n<>]*)>$", data)))


def pages(*named):
    """A file from pages: a name, and the predicates and objects of its triples."""
    lines = []
    for name, triples in named:
        lines.append(b"@page <%s>" % name)
        lines += [b"<%s> <%s> %s ." % (name, u, b) for u, b in triples]
    return b"\n".join(lines) + b"\n"


def many(u, first, count):
    return [(u, b"<o%d>" % n) for n in range(first, first + count)]


def crowds():
    """On either side of 256."""
    for n in (256, 257):
        data = pages((b"m", many(b"p", 0, n)), (b"o7", [(b"q", b'"z"')]))
        for text in (
            b"{ <m> <p> ?x . }",
            b"{ <m> !<q> ?x . }",
            b"{ <m> <p>/<q> ?v . }",
            b"{ <m> <p>|<q> ?x . <o7> <q> ?v . }",
            b"{ <m> <p> ?x . ?x <q> ?v . }",
            b"{ <o7> <p> ?x . OPTIONAL { <m> <p> ?y . } }",
        ):
            yield Case("c", text, data, [b"m", b"o7"])
    # a star counts the end that it begins at
    for n in (255, 256):
        data = pages((b"m", many(b"p", 0, n)), (b"o7", [(b"q", b'"z"')]))
        for text in (
            b"{ <m> <p>* ?x . }",
            b"{ <m> <p>* <o7> . }",
            b"{ <o7> (^<p>)* <m> . }",
            b"{ <m> <p>*/<q> ?v . }",
            b"{ <o7> <q> ?v . OPTIONAL { <o7> <q>* ?x . ?x ^(<p>*) <m> . } }",
        ):
            yield Case("c", text, data, [b"m", b"o7"])
    # both ends are known: however many objects there are, one pair is asked for
    data = pages((b"m", many(b"p", 0, 300)), (b"n", [(b"p", b"<o5>"), (b"p", b"<o299>"), (b"p", b"<o300>"), (b"q", b"<m>")]))
    for text in (
        b"{ <m> <p> <o5> . }",
        b"{ <m> <p> <o300> . }",
        b"{ <n> <p> ?x . <m> <p> ?x . }",
        b"{ <m> <p> ?x . <n> <p> ?x . }",
        b"{ <n> <p>/^<p> <m> . }",
        b"{ <m> <p>/^<p> <n> . }",
        b"{ <n> <p> ?x . OPTIONAL { ?x ^(<p>|!<q>) <m> . } }",
        b"{ <n> <p> ?x . OPTIONAL { <m> <p> ?y . } }",
        b"{ <n> <p> ?x . { ?x ^<p> <m> . } UNION { ?x ^<p> <n> . } }",
        b"{ <m> <p>* <o5> . }",
        b"{ <o5> (^<p>)/^<q> <n> . }",
        b"{ ?x (^<p>)/^<q> <n> . }",
        b"{ <n> <q>/<p> <o5> . }",
        b"{ <n> <p> ?v . { <n> <q> ?x . { ?x <p> ?v . } } }",
        b"{ <n> <p> ?v . { <n> <q> ?x . OPTIONAL { ?x <p> ?v . } } }",
    ):
        yield Case("c", text, data, [b"n", b"m"])
    yield Case("c", b"{ <m> <p> ?x . <n> <p> ?x . }", data, [b"n"])
    # pairs of rows: 16 times 16, 16 times 17
    data = pages((b"m", many(b"p", 0, 16)), (b"n", many(b"p", 0, 17)))
    for text in (
        b"{ <m> <p> ?x . <m> <p> ?y . }",
        b"{ <m> <p> ?x . <n> <p> ?y . }",
        b"{ <m> <p> ?x . <n> <p> ?y . <n> <p> ?x . ?x <q> ?y . }",
        b"{ <m> <p> ?x . { <m> <p> ?y . <n> <p> ?x . } }",
        b"{ <n> <p> ?x . { <n> <p> ?y . <n> <p> ?x . } }",
        b"{ <n> <p> ?x . { <n> <p> ?y . <m> <p> ?z . } }",
        b"{ <m> <p> ?x . OPTIONAL { <n> <p> ?y . } }",
        b"{ <m> <p> ?x . OPTIONAL { <m> <q> ?v . { <m> <p> ?x . <n> <p> ?y . } } }",
        b"{ <m> <p> ?x . OPTIONAL { <n> <p> ?x . <m> <p> ?x . } }",
        b"{ OPTIONAL { <m> <p> ?x . } OPTIONAL { <m> <p> ?y . } }",
    ):
        yield Case("c", text, data, [b"m", b"n"])
    # an OPT keeps its left rows: 128 and 128, 129 and 129
    for n in (128, 129):
        values = ((b"o%d" % k, [(b"q", b'"%d"' % (k % 3))]) for k in range(n))
        data = pages((b"m", many(b"p", 0, n)), *values)
        for text in (b"{ <m> <p> ?x . OPTIONAL { ?x <q> ?v . } }", b'{ <m> <p> ?x . OPTIONAL { ?x <q> "1" . } }'):
            yield Case("c", text, data, [b"m"] + [b"o%d" % k for k in range(n)])
    # a UNION counts each row once: 200 and 56, 200 and 57
    data = pages((b"m", many(b"p", 0, 200) + many(b"q", 190, 66) + many(b"r", 190, 67)))
    for text in (
        b"{ { <m> <p> ?x . } UNION { <m> <q> ?x . } }",
        b"{ { <m> <p> ?x . } UNION { <m> <r> ?x . } }",
        b"{ <m> <p>|<q>|<p> ?x . }",
        b"{ <m> !<none> ?x . }",
        b"{ <m> <q> ?x . ?x ^(<p>|<q>|<r>) <m> . }",
    ):
        yield Case("c", text, data, [b"m"])
    # chains: as many records as may be, and the last page not recorded
    for n, text in ((256, b"{ <s0> <p>* ?x . }"), (257, b"{ <s0> <p>* ?x . }"), (257, b"{ <s0> <p>* <s1> . }")):
        data = pages(*((b"s%d" % k, [(b"p", b"<s%d>" % (k + 1))]) for k in range(n - 1)))
        yield Case("c", text, data, addresses(data)[:RECORD])
    # a ring of 60, and the whole of it twice
    data = pages(*((b"s%d" % k, [(b"p", b"<s%d>" % ((k + 1) % 60))]) for k in range(60)))
    for text in (
        b"{ <s0> <p>* ?x . ?x <p> ?y . }",
        b"{ <s0> (<p>/<p>)* ?x . ?y (^<p>)* ?x . }",
        b"{ <s0> <p>/<p>/<p>* ?x . OPTIONAL { <s5> <p> ?x . } }",
    ):
        yield Case("p", text, data, addresses(data)[::-1])


def tops():
    """Weights up to and over the greatest count."""
    steps = b"/".join([b"<p>"] * 32)
    two = [(b"p", b"<u>"), (b"p", b"<v>")]
    once = pages((b"t", [(b"p", b"<t>")]), (b"u", two), (b"v", two + [(b"p", b"<t>")]))
    over = pages((b"t", [(b"p", b"<t>")]), (b"u", two + [(b"p", b"<t>")]), (b"v", two))
    for kind in "cp":
        for data in (once, over):
            yield Case(kind, b"{ <u> %s ?x . }" % steps, data, [b"v", b"u", b"t"])
            yield Case(kind, b"{ <u> %s ?x . OPTIONAL { } }" % steps[:-4], data, [b"v", b"u", b"t"])
        half = b"/".join([b"<p>"] * 15)
        for text in (
            b"{ <u> %s ?x . <u> %s ?y . }" % (half, half),
            b"{ <u> %s/<p> ?x . <u> %s/<p> ?y . }" % (half[:-4], half),
            b"{ <u> %s ?x . { <u> %s ?x . } UNION { <u> <p> ?x . } }" % (half, half),
        ):
            yield Case(kind, text, once, [b"t", b"u", b"v"])


def by_hand():
    four, odd = web.lines_of(FOUR_PAGES), [b"m:1", b"m:2", b"m:3", b"m:4", b"m:5", b"m:8", b"m:1#a", b"m:9"]
    for text in FOUR:
        yield Case("c", text, FOUR_PAGES, [b"m:1", b"m:2", b"m:3", b"m:4"])
        yield Case("p", text, FOUR_PAGES, [b"m:3", b"m:1", b"m:5"])
    yield Case("c", FOUR[0], b"\n".join(four[4:] + four[:4]), [b"m:3", b"m:2", b"m:1"])
    yield Case("c", b"{ }", b"", [])
    yield Case("p", b'{ <m:1> <p>* ?x . "m:1" <p>* ?y . }', b"", [b"m:1"])
    for text in BOARD:
        yield Case("c", text, FEEDERS, addresses(FEEDERS))
        yield Case("p", text, FEEDERS, addresses(FEEDERS)[:1:-1])
        yield Case("c", text, FEEDERS, addresses(FEEDERS)[:2])
    for text in PLANS:
        yield Case("c", text, STATIC, addresses(STATIC))
        yield Case("c", text, STATIC, addresses(STATIC)[:2])
    for text in ODDITIES:
        yield Case("c", text, ODD, odd)
        yield Case("p", text, ODD, odd[:1])
        yield Case("c", text, ODD, odd[:0:-1])
    long = b"i" * 128
    data = pages((long, [(b"p", b"<%s>" % long), (b"p", b'"%s"' % long), (long, b'"' + b"\x80\xff " * 42 + b'"')]))
    yield Case("c", b"{ <%s> <p>*/!<p> ?x . <%s> <p> ?y . }" % (long, long), data, [long, long[1:]])
    yield from tops()
    yield from crowds()


# ------------------------------------------------------------------ by dice

PREDICATES = [b"p", b"q", b"r", b"s"]
LITERALS = [b'""', b'"10u"', b'"22u"', b'"m:1"', b'"a b"', b'"\xc2\xb5"']
NAMES = [b"?x", b"?y", b"?v", b"?z", b"?0", b"?part", b"?_", b"?UNION"]
DAMAGE = [b"<m:5> oops", b" ", b"<m:1> <p> <m:2>", b"@page m:1"]


def name_of(n):
    return b"m:%d" % n


class Filer:
    """A random page file. On the pages of a bushy one many objects follow one predicate."""

    def __init__(self, dice, bushy):
        self.dice = dice
        self.bushy = bushy
        self.count = 1 + dice.below(4 if self.bushy else 12)

    def object(self):
        roll = self.dice.below(20)
        if roll < 14:
            return b"<%s>" % name_of(1 + self.dice.below(self.count))
        if roll < 17:
            return self.dice.pick(LITERALS)
        if roll < 18:
            return b"<%s#a>" % name_of(1 + self.dice.below(self.count))
        return b"<%s>" % name_of(1 + self.dice.below(self.count + 3))

    def subject(self, name):
        roll = self.dice.below(16)
        if roll == 0:
            return name_of(1 + self.dice.below(self.count))
        if roll == 1:
            return name + b"#a"
        return name

    def triples(self, name):
        for _ in range(self.dice.below(5) + self.dice.below(2)):
            line = b"<%s> <%s> %s ." % (self.subject(name), self.dice.pick(PREDICATES), self.object())
            yield line
            if self.dice.one_in(20):
                yield line
        if self.bushy and self.dice.below(3):
            u = self.dice.pick(PREDICATES)
            for n in range(4 + self.dice.below(18)):
                yield b"<%s> <%s> <o%d> ." % (name, u, n)

    def file(self):
        lines = [b"<m:1> <p> <m:0> ."] if self.dice.one_in(8) else []
        for n in range(1, self.count + 1):
            name = name_of(n)
            lines.append(b"@page <%s>" % name)
            lines += self.triples(name)
            if self.dice.one_in(15):
                lines.append(self.dice.pick(DAMAGE + [b"@page <%s>" % name]))
            if self.dice.one_in(20):
                lines.append(b"")
        data = b"\n".join(lines)
        return data + b"\n" if self.dice.below(3) else data


def spelled(dice, path, loose=0):
    """A path as tokens, in brackets where it must be, and sometimes where it need not.

    How loose the path may be here: 0 `|`, 1 `/`, 2 `^`, 3 `*`, 4 none of them.
    """
    if isinstance(path, bytes):
        out, rank = [path], 4
    else:
        kind, p = path[0], path[1]
        if kind == "not":
            out, rank = [b"!", p], 4
            if len(path) > 2 or dice.one_in(3):
                out = [b"!", b"(", p]
                for other in path[2:]:
                    out += [b"|", other]
                out.append(b")")
        elif kind == "star":
            out, rank = spelled(dice, p, 4) + [b"*"], 3
        elif kind == "inv":
            out, rank = [b"^"] + spelled(dice, p, 3), 2
        else:
            rank, mark = (1, b"/") if kind == "seq" else (0, b"|")
            out = spelled(dice, p, rank) + [mark] + spelled(dice, path[2], rank + 1)
    if rank < loose or dice.one_in(24):
        return [b"("] + out + [b")"]
    return out


class Asker:
    """A random question that is answered where all pages are at hand, mostly.

    Each name has a term that is meant for it, and each line is laid along what
    the pages say of that. So a line leads from a term or a name that another
    part gives to a new one, or to one that fits.
    """

    def __init__(self, dice, graph, fuel):
        self.dice = dice
        self.contexts = {a: sorted(context) for a, context in graph.contexts.items() if context}
        self.terms = sorted(graph.universe) or [b"<m:1>"]
        self.starts = sorted(self.contexts) or [b"<m:1>"]
        self.names = NAMES[: 2 + dice.below(len(NAMES) - 1)]
        self.meant = {}
        self.fuel = fuel

    # ---- paths, each with the term that it leads to

    def step(self, a):
        if a in self.contexts and not self.dice.one_in(20):
            return self.dice.pick(self.contexts[a])
        return b"<%s>" % self.dice.pick(PREDICATES), self.dice.pick(self.terms)

    def others(self, u):
        """A negated set that u passes."""
        sets = [b"<%s>" % q for q in PREDICATES + [b"none"] if b"<%s>" % q != u]
        return ("not",) + tuple(self.dice.pick(sets) for _ in range(1 + self.dice.below(2)))

    def path(self, a, depth):
        roll = self.dice.below(20)
        if depth > 0 and roll < 5:
            p, m = self.path(a, depth - 1)
            q, b = self.path(m, depth - 1)
            return ("seq", p, q), b
        if depth > 0 and roll < 8:
            p, b = self.path(a, depth - 1)
            q = p if self.dice.one_in(3) else self.path(a, depth - 1)[0]
            return (("alt", p, q) if self.dice.one_in(2) else ("alt", q, p)), b
        if depth > 0 and roll < 12:
            p, b = self.path(a, depth - 1)
            return ("star", p), self.dice.pick([a, b, b])
        if depth > 0 and roll < 13:
            p, b = self.path(a, depth - 1)
            return ("inv", self.turned(p)), b
        u, b = self.step(a)
        return (u if roll < 17 else self.others(u)), b

    def turned(self, path):
        """The path that goes the other way."""
        if isinstance(path, bytes) or path[0] == "not" or self.dice.one_in(3):
            return ("inv", path)
        kind, *parts = path
        if kind == "inv":
            return parts[0]
        parts = [self.turned(part) for part in parts]
        return (kind, *(parts[::-1] if kind == "seq" else parts))

    # ---- lines

    def start(self, known):
        if known and self.dice.below(5):
            return self.dice.pick(known)
        if self.dice.one_in(24):
            return self.dice.pick(LITERALS)
        return self.dice.pick(self.starts)

    def far(self, b):
        """Another end, at which this term is meant."""
        fitting = sorted(name for name, term in self.meant.items() if term == b)
        if fitting and self.dice.below(3):
            return self.dice.pick(fitting)
        if self.dice.one_in(7):
            return b
        fresh = [name for name in self.names if name not in self.meant]
        name = fresh[0] if fresh and self.dice.below(9) else self.dice.pick(self.names)
        self.meant.setdefault(name, b)
        return name

    def line(self, known, end=None):
        """A line as tokens, and the names that it gives."""
        self.fuel -= 1
        first = self.start(known)
        path, b = self.path(self.meant.get(first, first), self.dice.below(4))
        last = end or self.far(b)
        ends = [first, last]
        if self.dice.one_in(3):
            ends, path = [last, first], self.turned(path)
        given = [name for name in ends if name.startswith(b"?")]
        return ends[:1] + spelled(self.dice, path) + ends[1:] + [b"."], given

    def meeting(self, known):
        """A line from two ends that lead to one term."""
        first = self.start(known)
        u, m = self.step(self.meant.get(first, first))
        others = [(a, q) for a, context in self.contexts.items() for q, b in context if b == m]
        last, q = self.dice.pick(others or [(self.dice.pick(self.starts), u)])
        named = sorted(name for name in known if self.meant[name] == last)
        ends = [first, self.dice.pick(named) if named else last]
        self.fuel -= 1
        path = spelled(self.dice, ("seq", u, ("inv", q)))
        return ends[:1] + path + ends[1:] + [b"."], [name for name in ends if name.startswith(b"?")]

    # ---- groups

    def either(self, known, depth):
        """A union whose sides give the same names."""
        tokens, given = self.group(known, depth)
        if self.dice.one_in(4):
            return tokens + [b"UNION"] + tokens, given
        wanted = [name for name in given if name not in known]
        for _ in range(1 + self.dice.one_in(4)):
            side = []
            for name in wanted:
                side += self.line([n for n in known if n != name], name)[0]
            if not wanted:
                side = self.line(known, self.dice.pick(self.terms))[0]
            for name in given:
                if name not in wanted and name not in side:
                    side += self.line([name], self.dice.pick(self.terms))[0]
            if self.dice.one_in(4):
                side += [b"OPTIONAL"] + self.group(wanted, depth - 1)[0]
            tokens += [b"UNION", b"{"] + side + [b"}"]
        return tokens, given

    def group(self, known, depth):
        """A group as tokens, and the names that it gives for sure."""
        items, mine = [], []
        for _ in range(1 + self.dice.below(3)):
            roll = self.dice.below(20)
            if roll < 1:
                tokens, given = self.meeting(known + mine)
            elif depth <= 0 or self.fuel <= 0 or roll < 8:
                tokens, given = self.line(known + mine)
            elif roll < 13:
                tokens, given = [b"OPTIONAL"] + self.group(list(mine), depth - 1)[0], []
            elif roll < 15:
                tokens, given = self.either(known + mine, depth - 1)
            elif roll < 19:
                tokens, given = self.group(known + mine, depth - 1)
            else:
                tokens, given = [b"{", b"}"], []
            items.append(tokens)
            mine += [name for name in given if name not in mine]
        if self.dice.one_in(3):
            place = self.dice.below(len(items))
            items.append(items.pop(place))
        return [b"{"] + sum(items, []) + [b"}"], mine


def lists_of(data, iris):
    return engine.shelf(engine.record(web.Pages(data), iris))


def by_rounds(asked, reader, rounds):
    """What is recorded when each round looks the lowest needed address up that is missing."""
    entries = {}
    for _ in range(rounds):
        meaning = Meaning(Graph(terms_of(asked.pattern), engine.shelf(entries)), asked.names)
        needs = plan.needs(meaning, asked.pattern)
        missing = sorted((needs or set()) - set(entries))
        if not missing:
            break
        entries.update(engine.record(reader, [missing[0][1:-1]]))
    return [iri[1:-1] for iri in entries]


def shuffled(dice, things):
    out = list(things)
    for n in range(len(out) - 1, 0, -1):
        other = dice.below(n + 1)
        out[n], out[other] = out[other], out[n]
    return out


def recorded(dice, asked, data):
    """Which IRIs are recorded, in which order."""
    reader, known = web.Pages(data), addresses(data)
    more = [name + b"#a" for name in known] + [b"m:%d" % n for n in range(len(known) + 1, len(known) + 4)]
    roll = dice.below(6)
    if roll < 2:
        return shuffled(dice, by_rounds(asked, reader, 40))
    if roll < 3:
        return by_rounds(asked, reader, 1 + dice.below(6))
    chosen = [iri for iri in known if roll < 4 or dice.below(4)]
    return shuffled(dice, chosen + [iri for iri in more if dice.one_in(4)])


def by_dice(dice, wide):
    """A random case; None where the dice do not make one.

    Seldom one without a solution; if it is to be wide, one with many rows or too many.
    """
    data = Filer(dice, wide or dice.one_in(5)).file()
    known = addresses(data)
    graph = Graph((), lists_of(data, known + [name + b"#a" for name in known]))
    tokens, _ = Asker(dice, graph, 2 + dice.below(8)).group([], 1 + dice.below(3))
    text = (b" " if dice.below(4) else b"").join(tokens)
    asked = engine.question(text)
    if asked is None:
        return None
    try:
        case = Case(dice.pick("cp"), text, data, recorded(dice, asked, data))
        told = engine.answer(case.kind, asked, engine.record(web.Pages(data), case.iris))
    except TooLarge:
        return None
    if wide:
        return case if told.needs is None or len(told.rows) > 100 else None
    return case if told.needs is None or any(told.rows.values()) or dice.one_in(4) else None


# ------------------------------------------------------------------- limits


def within(case):
    """Whether a store holds all that the case has: terms, their text, triples and record."""
    entries = engine.record(web.Pages(case.data), case.iris)
    lists = engine.shelf(entries)
    graph = Graph(terms_of(engine.question(case.text).pattern) | set(entries), lists)
    return (
        len(graph.universe) <= TERMS
        and sum(len(term) - len(b"<>") for term in graph.universe) <= TEXT
        and sum(map(len, lists.values())) <= TRIPLES
        and len(case.iris) == len(entries) <= RECORD
        and len(case.data) <= web.LIMIT
    )


# ------------------------------------------------------------------- corpus


def made(dice, count, wide):
    while count > 0:
        case = by_dice(dice, wide)
        if case is not None:
            count -= 1
            yield case


def cases():
    dice = texts.Dice(0x51AB3C77D20E94F1)
    out = [*by_hand(), *made(dice, 575, False), *made(dice, 25, True)]
    for case in out:
        if engine.question(case.text) is None or not within(case):
            raise AssertionError("no case for a store: %r" % (case.text,))
    return out


def word(data):
    return data.hex() if data else "-"


def line_of(case):
    return " ".join([case.kind, word(case.text), word(case.data), *map(word, case.iris)])


def main():
    for case in cases():
        sys.stdout.write(line_of(case) + "\n")


if __name__ == "__main__":
    main()
