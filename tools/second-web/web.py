#!/usr/bin/env python3
"""Page files and pairs of them, read by another method than the finder's.

Reads lines of two files and an IRI, in hex (`-` for no bytes), and writes what
the first file answers, and what the pair of both does. docs/WEBS.md states
the format. Lines are matched by regular expressions, and the whole file is
sorted into pages before anything is looked up.
"""

import re
import sys

IRI = rb"[!#-;=?-\[\]_a-z~\x80-\xff]{1,128}"
LITERAL = rb"[ !#-\[\]-~\x80-\xff]{0,128}"
ONE_IRI = re.compile(IRI, re.S)
OPENING = re.compile(rb"@page <(" + IRI + rb")>", re.S)
TRIPLE = re.compile(rb"(<" + IRI + rb">) (<" + IRI + rb">) (<" + IRI + rb'>|"' + LITERAL + rb'") \.', re.S)

LIMIT = 65536


def lines_of(data):
    """Pieces between line feeds; nothing behind the last one is no line."""
    pieces = data.split(b"\n")
    if pieces[-1] == b"":
        pieces.pop()
    return pieces


class Pages:
    def __init__(self, data):
        self.pages = {}  # name: ([terms of each triple], first fault or None)
        name = None
        for number, line in enumerate(lines_of(data), 1):
            opened = OPENING.fullmatch(line)
            if opened:
                name = opened.group(1)
                if name in self.pages:
                    self.fault(name, 2, number)
                else:
                    self.pages[name] = [[], None]
                continue
            if name is None or line == b"":
                continue
            stated = TRIPLE.fullmatch(line)
            if stated:
                self.pages[name][0].append(stated.groups())
            else:
                self.fault(name, 1, number)

    def fault(self, name, code, number):
        if self.pages[name][1] is None:
            self.pages[name][1] = (code, number)

    def lookup(self, iri):
        """None, a pair of code and place, or a list."""
        if not ONE_IRI.fullmatch(iri):
            return None
        page = self.pages.get(iri.split(b"#")[0])
        if page is None:
            return None
        triples, fault = page
        return triples if fault is None else fault


class Pair:
    def __init__(self, first, second):
        self.both = (first, second)

    def lookup(self, iri):
        for web in self.both:
            answer = web.lookup(iri)
            if answer is not None:
                return answer
        return None


def tell(web, iri):
    """The line that crates/telling writes."""
    answer = web.lookup(iri)
    if isinstance(answer, list):
        head = b"found %d" % len(answer)
        terms = [term for triple in answer for term in triple]
        room = b"14"
        if answer:
            room = b"15" if len(answer[0][2]) > 2 else b"0"
    else:
        head = b"absent" if answer is None else b"broken %d %d" % answer
        terms, room = [], b"14"
    return b" ".join([head] + terms + [b"14", b"14", b"14", room])


def answer_line(first, second, iri):
    if len(first) > LIMIT:
        return b"refused 16"
    if len(second) > LIMIT:
        return b"then refused 16"
    one, two = Pages(first), Pages(second)
    return tell(one, iri) + b" | " + tell(Pair(one, two), iri)


def unhex(word):
    return b"" if word == "-" else bytes.fromhex(word)


def main():
    for line in sys.stdin:
        first, second, iri = (unhex(word) for word in line.rstrip("\n").split(" "))
        sys.stdout.buffer.write(answer_line(first, second, iri) + b"\n")


if __name__ == "__main__":
    main()
