#!/usr/bin/env python3
"""A second engine: what a question has and needs over the documents at hand.

Reads one case a line from standard input,

    KIND QUESTION FILE IRI IRI ..

with `c` for count or `p` for presence, and question, page file (`-` for no
bytes) and IRIs in hex. The IRIs are looked up in the file, in this order, and
recorded; what is found for them is the shelf. Writes one line for each case,
`too many` or

    needs N TERM TERM .. rows M ROW ROW ..

as README.md says. The meaning is in semantics.py and the plan in plan.py.
"""

import sys
from collections import namedtuple

import plan
from neighbours import judge, reader, web
from semantics import TOPS, Graph, Meaning, terms_of

# A question's pattern and its variables by first place in the text.
Question = namedtuple("Question", "pattern names")

# What is needed, and each possible row with its weight; needs are None where there are too many.
Answer = namedtuple("Answer", "needs rows")

# ---------------------------------------------------------------- questions


def question(text):
    """A question, as the second reader has it. None if it is refused, also by the judge."""
    result = judge.judge(reader.read(text))
    if not result.startswith(b"ok ") or result.endswith(b" refused 7"):
        return None
    _, _, names, rest = result.split(b" ", 3)
    tree = judge.parse(rest.rpartition(b" sure ")[0])
    return Question(tree, [] if names == b"-" else names.split(b","))


# -------------------------------------------------------------------- shelf


def look_up(pages, iri):
    """An entry of the record: ("found", list), ("absent",) or ("broken", code, place)."""
    told = pages.lookup(iri)
    if told is None:
        return ("absent",)
    if isinstance(told, list):
        return "found", told
    return ("broken",) + told


def record(pages, iris):
    """IRI terms with their entries, in this order. An entry may also be ("unfit",)."""
    return {b"<" + iri + b">": look_up(pages, iri) for iri in iris}


def shelf(entries):
    """The lists that are found; nothing else of a record is on the shelf."""
    return {iri: entry[1] for iri, entry in entries.items() if entry[0] == "found"}


# ------------------------------------------------------------------- answer


def answer(kind, asked, entries):
    graph = Graph(terms_of(asked.pattern), shelf(entries))
    meaning = Meaning(graph, asked.names)
    needs = plan.needs(meaning, asked.pattern)
    if needs is None:
        return Answer(None, None)
    weights = meaning.bag(asked.pattern).weights
    return Answer(needs, {row: min(weight, TOPS[kind]) for row, weight in weights.items()})


def term_word(term):
    if term is None:
        return "-"
    return ("i" if term.startswith(b"<") else "l") + term[1:-1].hex()


def row_word(row, weight):
    return "%d:%s" % (weight, ",".join(map(term_word, row)))


def answer_line(told):
    if told.needs is None:
        return "too many"
    needs = sorted(map(term_word, told.needs))
    rows = sorted(row_word(row, weight) for row, weight in told.rows.items())
    return " ".join(["needs", str(len(needs)), *needs, "rows", str(len(rows)), *rows])


# -------------------------------------------------------------------- cases


def unhex(word):
    return b"" if word == "-" else bytes.fromhex(word)


def tell(kind, text, data, iris):
    """The answer to one case, as a line."""
    return answer_line(answer(kind, question(text), record(web.Pages(data), iris)))


def main():
    for line in sys.stdin:
        kind, text, data, *iris = line.rstrip("\n").split(" ")
        print(tell(kind, unhex(text), unhex(data), list(map(unhex, iris))), flush=True)


if __name__ == "__main__":
    main()
