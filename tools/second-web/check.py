#!/usr/bin/env python3
"""Check the second page reader and the stored corpus.

First it is run on files whose answers were worked out by hand from
docs/WEBS.md. Then the corpus and its answers are made again and compared with
the stored files. Says what differs, and ends with 1 if anything does.
"""

import os
import sys

sys.dont_write_bytecode = True

import corpus  # noqa: E402
import web  # noqa: E402

STORED = os.path.join(os.path.dirname(os.path.abspath(__file__)), "..", "..", "crates", "web_corpus")

EXAMPLE = (
    b"this line is before the first page and does not matter\n@page <m:1>\n<m:1> <p:alt> <m:2> .\n\n"
    b'<m:1> <p:val> "10u" .\n@page <m:2>\n<m:2> oops\n@page <m:3>\n@page <m:2>\n'
)

BY_HAND = [
    (EXAMPLE, b"m:1", b'found 2 <m:1> <p:alt> <m:2> <m:1> <p:val> "10u" 14 14 14 15'),
    (EXAMPLE, b"m:1#x#y", b'found 2 <m:1> <p:alt> <m:2> <m:1> <p:val> "10u" 14 14 14 15'),
    (EXAMPLE, b"m:2", b"broken 1 7 14 14 14 14"),
    (EXAMPLE.replace(b"<m:2> oops\n", b""), b"m:2", b"broken 2 8 14 14 14 14"),
    (EXAMPLE, b"m:3", b"found 0 14 14 14 14"),
    (EXAMPLE, b"m:4", b"absent 14 14 14 14"),
    (EXAMPLE, b"m:1 ", b"absent 14 14 14 14"),
    (b'@page <m:1>\n<m:1> <p> "" .', b"m:1", b'found 1 <m:1> <p> "" 14 14 14 0'),
]


def main():
    wrong = 0
    for data, iri, wanted in BY_HAND:
        got = web.tell(web.Pages(data), iri)
        if got != wanted:
            wrong += 1
            print("by hand:", iri, "gives", got, "and not", wanted)
    cases = list(corpus.cases())
    made = "".join("%s %s %s\n" % tuple(map(corpus.word, case)) for case in cases).encode()
    answers = b"".join(web.answer_line(*case) + b"\n" for case in cases)
    for name, data in (("stdin", made), ("stdout", answers)):
        with open(os.path.join(STORED, name), "rb") as stored:
            if stored.read() != data:
                wrong += 1
                print("crates/web_corpus/%s is not what the tools make" % name)
    print("wrong:", wrong)
    return 1 if wrong else 0


if __name__ == "__main__":
    sys.exit(main())
