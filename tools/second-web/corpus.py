#!/usr/bin/env python3
"""Writes files and addresses for crates/web_corpus: by hand, by dice, damaged.

A line has two files and an IRI in hex. The dice have a fixed seed, so the same
is written each time.
"""

import random

F = (
    b"before the first page\n@page <m:1>\n<m:1> <p:alt> <m:2> .\n<m:1> <p:alt> <m:3> .\n@page <m:2>\n"
    b'<m:2> <p:val> "10u" .\n@page <m:3>\n<m:3> <p:val> "10u" .\n<m:2> <p:val> "22u" .\n@page <m:4>\n<m:4> <p:val> "47u" .'
)

LONG = b"i" * 128

# files, each looked up at all of ADDRESSES
FILES = [
    b"",
    b"\n",
    b"\n\n@page <m:1>",
    b"@page <m:1>\n",
    b"@page <m:1>\r\n<m:1> <p> <o> .\r\n",
    b"@page <m:1>\n<m:1> <p> <o> .\r\n",
    b"@page <m:1>\n \n",
    b"@page <m:1>\n<m:1> <p> \"\" .\n",
    b"@page <m:1>\n<m:1> <p> \"a\x80\xff b\" .\n@page <\x80\xfe>\n<\xff> <\x81> <\x82> .\n",
    b"@page <m:1>\n<m:1> <p> <" + LONG + b"> .\n@page <" + LONG + b">\n<a> <b> \"" + LONG + b"\" .",
    b"@page <m:1>\n<m:1> <p> <" + LONG + b"i> .\n@page <m:2>\n<m:1> <p> \"" + LONG + b"l\" .",
    b"@page <" + LONG + b"i>\n@page <m:1>\n@page <" + LONG + b"i>\n",
    b"@page <m:1>\n<m:1> oops\n@page <m:1>\n",
    b"@page <m:1>\n@page <m:2>\n@page <m:1>\n<m:1> oops\n",
    b"@page <m:1>\n@page <m:1>\n@page <m:1>\n",
    b"@page <m:2>\n@page <m:1\n@page  <m:1>\n@page <m:1> \n@page<m:1>\n@pages <m:1>\n",
    b"@page <m:1#x>\n<a> <b> <c> .\n@page <m:1>\n<a> <b> <d> .\n@page <m:1#x>\n",
    b"@page <m:1>\n<m:1> <p> <o>.\n@page <m:2>\n<m:1>  <p> <o> .\n@page <m:3>\n<m:1> <p> <o> . \n@page <m:4>\n <m:1> <p> <o> .\n",
    b"@page <m:1>\n<> <p> <o> .\n@page <m:2>\n<m:1> <> <o> .\n@page <m:3>\n<m:1> <p> <> .\n@page <m:4>\n<m:1> \"p\" <o> .\n",
    b"@page <m:1>\n\"m\" <p> <o> .\n@page <m:2>\n<m> <p> \"a\"b\" .\n@page <m:3>\n<m> <p> \"a\\b\" .\n@page <m:4>\n<m> <p> <a b> .\n",
    b"@page <m:1>\n<m:1> <p> <o> .\n<m:1> <p> <o> .\n\n\n<m:9> <p> <o> .\n\n@page <m:2>",
    b"@page <m:1>\n\x00\n@page <m:2>\n<a> <b> \"\x7f\" .\n@page <m:3>\n<a> <b> \"\t\" .\n@page <m:4>\n<a\x7f> <b> <c> .",
    F,
]

# a byte over the limit; a byte less, and the page would be found
OVER = b"@page <m:1>\n".ljust(65537, b"\n")

ADDRESSES = [
    b"m:1", b"m:2", b"m:3", b"m:4", b"m:5", b"", b"#", b"#x", b"m:1#", b"m:1#x", b"m:1#x#y", b"m:1##", b"m:1 ", b"<m:1>", b"m:1\n", b"\x80\xfe",
    LONG, LONG + b"i", b"m:1#" + LONG[4:], b"m:1#" + LONG[3:],
]


def random_term(dice, literal):
    if literal:
        return b'"' + bytes(dice.choice(b"ab 1\x80\xff") for _ in range(dice.randrange(4))) + b'"'
    return b"<" + dice.choice([b"m:1", b"m:2", b"m:3", b"p", b"q", b"m:1#a"]) + b">"


def random_file(dice):
    lines = [b"@page <m:1>"] if dice.randrange(4) else []
    for _ in range(dice.randrange(12)):
        roll = dice.randrange(12)
        if roll < 2:
            lines.append(b"@page <" + dice.choice([b"m:1", b"m:2", b"m:3", b"m:1#a"]) + b">")
        elif roll < 11:
            lines.append(random_term(dice, False) + b" " + random_term(dice, False) + b" " + random_term(dice, dice.randrange(2) == 0) + b" .")
        else:
            lines.append(b"")
    data = b"\n".join(lines)
    return data + b"\n" if dice.randrange(2) else data


SPICE = [b"\n", b" ", b"<", b">", b'"', b".", b"@", b"#", b"\r", b"\x00", b"\x80", b"\n@page <m:1>\n", b"<a> <b> <c> .\n", b"@page <m:2>\n"]


def damaged(dice, data):
    data = bytearray(data)
    for _ in range(dice.randrange(1, 3)):
        at = dice.randrange(len(data) + 1)
        roll = dice.randrange(4)
        if roll == 0:
            data[at:at] = dice.choice(SPICE)
        elif roll == 1:
            del data[at:at + dice.randrange(1, 4)]
        elif roll == 2:
            data[at:at + 1] = bytes([dice.randrange(256)])
        else:
            del data[at:]
    return bytes(data)


def cases():
    for at, data in enumerate(FILES):
        for iri in ADDRESSES:
            yield data, FILES[at - 1], iri
    yield OVER, F, b"m:1"
    yield F, OVER, b"m:1"
    dice = random.Random(20240611)
    for _ in range(500):
        first, second = random_file(dice), random_file(dice)
        if dice.randrange(4):
            first = damaged(dice, first)
        yield first, second, b"m:1"
        yield first, second, dice.choice([b"m:2", b"m:3", b"m:1#a", b"m:2#"])


def word(data):
    return data.hex() if data else "-"


def main():
    for first, second, iri in cases():
        print(word(first), word(second), word(iri))


if __name__ == "__main__":
    main()
