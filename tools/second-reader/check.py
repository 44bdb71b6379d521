#!/usr/bin/env python3
"""Check the second reader and the stored corpus.

First the reader is run on texts whose results were worked out by hand from
docs/QUESTIONS.md. Then the corpus and the reader's results are made again
and compared with the stored files. Says what differs, and ends with 1 if
anything does.
"""

import os
import sys

sys.dont_write_bytecode = True

import corpus  # noqa: E402
import judge  # noqa: E402
import reader  # noqa: E402

CORPUS = os.path.join(os.path.dirname(os.path.abspath(__file__)), "..", "..", "crates", "corpus")

IRI_128 = b"<" + b"i" * 128 + b">"
IRI_129 = b"<" + b"i" * 129 + b">"
LITERAL_128 = b'"' + b"l" * 128 + b'"'
LITERAL_129 = b'"' + b"l" * 129 + b'"'
NAME_16 = b"?abcdefghijklmnop"
NAME_17 = b"?abcdefghijklmnopq"
EIGHT = b"?a<p>?b.?c<p>?d.?e<p>?f.?g<p>?h."  # 32 bytes, 8 variables
P32 = b"/".join([b"<p>"] * 32)  # 127 bytes; 32 IRIs and 31 `/` are 63 nodes
P33 = b"/".join([b"<p>"] * 33)  # 131 bytes; 65 nodes
HEAVY = b"{<a>" + P33 + b"<b>."  # 139 bytes

BY_HAND = [
    # accepted: one node for each name in the tree and each path IRI
    (b"{}", b"ok 1 - (empty)"),
    (b"\t\r\n {\n} ", b"ok 1 - (empty)"),
    (b"{{{}}}", b"ok 1 - (empty)"),
    (b"{{}{}{}}", b"ok 5 - (and (and (empty) (empty)) (empty))"),
    (b"{{}UNION{}UNION{}}", b"ok 5 - (union (union (empty) (empty)) (empty))"),
    (b"{OPTIONAL{}}", b"ok 3 - (opt (empty) (empty))"),
    (b"{{}OPTIONAL{}}", b"ok 3 - (opt (empty) (empty))"),
    (b"{OPTIONAL{}<a><p><b>.}", b"ok 6 - (and (opt (empty) (empty)) (line <a> <p> <b>))"),
    (b'{ ?y <p> "". ?x <p> ?y. }', b'ok 5 ?y,?x (and (line ?y <p> "") (line ?x <p> ?y))'),
    (b"{?xUNION<p>?x.}", b"ok 2 ?xUNION,?x (line ?xUNION <p> ?x)"),
    (b"{<a>^<p>*<b>.}", b"ok 4 - (line <a> (inv (star <p>)) <b>)"),
    (b"{<a>(^<p>)*<b>.}", b"ok 4 - (line <a> (star (inv <p>)) <b>)"),
    (b"{<a><p>/<q>/<r><b>.}", b"ok 6 - (line <a> (seq (seq <p> <q>) <r>) <b>)"),
    (b"{<a><p>/(<q>/<r>)<b>.}", b"ok 6 - (line <a> (seq <p> (seq <q> <r>)) <b>)"),
    (b"{<a><p>|<q>/<r>|<s><b>.}", b"ok 8 - (line <a> (alt (alt <p> (seq <q> <r>)) <s>) <b>)"),
    (b"{<a>!<p><b>.}", b"ok 3 - (line <a> (not <p>) <b>)"),
    (b"{<a>!(<p>)<b>.}", b"ok 3 - (line <a> (not <p>) <b>)"),
    (b"{<a>^!(<p>|<q>|<p>)*<b>.}", b"ok 7 - (line <a> (inv (star (not <p> <q> <p>))) <b>)"),
    (b'{"\xff \x80"<\x80\xff>"<".}', b'ok 2 - (line "\xff \x80" <\x80\xff> "<")'),
    (b"{" * 16 + b"}" * 16, b"ok 1 - (empty)"),
    (b"{}" + b" " * 2046, b"ok 1 - (empty)"),
    (
        b"{" + IRI_128 + IRI_128 + LITERAL_128 + b".}",
        b"ok 2 - (line " + IRI_128 + b" " + IRI_128 + b" " + LITERAL_128 + b")",
    ),
    (b"{" + NAME_16 + b"<p><b>.}", b"ok 2 " + NAME_16 + b" (line " + NAME_16 + b" <p> <b>)"),
    # 1
    (b" " * 2049, b"refused 1"),
    (b"{}" + b" " * 2047, b"refused 1"),
    (b"}" + b" " * 2048, b"refused 1"),
    (b"{" * 2049, b"refused 1"),
    (b"<" + b"a" * 2048, b"refused 1"),
    (b"{" * 17 + b" " * 2032, b"refused 1"),
    (b"{" + IRI_129 + b" " * 2000, b"refused 1"),
    (b"{" + EIGHT + b"?i" + b" " * 2014, b"refused 1"),
    (HEAVY + b"}" + b" " * 1909, b"refused 1"),
    (b"\x00" * 2049, b"refused 1"),
    (b"{}" * 1025, b"refused 1"),
    (b" " * 2048 + b"{", b"refused 1"),
    # 2
    (b"", b"refused 2 at 0"),
    (b"  ", b"refused 2 at 2"),
    (b"{ ", b"refused 2 at 2"),
    (b" " * 2048, b"refused 2 at 2048"),
    (b"{}{}", b"refused 2 at 2"),
    (b"{ <a> <p> <b> }", b"refused 2 at 14"),
    (b"{ <a> ?p <b> . }", b"refused 2 at 6"),
    (b"{ <a> <p>** <b> . }", b"refused 2 at 10"),
    (b"{ <a> ^^<p> <b> . }", b"refused 2 at 7"),
    (b"{ <a> !() <b> . }", b"refused 2 at 8"),
    (b"{ <a> !^<p> <b> . }", b"refused 2 at 7"),
    (b"{ OPTIONAL {} UNION {} }", b"refused 2 at 14"),
    (b"{ optional {} }", b"refused 2 at 2"),
    (b"{ {} UNIONS {} }", b"refused 2 at 5"),
    (b"{ {} UNION\xc3\xa9 {} }", b"refused 2 at 10"),
    (b"{ <a> <p> \"b . }  ", b"refused 2 at 10"),
    (b"{ <a> <p q> <b> . }", b"refused 2 at 6"),
    (b"{ <> <p> <b> . }", b"refused 2 at 2"),
    (b"{ ? <p> <b> . }", b"refused 2 at 2"),
    (b"{ ?x-y <p> <b> . }", b"refused 2 at 4"),
    (b"{\x0b}", b"refused 2 at 1"),
    (b"{" * 16 + b"(", b"refused 2 at 16"),
    (NAME_17, b"refused 2 at 0"),
    (b"{<a>" + LITERAL_129 + b"<b>.}", b"refused 2 at 4"),
    (b"{<" + b"i" * 129, b"refused 2 at 1"),
    (b"{" + EIGHT + b"}?i", b"refused 2 at 34"),
    (HEAVY, b"refused 2 at 139"),
    (HEAVY + b" \n", b"refused 2 at 141"),
    # 3
    (b"{" * 17, b"refused 3 at 16"),
    (b"{" * 17 + b"}" * 17, b"refused 3 at 16"),
    (b"{" * 2048, b"refused 3 at 16"),
    (b"{ " * 17, b"refused 3 at 32"),
    (b"{" * 16 + b"<a>(", b"refused 3 at 19"),
    (b"{" * 16 + b"<a>!(", b"refused 3 at 20"),
    (b"{" * 15 + b"<a>(!(<p>)", b"refused 3 at 20"),
    (b"{<a>" + b"(" * 16, b"refused 3 at 19"),
    (b"{" * 15 + b"{}{}{{", b"refused 3 at 20"),
    (b"{" * 16 + b"<a>(" + IRI_129, b"refused 3 at 19"),
    (b"{" * 16 + EIGHT + b"{?i", b"refused 3 at 48"),
    (HEAVY + b"{" * 16, b"refused 3 at 154"),
    # 4
    (b"{<a>" + P33 + b"<b>.}", b"refused 4"),
    (b"{<a>" + P32 + b"*<b>.}", b"refused 4"),
    (b"{<a>^" + P32 + b"<b>.}", b"refused 4"),
    (b"{<a>!(" + b"|".join([b"<p>"] * 63) + b")<b>.}", b"refused 4"),
    (b"{" + b"{}" * 33 + b"}", b"refused 4"),
    (b"{" + b"UNION".join([b"{}"] * 33) + b"}", b"refused 4"),
    (b"{" + b"OPTIONAL{}" * 32 + b"}", b"refused 4"),
    (b"{" + b"<a><p><b>." * 22 + b"}", b"refused 4"),
    (b"{{<a>" + P32 + b"<b>.}{}}", b"refused 4"),
    (b"{{<a>" + P32 + b"<b>.}UNION{}}", b"refused 4"),
    (b"{OPTIONAL{<a>" + P32 + b"<b>.}}", b"refused 4"),
    (HEAVY + EIGHT + b"}", b"refused 4"),
    # 5
    (b"{" + EIGHT + b"?i<p><b>.}", b"refused 5 at 33"),
    (b"{" + EIGHT + b"<b><p>?i.}", b"refused 5 at 39"),
    (b"{" + EIGHT + b"?a<p>?i.}", b"refused 5 at 38"),
    (b"{" + EIGHT + b"?A<p>?b.}", b"refused 5 at 33"),
    (b"{" + EIGHT + b"?aa<p>?b.}", b"refused 5 at 33"),
    (b"{" + EIGHT + b"{?i<p>?a.}}", b"refused 5 at 34"),
    (b"{" + EIGHT + b"OPTIONAL{?i<p>?a.}}", b"refused 5 at 42"),
    (b"{{" + EIGHT + b"}UNION{?i<p>?a.}}", b"refused 5 at 41"),
    (b"{" + EIGHT + NAME_17 + b"<p><b>.}", b"refused 5 at 33"),
    (b"{" + EIGHT + b"?i", b"refused 5 at 33"),
    (b"{" + EIGHT + b"?i?j", b"refused 5 at 33"),
    (HEAVY + EIGHT + b"?i<p><b>.}", b"refused 5 at 171"),
    # 6
    (b"{" + IRI_129 + b"<p><b>.}", b"refused 6 at 1"),
    (b"{<a>" + IRI_129 + b"<b>.}", b"refused 6 at 4"),
    (b"{<a><p>" + IRI_129 + b".}", b"refused 6 at 7"),
    (b"{<a><p>" + LITERAL_129 + b".}", b"refused 6 at 7"),
    (b"{" + LITERAL_129 + b"<p><b>.}", b"refused 6 at 1"),
    (b"{<a>!" + IRI_129 + b"<b>.}", b"refused 6 at 5"),
    (b"{<a>!(<p>|" + IRI_129 + b")<b>.}", b"refused 6 at 10"),
    (b"{" + NAME_17 + b"<p><b>.}", b"refused 6 at 1"),
    (b"{<a><p> " + NAME_17 + b" .}", b"refused 6 at 8"),
    (b"{" + NAME_17, b"refused 6 at 1"),
    (b"{" + NAME_17 + b" }", b"refused 6 at 1"),
    (b"{" + EIGHT + b"<b>" + IRI_129 + b"?i.}", b"refused 6 at 36"),
    (b"{" * 16 + IRI_129 + b"(", b"refused 6 at 16"),
    (HEAVY + NAME_17 + b"<p><b>.}", b"refused 6 at 139"),
]


def differing(texts, results):
    """How many of the corpus's two stored files differ from what is made now."""
    fresh = {
        "stdin": b"".join(text.hex().encode() + b"\n" for text in texts),
        "stdout": b"".join(result + b"\n" for result in results),
    }
    faults = 0
    for name, wanted in fresh.items():
        with open(os.path.join(CORPUS, name), "rb") as stored:
            if stored.read() != wanted:
                faults += 1
                print("crates/corpus/%s differs from what is made now" % name)
    return faults


def main():
    faults = 0
    for text, wanted in BY_HAND:
        got = reader.read(text)
        if got != wanted:
            faults += 1
            print("text", text, "\n  by hand", wanted, "\n  reader ", got)

    texts = corpus.corpus()
    results = [judge.judge(reader.read(text)) for text in texts]
    faults += differing(texts, results)

    counts = {}
    for result in results:
        kind = result.decode("latin-1")[:9]
        if result.startswith(b"ok "):
            kind = "accepted" if b" sure " in result[-8:] else "refused 7"
        counts[kind] = counts.get(kind, 0) + 1
    print("%d texts by hand, %d read and judged:" % (len(BY_HAND), len(texts)))
    for kind in sorted(counts):
        print("  %s: %d" % (kind, counts[kind]))
    print("%d faults" % faults)
    return 1 if faults else 0


if __name__ == "__main__":
    sys.exit(main())
