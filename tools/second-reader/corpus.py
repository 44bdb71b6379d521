#!/usr/bin/env python3
"""Write the fixed corpus of question texts, one line of hex for each.

The corpus depends on this file alone: it rolls its own dice from a fixed
seed, so that every Python writes the same bytes.
"""

import sys

BLANKS = b" \t\r\n"


class Dice:
    """xorshift64*, so that no library decides what the corpus holds."""

    def __init__(self, seed):
        self.state = seed

    def below(self, limit):
        x = self.state
        x ^= x >> 12
        x = (x ^ (x << 25)) & 0xFFFFFFFFFFFFFFFF
        x ^= x >> 27
        self.state = x
        return ((x * 0x2545F4914F6CDD1D & 0xFFFFFFFFFFFFFFFF) >> 32) % limit

    def pick(self, things):
        return things[self.below(len(things))]

    def one_in(self, n):
        return self.below(n) == 0


# ------------------------------------------------- lawful token sequences

IRIS = [b"<m:%d>" % n for n in range(1, 6)] + [
    b"<p:alt>",
    b"<p:val>",
    b"<p:sub>",
    b"<a>",
    b"<?x>",
    b"<UNION>",
    b"<http://parts.example/r/100#page(2)*>",
    b"<!#$%&'()*+,-./:;=?@[]_~>",
    b"<m:\xc3\xa9>",
    b"<\x80\xff>",
]
LITERALS = [
    b'""',
    b'" "',
    b'"10u"',
    b'"47 k"',
    b'"m:1"',
    b'"<m:1>"',
    b'"{ ?x . } UNION"',
    b'"\xc2\xb5F"',
    b'"\x80\xfe\xff"',
    b'"!#$%&\'()*+,-./:;=?@[]^_`{|}~"',
]
NAMES = [
    b"?x",
    b"?y",
    b"?v",
    b"?part",
    b"?X",
    b"?0",
    b"?_",
    b"?a_1",
    b"?UNION",
    b"?OPTIONAL",
    b"?xUNION",
    b"?0123456789abcdef",
]


class Maker:
    """Random token sequences that derive from the grammar."""

    def __init__(self, dice, fuel, depth, names):
        self.dice = dice
        self.fuel = fuel
        self.depth = depth
        self.names = names

    def end(self):
        choice = self.dice.below(10)
        if choice < 5:
            return self.dice.pick(self.names)
        return self.dice.pick(IRIS if choice < 8 else LITERALS)

    def base(self, depth):
        self.fuel -= 1
        choice = self.dice.below(10)
        if choice < 2 and depth > 0 and self.fuel > 0:
            return [b"("] + self.path(depth - 1) + [b")"]
        if choice == 2:
            return [b"!", self.dice.pick(IRIS)]
        if choice == 3 and depth > 0:
            out = [b"!", b"(", self.dice.pick(IRIS)]
            while self.dice.below(3) and self.fuel > 0:
                self.fuel -= 1
                out += [b"|", self.dice.pick(IRIS)]
            return out + [b")"]
        return [self.dice.pick(IRIS)]

    def step(self, depth):
        out = [b"^"] if self.dice.one_in(4) else []
        out += self.base(depth)
        return out + ([b"*"] if self.dice.one_in(4) else [])

    def sequence(self, depth):
        out = self.step(depth)
        while self.fuel > 0 and self.dice.one_in(3):
            out += [b"/"] + self.step(depth)
        return out

    def path(self, depth):
        out = self.sequence(depth)
        while self.fuel > 0 and self.dice.one_in(4):
            out += [b"|"] + self.sequence(depth)
        return out

    def line(self, depth):
        self.fuel -= 1
        return [self.end()] + self.path(depth) + [self.end(), b"."]

    def item(self, depth):
        choice = self.dice.below(10)
        if choice < 5 or depth == 0:
            return self.line(depth)
        if choice < 7:
            return [b"OPTIONAL"] + self.group(depth - 1)
        out = self.group(depth - 1)
        while self.fuel > 0 and self.dice.below(3):
            out += [b"UNION"] + self.group(depth - 1)
        return out

    def group(self, depth):
        self.fuel -= 1
        out = [b"{"]
        while self.fuel > 0 and self.dice.below(5):
            out += self.item(depth)
        return out + [b"}"]


def lawful(dice, fuel=None, depth=None, names=None):
    """A question with at least one item."""
    if fuel is None:
        fuel = 2 + dice.below(12)
    if depth is None:
        depth = 1 + dice.below(6)
    if names is None:
        first = dice.below(len(NAMES))
        names = (NAMES + NAMES)[first : first + 1 + dice.below(6)]
    while True:
        made = Maker(dice, fuel, depth, names).group(depth)
        if len(made) > 2:
            return made


class Walker(Maker):
    """Questions near the border of what can be walked: few names, that meet."""

    given = ()

    def line(self, depth):
        """Mostly from a term or a name that another line gives."""
        self.fuel -= 1
        first = self.dice.pick(IRIS)
        if self.given and self.dice.below(3):
            first = self.dice.pick(self.given)
        if self.dice.one_in(12):
            first = self.dice.pick(self.names)
        last = self.dice.pick(self.names) if self.dice.below(8) else self.dice.pick(IRIS)
        if last in self.names and last not in self.given:
            self.given += (last,)
        path = self.sequence(depth)
        if self.dice.one_in(3):
            return [last, b"^", b"("] + path + [b")", first, b"."]
        return [first] + path + [last, b"."]

    def step(self, depth):
        out = [b"^"] if self.dice.one_in(16) else []
        out += self.base(depth if self.dice.one_in(3) else 0)
        return out + ([b"*"] if self.dice.one_in(5) else [])

    def question(self, depth):
        """Items in any order, so that a line may stand before what it needs."""
        items = []
        while self.fuel > 0 or len(items) < 2:
            items.insert(self.dice.below(len(items) + 1), self.item(depth))
        return [b"{"] + sum(items, []) + [b"}"]


def near_the_border(dice):
    names = NAMES[: 1 + dice.below(4)]
    return Walker(dice, 3 + dice.below(12), 3, names).question(1 + dice.below(3))


# --------------------------------------------------------------- spelling


def blank_run(dice, most):
    return bytes(dice.pick(BLANKS) for _ in range(dice.below(most + 1)))


def spell(dice, parts):
    """The tokens as text: tight, with single spaces, or with any blanks."""
    style = dice.below(4)
    if style == 0:
        return b"".join(parts)
    if style < 3:
        return b" ".join(parts)
    out = blank_run(dice, 3)
    for part in parts:
        out += part + blank_run(dice, 3)
    return out


# ---------------------------------------------------------------- damages

STRAY = [
    b"{", b"}", b"(", b")", b"|", b"/", b"^", b"*", b"!", b".",
    b"OPTIONAL", b"UNION", b"?x", b"<p:alt>", b'"10u"', b'""',
]  # fmt: skip
WRONG = [
    b"optional", b"union", b"Optional", b"UNIONS", b"OPTIONA", b"OPTIONAL_",
    b"xUNION", b"UNION2", b"AND", b"a", b"0", b"_", b"?", b"<>", b"<a", b"<a b>",
    b"<a\x7f>", b"<a|b>", b"<a\"b>", b"<a<b>", b'"', b'"a', b'"a\\"', b'"a\nb"',
    b'"a\tb"', b'"\x00"', b"#", b"@", b";", b",", b":", b"+", b"$", b"\\", b"`",
    b"\x00", b"\x0b", b"\x0c", b"\x7f", b"\x80", b"\xc2\xa0", b"\xff", b">", b"'a'",
]  # fmt: skip


def truncated(dice):
    text = spell(dice, lawful(dice))
    return text[: dice.below(len(text))]


def byte_changed(dice):
    text = bytearray(spell(dice, lawful(dice)))
    place = dice.below(len(text))
    choice = dice.below(3)
    if choice == 0:
        text[place] = dice.below(256)
    elif choice == 1:
        text[place] = dice.pick(b'{}()|/^*!.?<>" AUxn0_\\')
    else:
        text[place] ^= 1 << dice.below(8)
    return bytes(text)


def token_inserted(dice):
    parts = lawful(dice)
    parts.insert(dice.below(len(parts) + 1), dice.pick(STRAY))
    return spell(dice, parts)


def wrong_inserted(dice):
    parts = lawful(dice)
    parts.insert(dice.below(len(parts) + 1), dice.pick(WRONG))
    return spell(dice, parts)


def token_dropped(dice):
    parts = lawful(dice)
    del parts[dice.below(len(parts))]
    return spell(dice, parts)


def token_doubled(dice):
    parts = lawful(dice)
    place = dice.below(len(parts))
    parts.insert(place, parts[place])
    return spell(dice, parts)


def tokens_exchanged(dice):
    parts = lawful(dice)
    place = dice.below(len(parts) - 1)
    other = place + 1 if dice.one_in(2) else dice.below(len(parts))
    parts[place], parts[other] = parts[other], parts[place]
    return spell(dice, parts)


def trailing_blanks(dice):
    text = spell(dice, lawful(dice))
    if dice.one_in(2):
        text = text[: dice.below(len(text))]
    return text + b" " + blank_run(dice, 6)


DAMAGES = [
    (truncated, 10),
    (byte_changed, 12),
    (token_inserted, 10),
    (wrong_inserted, 10),
    (token_dropped, 8),
    (token_doubled, 5),
    (tokens_exchanged, 8),
    (trailing_blanks, 6),
]


# --------------------------------------------------------- chosen by hand

IRI_ASCII = bytes(c for c in range(0x21, 0x7F) if c not in b'<>"{}|^\\`')
LITERAL_ASCII = bytes(c for c in range(0x20, 0x7F) if c not in b'"\\')
HIGH = bytes(range(0x80, 0x100))

PLAIN = [
    # groups and items
    b"{}",
    b"{ }",
    b" \t\r\n{ \t\r\n} \t\r\n",
    b"{{}}",
    b"{ { { } } }",
    b"{{}{}}",
    b"{ { } { } { } }",
    b"{{}UNION{}}",
    b"{ { } UNION { } UNION { } }",
    b"{ { { } UNION { } } UNION { } }",
    b"{ { } UNION { { } UNION { } } }",
    b"{ { } UNION { } { } UNION { } }",
    b"{ OPTIONAL { } }",
    b"{OPTIONAL{}OPTIONAL{}}",
    b"{ OPTIONAL { OPTIONAL { } } }",
    b"{ { } OPTIONAL { } }",
    b"{ { } UNION { } OPTIONAL { } { } UNION { } }",
    b"{ OPTIONAL { } { } }",
    b"{ OPTIONAL { ?x <p> ?y . } ?x <q> ?z . }",
    b"{ { } ?x <p> ?y . }",
    b"{ ?x <p> ?y . { } }",
    b"{ ?x <p> ?y . OPTIONAL { ?y <q> ?z . } ?z <r> ?x . }",
    b"{ ?c <p> ?b . ?b <p> ?a . { ?a <p> ?d . } UNION { ?d <p> ?c . } }",
    b"{ { ?b <p> ?a . } UNION { ?a <p> ?c . OPTIONAL { ?d <p> ?b . } } }",
    b"{ ?x <p> ?x . }",
    b'{ "" <p> "" . }',
    b'{ "a" ^<p> <b> . }',
    b"{<a><b><c>.}",
    b"{<a><b><c>.<d><e><f>.}",
    # paths
    b"{ <a> <p>/<q>/<r> ?x . }",
    b"{ <a> <p>|<q>|<r> ?x . }",
    b"{ <a> <p>/<q>|<r>/<s> ?x . }",
    b"{ <a> <p>|<q>/<r>|<s> ?x . }",
    b"{ <a> <p>/(<q>/<r>) ?x . }",
    b"{ <a> <p>|(<q>|<r>) ?x . }",
    b"{ <a> (<p>|<q>)/<r> ?x . }",
    b"{ <a> ^<p>* ?x . }",
    b"{ <a> (^<p>)* ?x . }",
    b"{ <a> ^(<p>)* ?x . }",
    b"{ <a> ^(^<p>) ?x . }",
    b"{ <a> (<p>*)* ?x . }",
    b"{ <a> ((<p>)) ?x . }",
    b"{ <a> ^<p>/^<q>* ?x . }",
    b"{ <a> ^(<p>/<q>)*|<r> ?x . }",
    b"{ <a> !<p> ?x . }",
    b"{ <a> !(<p>) ?x . }",
    b"{ <a> !(<p>|<q>|<p>) ?x . }",
    b"{ <a> ^!<p>* ?x . }",
    b"{ <a> !<p>|<q> ?x . }",
    b"{ <a> !(<p>|<q>)* ?x . }",
    b"{ <a> (!<p>)* ?x . }",
    b"{<a>^!(<p>|<q>)*/!<r>|(<s>)?x.}",
    # keywords as names, literals and IRIs
    b"{ ?UNION <UNION> \"UNION\" . }",
    b"{ ?OPTIONAL <p> ?UNION . OPTIONAL { ?UNION <p> ?OPTIONAL . } }",
    b"{ ?xUNION <p> ?x . }",
    b"{?xOPTIONAL<p>?x.OPTIONAL{}}",
    # every byte that may stand in a term
    b"{<%s><%s>\"%s\".}" % (IRI_ASCII, HIGH, LITERAL_ASCII),
    b"{\"%s\"<%s><%s>.}" % (HIGH, IRI_ASCII, HIGH),
    # not questions
    b"",
    b" ",
    b"\n\n\t\r ",
    b"{",
    b"}",
    b"{ ",
    b"{} ",
    b"{}}",
    b"{}{}",
    b"{} {}",
    b"{} UNION {}",
    b"{}.",
    b"{ . }",
    b"{ <a> }",
    b"{ <a> <p> }",
    b"{ <a> <p> <b> }",
    b"{ <a> <p> <b>",
    b"{ <a> <p> <b> . ",
    b"{ <a> <p> <b> .. }",
    b"{ <a> <p> <b> . . }",
    b"{ <a> <p> <b> <c> . }",
    b"{ <a> ?p <b> . }",
    b'{ <a> "p" <b> . }',
    b"{ <a> <p>/ <b> . }",
    b"{ <a> /<p> <b> . }",
    b"{ <a> <p>|| <b> . }",
    b"{ <a> <p>** <b> . }",
    b"{ <a> ^^<p> <b> . }",
    b"{ <a> *<p> <b> . }",
    b"{ <a> <p>^ <b> . }",
    b"{ <a> !^<p> <b> . }",
    b"{ <a> !!<p> <b> . }",
    b"{ <a> !() <b> . }",
    b"{ <a> () <b> . }",
    b"{ <a> !(<p>|) <b> . }",
    b"{ <a> !(<p>/<q>) <b> . }",
    b"{ <a> !(^<p>) <b> . }",
    b"{ <a> !((<p>)) <b> . }",
    b"{ <a> !(<p>*) <b> . }",
    b"{ <a> !(<p>|!<q>) <b> . }",
    b"{ <a> (<p> <b> . }",
    b"{ <a> <p>) <b> . }",
    b"{ <a> (<p>} <b> . }",
    b"{ <a> ({<p>}) <b> . }",
    b"( )",
    b"{ ( ) }",
    b"{ UNION { } }",
    b"{ { } UNION }",
    b"{ { } UNION UNION { } }",
    b"{ { } UNION OPTIONAL { } }",
    b"{ { } UNION <a> <p> <b> . }",
    b"{ <a> <p> <b> . UNION { } }",
    b"{ OPTIONAL }",
    b"{ OPTIONAL OPTIONAL { } }",
    b"{ OPTIONAL <a> <p> <b> . }",
    b"{ OPTIONAL { } UNION { } }",
    b"{ { } UNION { } OPTIONAL { } UNION { } }",
    b"{ { } . }",
    b"{ OPTIONAL { } . }",
    # words
    b"{ optional { } }",
    b"{ Optional { } }",
    b"{ { } union { } }",
    b"{ { } Union { } }",
    b"{ OPTIONALS { } }",
    b"{ OPTIONAL1 { } }",
    b"{ OPTIONAL_ { } }",
    b"{ OPTION { } }",
    b"{ { } UNIONUNION { } }",
    b"{ { } UNIONOPTIONAL { } }",
    b"{ { } UN ION { } }",
    b"{ { } UNION\xc3\xa9 { } }",
    b"{ OPTIONAL\x80{ } }",
    b"{ \x80OPTIONAL { } }",
    b"{ ?x\xc3\xa9 <p> ?y . }",
    b"{ ?x-y <p> ?y . }",
    b"{ x <p> ?y . }",
    b"{ <a> a <b> . }",
    # tokens out of shape
    b"{ <",
    b"{ <a",
    b"{ <a ",
    b"{ <a> <p> \"b",
    b"{ <a> <p> \"b . }",
    b"{ <a> <p> \"b . } ",
    b"{ <a> <p> \"b\n\" . }",
    b"{ <a> <p> \"b\\\"c\" . }",
    b"{ <a> <p> \"b\x7f\" . }",
    b"{ <a> <p> \"b\tc\" . }",
    b"{ <a> <p> \"b\rc\" . }",
    b"{ <a> <p> \"b\x00c\" . }",
    b"{ <a> <p> \"b\x1fc\" . }",
    b"{ <a> <p> \"\\\" . }",
    b"{ <a> <p\x1f> <b> . }",
    b"{ <a> <p> \"b\"c\" . }",
    b"{ <a> <p> \"b\"\"c\" . }",
    b"{ <> <p> ?x . }",
    b"{ <a> <> ?x . }",
    b"{ <a> <p q> ?x . }",
    b"{ <a> <p\tq> ?x . }",
    b"{ <a> <p{q> ?x . }",
    b"{ <a> <p}q> ?x . }",
    b"{ <a> <p|q> ?x . }",
    b"{ <a> <p^q> ?x . }",
    b"{ <a> <p\\q> ?x . }",
    b"{ <a> <p`q> ?x . }",
    b"{ <a> <p\"q> ?x . }",
    b"{ <a> <p\x7fq> ?x . }",
    b"{ <a> <p\x00q> ?x . }",
    b"{ <a> <<p>> ?x . }",
    b"{ <a> <p>> ?x . }",
    b"{ ? <p> ?x . }",
    b"{ ?? <p> ?x . }",
    b"{ ?<p> ?x . }",
    b"{ <a> <p> ?",
    b"{ <a> <p> ?. }",
    b"{ <a> <p> ?x?y . }",
    b"{ $x <p> ?x . }",
    b"# a remark\n{ }",
    b"{ } # a remark",
    b"\xef\xbb\xbf{ }",
    b"{\xc2\xa0}",
    b"{\x0b}",
    b"{\x0c}",
    b"{\x00}",
    b"{ }\x00",
    b"\x00",
    b"\xff",
]


def nested(groups, paths=0, negated=False):
    """Groups, inside them bracketed paths, inside those a negated set."""
    core = b"!(<q>)" if negated else b"<q>"
    line = b"?x " + b"(" * paths + core + b")" * paths + b" ?y . "
    inside = line if paths or negated else b""
    return b"{" * groups + inside + b"}" * groups


def limits():
    out = []
    # bytes of text
    out.append(b"{ }" + b" " * 2045)
    out.append(b"{ }" + b" " * 2046)
    out.append(b"{" + b" \t\r\n" * 511 + b"  }")
    out.append(b"{" + b" \t\r\n" * 511 + b"   }")
    out.append(b" " * 2048)
    out.append(b" " * 2049)
    out.append(b"}" + b" " * 2047)
    out.append(b"}" + b" " * 2048)
    out.append(b"{" * 2048)
    out.append(b"{" * 2049)
    out.append(b'"' + b"a" * 2047)
    out.append(b"<" + b"a" * 2048)
    long_line = b"<%s><%s>\"%s\"." % (b"s" * 128, b"p" * 128, b"o" * 128)
    full = b"{" + long_line * 5
    out.append(full + b" " * (2047 - len(full)) + b"}")
    out.append(full + b" " * (2048 - len(full)) + b"}")
    out.append(full + b" " * (2048 - len(full)))
    # open brackets
    for count in (15, 16, 17, 18):
        out.append(nested(count))
        out.append(nested(1, count - 1))
        out.append(nested(8, count - 8))
    for count in (16, 17):
        out.append(nested(count - 1, 0, True))
        out.append(nested(1, count - 2, True))
        out.append(nested(7, count - 8, True))
        out.append(b"{" * count + b"<a> <p> <b> . " + b"}" * count)
    out.append(b"{" * 16)
    out.append(b"{" * 17)
    out.append(b"{" * 16 + b"<a> (")
    out.append(b"{" * 16 + b"<a> !(")
    out.append(b"{" * 16 + b"<a> !<p> <b> ." + b"}" * 16)
    out.append(b"{" * 16 + b"(")
    out.append(b" { " * 17)
    # closed brackets no longer count
    out.append(b"{" + b"{}" * 20 + b"}")
    out.append(b"{" * 15 + b"{}{}{}" + b"}" * 15)
    out.append(b"{" * 15 + b"{}{{}}" + b"}" * 15)
    out.append(b"{<a>" + b"/".join([b"(<p>)"] * 17) + b"?x.}")
    out.append(b"{<a>" + b"/".join([b"!(<p>)"] * 17) + b"?x.}")
    out.append(b"{" * 15 + b"<a> (<p>)/(<q>) <b> ." + b"}" * 15)
    # nodes
    for count in (31, 32, 33):
        out.append(b"{ <a> " + b"/".join([b"<p>"] * count) + b" ?x . }")
        out.append(b"{ <a> " + b"|".join([b"<p>"] * count) + b" ?x . }")
    out.append(b"{ <a> " + b"/".join([b"<p>"] * 32) + b"* ?x . }")
    out.append(b"{ <a> ^" + b"/".join([b"<p>"] * 32) + b" ?x . }")
    out.append(b"{ <a> ^" + b"|".join([b"<p>"] * 31) + b"* ?x . }")
    out.append(b"{ <a> ^" + b"|".join([b"<p>"] * 31) + b"*/<p> ?x . }")
    for count in (62, 63):
        out.append(b"{ <a> !(" + b"|".join([b"<p>"] * count) + b") ?x . }")
    out.append(b"{ <a> !(" + b"|".join([b"<p>"] * 60) + b")* ?x . }")
    out.append(b"{ <a> ^!(" + b"|".join([b"<p>"] * 60) + b")* ?x . }")
    out.append(b"{ <a> ^!(" + b"|".join([b"<p>"] * 61) + b")* ?x . }")
    for count in (21, 22):
        out.append(b"{ " + b"?x <p> ?y . " * count + b"}")
    for path in (b"^<p>*", b"<p>/<q>", b"!(<p>|<q>)", b"^<p>/<q>", b"<p>|!<q>"):
        out.append(b"{ " + b"?x <p> ?y . " * 20 + b"?x " + path + b" ?y . }")
    for count in (32, 33):
        out.append(b"{ " + b"{ } " * count + b"}")
        out.append(b"{ " + b"UNION".join([b"{ }"] * count) + b"}")
        out.append(b"{ " + b"OPTIONAL { }" * (count - 1) + b"}")
    for line in (b"<a><p><b>.", b"<a><p>*<b>.", b"<a>!<p><b>."):
        out.append(b"{" + b"{}" * 31 + line + b"}")
        out.append(b"{" + b"UNION".join([b"{}"] * 31) + line + b"}")
        out.append(b"{" + b"OPTIONAL{}" * 30 + line + b"}")
    # variables
    for count in (7, 8, 9, 10):
        letters = b"abcdefghij"[:count]
        out.append(b"{ " + b" ".join(b"?%c <p> <b> ." % c for c in letters) + b" }")
        out.append(b"{" + b"".join(b"<b><p>?%c." % c for c in letters) + b"}")
    eight = b"".join(b"?%c<p>?%c." % (c, c + 1) for c in b"aceg")
    out.append(b"{" + eight + b"?a<p>?h.?h<p>?b.}")
    out.append(b"{" + eight + b"?a<p>?A.}")
    out.append(b"{" + eight + b"?i<p>?j.}")
    out.append(b"{" + eight + b"?aa<p>?j.}")
    out.append(b"{ OPTIONAL {" + eight + b"} { ?h <p> ?a . } UNION { ?b <p> ?0 . } }")
    # terms and names
    for count in (127, 128, 129):
        out.append(b"{ <" + b"s" * count + b"> <p> ?x . }")
        out.append(b"{ <a> <" + b"p" * count + b"> ?x . }")
        out.append(b"{ <a> <p> <" + b"\xc3" * count + b"> . }")
        out.append(b"{ <a> <p> \"" + b"o" * count + b"\" . }")
        out.append(b"{ \"" + b" " * count + b"\" <p> ?x . }")
        out.append(b"{ <a> !<" + b"n" * count + b"> ?x . }")
        out.append(b"{ <a> !(<p>|<" + b"n" * count + b">) ?x . }")
    for count in (15, 16, 17, 18):
        out.append(b"{ ?" + b"abcdefghijklmnopqr"[:count] + b" <p> <b> . }")
        out.append(b"{ <a> <p> ?" + b"0" * count + b" . }")
    return out


LONG_IRI = b"<" + b"i" * 129 + b">"
LONG_LITERAL = b'"' + b"l" * 129 + b'"'
LONG_NAME = b"?abcdefghijklmnopq"
EIGHT = b"?a<p>?b.?c<p>?d.?e<p>?f.?g<p>?h."
HEAVY = b"<a>" + b"/".join([b"<p>"] * 33) + b"<b>."


def orders():
    """Several faults in one text, or several numbers at one token."""
    return [
        # a token that is too long, where none may stand
        LONG_IRI,
        LONG_LITERAL,
        LONG_NAME,
        b"{ <a> " + LONG_LITERAL + b" ?x . }",
        b"{ <a> " + LONG_NAME + b" ?x . }",
        b"{ <a> <p> <b> " + LONG_IRI + b" . }",
        b"{ <a> !" + LONG_LITERAL + b" ?x . }",
        b"{ <a> !(<p>|" + LONG_NAME + b") ?x . }",
        # a token that is too long and out of shape
        b"{ <" + b"i" * 129,
        b"{ <" + b"i" * 129 + b" > <p> ?x . }",
        b"{ \"" + b"l" * 129,
        b"{ \"" + b"l" * 129 + b"\\\" <p> ?x . }",
        # too long, then no question; and the other way round
        b"{ " + LONG_IRI + b" }",
        b"{ " + LONG_LITERAL + b" . }",
        b"{ " + LONG_NAME,
        b"{ " + LONG_NAME + b" <p> }",
        b"{ . " + LONG_NAME + b" }",
        b"{ <a> <p> }" + LONG_IRI,
        b"{ } " + LONG_IRI,
        # two tokens too long
        b"{ <a> " + LONG_IRI + b" " + LONG_NAME + b" . }",
        b"{ " + LONG_NAME + b" " + LONG_IRI + b" ?x . }",
        # the ninth variable
        b"{" + EIGHT + LONG_NAME + b"<p><b>.}",
        b"{" + EIGHT + b"<b><p>" + LONG_NAME + b".}",
        b"{" + EIGHT + b"<b>" + LONG_IRI + b"?i.}",
        b"{" + EIGHT + b"?i" + LONG_IRI + b"<b>.}",
        b"{" + EIGHT + b"<b>?i<p>.}",
        b"{" + EIGHT + b"?i",
        b"{" + EIGHT + b"?i.}",
        b"{" + EIGHT + b"?",
        b"{" + EIGHT + b"}?i",
        b"{?a<p>" + LONG_NAME + b"." + EIGHT + b"?i<p>?a.}",
        # the seventeenth open bracket
        b"{" * 16 + LONG_IRI + b"(",
        b"{" * 16 + b"<a>(" + LONG_IRI,
        b"{" * 17 + b")",
        b"{" * 16 + b")" + b"{",
        b"{" * 16 + b"<a>((<p>",
        b"{" * 16 + EIGHT + b"?i<p>?a.{",
        b"{" * 16 + EIGHT + b"{?i",
        b"{" * 16 + b"<a><p>(",
        # more than 64 nodes, and a fault in or behind them
        b"{" + HEAVY + b"}",
        b"{" + HEAVY,
        b"{" + HEAVY + b"  ",
        b"{" + HEAVY + b"}}",
        b"{" + HEAVY + b"<a>}",
        b"{" + HEAVY + b"?x<p><b>.}",
        b"{" + HEAVY + LONG_NAME + b"<p><b>.}",
        b"{" + HEAVY + b"<a><p>" + LONG_LITERAL + b".}",
        b"{" + HEAVY + EIGHT + b"<a><p>?i.}",
        b"{" + HEAVY + EIGHT + b"<a><p>?h.}",
        b"{" + HEAVY + b"{" * 15 + b"}" * 16,
        b"{" + HEAVY + b"{" * 16 + b"}" * 17,
        b"{" + HEAVY + b"<q",
        b"{" + HEAVY + b'"q',
        # more than 2,048 bytes, and a fault before
        b"{ . }" + b" " * 2044,
        b"{" * 17 + b"}" * 17 + b" " * 2015,
        b"{ " + LONG_NAME + b" <p> <b> . }" + b" " * 2020,
        b"{" + HEAVY * 15 + b"}",
        b"{" + HEAVY * 14 + b"}",
    ]


# ------------------------------------------------------------- the corpus


def corpus():
    dice = Dice(0x9E3779B97F4A7C15)
    texts = PLAIN + limits() + orders()
    for _ in range(100):
        texts.append(spell(dice, lawful(dice)))
    for _ in range(8):  # deep
        texts.append(spell(dice, lawful(dice, fuel=30, depth=12)))
    for _ in range(8):  # near the limit of nodes, on either side
        texts.append(spell(dice, lawful(dice, fuel=32 + dice.below(12), depth=4)))
    for _ in range(6):  # more names than may stand
        texts.append(spell(dice, lawful(dice, fuel=25, depth=3, names=NAMES)))
    for _ in range(320):  # near what is bounded, on either side
        texts.append(spell(dice, near_the_border(dice)))
    for damage, count in DAMAGES:
        for _ in range(count):
            texts.append(damage(dice))
    return list(dict.fromkeys(texts))


def main():
    sys.stdout.write("".join(text.hex() + "\n" for text in corpus()))


if __name__ == "__main__":
    main()
