#!/usr/bin/env python3
"""Bring this repository's definitions and lemmas to one spelling: words in snake case, facts and types in camel case.

    python3 tools/respell/respell.py [--list]

Run once, at the top, after the toolchain's own port.py. A name is respelled where the repository declares it (a definition, lemma, field or
constructor in specs/ or proofs/, also one of a `where` block), at every mention in .antt files and in the ghost parts of .rt files, and in
must-fail edits. Names of goals and steps, which the check makes from the source, keep their spelling, and so do functions of src/.
"""
import glob
import re
import sys

DECLARATION = re.compile(r"^(\s*)((?:abbrev |unfoldable |pub |opaque )*)([^\s:{}()λ→]+) : (.*)$")
GENERATED = re.compile(r"^(returns|overflow|bounds|slice_bounds|offset_bounds|invariant|decreases|loop|if|then|else|in|in_ok|in_err|prove|nonzero|"
                       r"invariant_of|the|match|elim|clause|type_inv|index|field)(-|$)")
TOKEN = re.compile(r"[^\s(){}\[\].,;]+")


# Names that an import gives.
ALIAS = re.compile(r" as ([a-z][\w']*-[\w'-]+)")


def files():
    found = glob.glob("crates/*/specs/**/*.antt", recursive=True) + glob.glob("crates/*/proofs/**/*.antt", recursive=True)
    return sorted(path for path in found if "/out/" not in path)


def camel(name):
    return "".join(p[:1].upper() + p[1:] for p in re.split(r"[-_]", name) if p)


def snake(name):
    tail = re.search(r"-[^\w']+$", name)
    end = tail.group(0) if tail else ""
    name = name[: len(name) - len(end)].replace("getD", "get_or")
    name = re.sub(r"(?<=[a-z0-9])(?=[A-Z])", "_", name)
    return name.replace("-", "_").lower() + end


# Where two names would fall together, the definition has the plain one and the lemma `_lem`.
BY_HAND = {"Goes_on": "GoesOn", "lawfulTerm": "lawful_term", "asksNothing": "asks_nothing", "Sum": "sum_by_row", "eachAfter": "each_after", "each_after": "each_after_lem", "name-at": "name_at_lem", "listedIn": "listed_in",
           "end-mask": "end_mask_lem", "end-terms": "end_terms_lem", "first-names": "first_names_lem", "fixed-by": "fixed_by_lem",
           "iri-term": "iri_term_lem", "is-page": "is_page_lem", "judged-by": "judged_by_lem", "no-term": "no_term_lem", "path-is": "path_is_lem",
           "pattern-is": "pattern_is_lem", "pattern-terms": "pattern_terms_lem", "second-names": "second_names_lem", "sure-count": "sure_count_lem",
           "term-at": "term_at_lem"}


def declared():
    """name → True where it is a fact (its type ends in a universe), else False."""
    found = {}
    for path in files():
        lines = open(path).read().split("\n")
        found.update((name, False) for name in ALIAS.findall("\n".join(l for l in lines if l.startswith("use "))))
        for i, line in enumerate(lines):
            several = re.match(r"^\s+((?:[\w'-]+ )+[\w'-]+) : [A-Z]\w*$", line)
            if several and not line.strip().startswith("let "):
                found.update((name, found.get(name, False)) for name in several.group(1).split())
                continue
            m = DECLARATION.match(line)
            if re.match(r"^(pub )?(data|record) ", line):
                head = re.match(r"^(?:pub )?(?:data|record) ([^\s:]+)", line).group(1)
                found[head] = True
                continue
            if not m or line.startswith("use "):
                continue
            name, rest = m.group(3), m.group(4)
            j = i + 1
            while j < len(lines) and lines[j].startswith(" " * (len(m.group(1)) + 2)) and not DECLARATION.match(lines[j]):
                rest += " " + lines[j].strip()
                j += 1
            if rest.startswith("goal."):
                continue
            fact = bool(re.search(r"(^|→ )Type [0-9]$", rest.strip()))
            found[name] = found.get(name, False) or fact
    return found


def table():
    names = {}
    for name, fact in declared().items():
        if not re.search(r"\w", name) or not (name[0].isalpha() or name[0] == "_"):
            continue
        if any(ord(c) > 127 for c in name):
            continue
        if len(name) < 3:
            continue
        if fact:
            new = camel(name) if ("-" in name or name[0].islower()) and len(name) > 1 else name
        elif name[0].isupper() and "-" not in name and not re.search("[a-z]", name):
            new = name
        else:
            new = snake(name) if re.search(r"[A-Z-]", name) and len(name) > 1 else name
        if new != name:
            names[name] = new
    names.update(BY_HAND)
    return names


def ghost_line(line, open_clause):
    code = line.split("//")[0]
    starts = re.search(r"\b(ghost|requires\*?|ensures\*?|tactic)\b", code)
    return bool(starts) or open_clause


def turn(text, names):
    def one(m):
        name = m.group(0)
        if GENERATED.match(name) and m.start() > 0 and text[m.start() - 1] == ".":
            return name
        return names.get(name, name)

    return TOKEN.sub(one, text)


def turn_antt(text, names):
    out = []
    for line in text.split("\n"):
        cut = re.search(r"(^|\s)--(\s|$)", line)
        if cut:
            out.append(turn(line[: cut.start()], names) + line[cut.start():])
        else:
            out.append(turn(line, names))
    return "\n".join(out)


def turn_rt(text, names):
    out, depth = [], 0
    for line in text.split("\n"):
        code = re.sub(r'"(\\.|[^"\\])*"', '""', line.split("//")[0])
        if depth > 0 or re.search(r"\b(ghost|requires\*?|ensures\*?)\b", code):
            out.append(turn(line, names))
            start = 0 if depth > 0 else re.search(r"\b(ghost|requires\*?|ensures\*?)\b", code).start()
            part = code[start:]
            depth = max(0, depth + part.count("{") - part.count("}"))
        else:
            out.append(line)
    return "\n".join(out)


def main():
    names = table()
    by_new = {}
    for old, new in names.items():
        by_new.setdefault(new, []).append(old)
    known = declared()
    for new, olds in sorted(by_new.items()):
        if len(olds) > 1 or new in known:
            print("falls together:", new, olds, "(declared already)" if new in known else "")
    if "--list" in sys.argv:
        for old, new in sorted(names.items()):
            print(old, "->", new)
        return
    paths = files() + sorted(glob.glob("crates/*/src/**/*.rt", recursive=True)) + sorted(glob.glob("crates/*/must-fail/*.edit"))
    for path in paths:
        text = open(path).read()
        if path.endswith(".edit"):
            new = turn_antt(text, names) if ".antt" in text.split("\n")[0] else text
        else:
            new = turn_antt(text, names) if path.endswith(".antt") else turn_rt(text, names)
        if new != text:
            open(path, "w").write(new)


main()
