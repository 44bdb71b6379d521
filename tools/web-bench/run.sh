#!/usr/bin/env bash
# Measures lookups and reads of page files beside a plain scanner in C, in one run on one machine. Needs python3 and cc.
# The scanner is built twice: it looks for line ends byte by byte, and by the C library's memchr.
set -eu
cd "$(dirname "$0")/../.."
work=$(mktemp -d)
trap 'rm -r "$work"' EXIT
(cd crates/web_bench && rt run < /dev/null > "$work/build" 2>&1) || { cat "$work/build" >&2; exit 1; }
cc -O3 -o "$work/plain" tools/web-bench/scanner.c
cc -O3 -DMEMCHR -o "$work/memchr" tools/web-bench/scanner.c
cp crates/web_bench/out/web_bench "$work/proved"
TIMEFORMAT=%U
# pages of 16 triples, which are passed most of the time, and pages of 256, which are read most of the time
for triples in 16 256; do
    python3 - "$triples" > "$work/file" <<'PY'
import sys
triples, lines, size, page = int(sys.argv[1]), [], 0, 0
while True:
    more = ["@page <http://parts.example/%d>" % page]
    for n in range(triples):
        more.append('<http://parts.example/%d> <http://parts.example/value> "%d uF" .' % (page, n))
    text = "".join(line + "\n" for line in more)
    if size + len(text) > 65536:
        break
    lines.append(text)
    size, page = size + len(text), page + 1
sys.stdout.write("".join(lines))
PY
    echo "$(stat -c %s "$work/file") bytes, pages of $triples triples: seconds of each of three turns"
    for who in proved plain memchr; do
        echo -n "  $who"
        for turn in 1 2 3; do
            echo -n " $({ time "$work/$who" < "$work/file" > "$work/$who.out"; } 2>&1)"
        done
        echo
        cmp "$work/proved.out" "$work/$who.out"
    done
    sed 's/^/  all: /' "$work/proved.out"
done
