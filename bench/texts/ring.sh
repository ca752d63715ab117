#!/bin/sh
# Times edits in rings of 1,000, 10,000 and 100,000 pieces: 100,000 rounds that take a random stretch out and put it in at a random
# position (far), as many within 50 characters of the last one (near), and the typing of as many characters.
# It times bench/out/ring_bench, which it builds first. Other numbers: bench/texts/ring.sh ROUNDS PIECES..
# A walk to a near place starts at the last one's, and a walk to a far one at a mark, so it has at most 128 links. A far edit
# moves the marks between it and the last one, so a far round costs some more for each mark that it passes.
set -e
bench=$(dirname "$0")/..
program=$bench/out/ring_bench
"$bench/build" ring_bench
rounds=${1:-100000}
[ $# -gt 0 ] && shift
[ $# -gt 0 ] || set -- 1000 10000 100000
for mode in far near type; do
    for pieces; do
        before=$(date +%s.%N)
        "$program" "$mode" "$pieces" "$rounds" > /dev/null
        after=$(date +%s.%N)
        empty=$("$program" "$mode" "$pieces" 0 > /dev/null; date +%s.%N)
        awk -v m="$mode" -v a="$before" -v b="$after" -v c="$empty" -v n="$pieces" -v r="$rounds" \
            'BEGIN { t = (b - a) - (c - b); printf "%s: %d pieces, %d rounds: %.2f s, %.2f us a round\n", m, n, r, t, r ? t / r * 1e6 : 0 }'
    done
done
