#!/usr/bin/env bash
# Durable events per second of `play` over a file, against a bare loop of the same writes and syncs, turn by turn in one run:
# on a store that has just been made, on one whose journal was filled before, and through ten journals with the checkpoints between them.
# `bench/store/durable.sh [ROUNDS] [FOLDER]`
set -eu
. "$(dirname "$0")/../parts.sh" "${2:-}"
rounds=${1:-5}
cc -O2 -o "$folder/bare" "$top/bench/c/durable.c"
for k in $(seq 256); do echo 'file A.Text hello'; done > "$folder/script"
for k in $(seq 2560); do echo 'file A.Text hello'; done > "$folder/long"

posts() { "$program" play "$folder/desk" < "$folder/script" > "$folder/replies"; }
bare() { "$folder/bare" "$folder/plain" 1; }
long_posts() { "$program" play "$folder/desk" < "$folder/long" > "$folder/replies"; }
long_bare() { "$folder/bare" "$folder/plain" 10; }
report() { awk -v what="$1" -v n="$((${4:-256} * rounds))" -v play="$2" -v loop="$3" 'BEGIN {
    printf "%s: play %.0f events/s, bare loop %.0f events/s, ratio %.2f\n", what, n * 1e9 / play, n * 1e9 / loop, loop / play }'; }

new_play=0 new_loop=0 used_play=0 used_loop=0 long_play=0 long_loop=0
for round in $(seq "$rounds"); do
    "$program" format "$folder/desk" > /dev/null
    head -c 15995904 /dev/zero > "$folder/plain" && sync -d "$folder/plain"
    new_play=$((new_play + $(took posts)))
    new_loop=$((new_loop + $(took bare)))
    # The journal begins anew: gate 0 is closed.
    for used in desk plain; do
        dd if=/dev/zero of="$folder/$used" bs=1024 seek=5 count=1 conv=notrunc,fsync status=none
    done
    used_play=$((used_play + $(took posts)))
    used_loop=$((used_loop + $(took bare)))
    [ "$(grep -c '^ok$' "$folder/replies")" = 256 ]
    "$program" format "$folder/desk" > /dev/null
    head -c 15995904 /dev/zero > "$folder/plain" && sync -d "$folder/plain"
    long_play=$((long_play + $(took long_posts)))
    long_loop=$((long_loop + $(took long_bare)))
    [ "$(grep -c '^ok$' "$folder/replies")" = 2560 ]
done
report 'a new store' "$new_play" "$new_loop"
report 'a used store' "$used_play" "$used_loop"
report 'ten journals' "$long_play" "$long_loop" 2560
