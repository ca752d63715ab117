#!/bin/sh
# Times events and screens of a desktop in memory with one text in a viewer, by processor time: 20,000 keystrokes, in lines, at the text's end and in
# its middle, 1,000 screens, 200,000 events that touch no text, and 100 searches for a word that isn't there, each with 1,000, 10,000 and 200,000
# characters; 5,000 keystrokes and 1,000 screens where 20,000 characters are one line; and 100 times the list of 256 files in the log. As a sense of
# scale, grep -F and ls do searches and lists over files.
# It times bench/out/desk_bench, which it builds first, or the program that DESK_BENCH names. Other sizes: bench/texts/desk.sh CHARACTERS..
# A run without rounds is taken off, so only the rounds count; of grep and ls, a run over nothing.
set -e
bench=$(dirname "$0")/..
program=${DESK_BENCH:-$bench/out/desk_bench}
[ -n "${DESK_BENCH-}" ] || "$bench/build" desk_bench
[ $# -gt 0 ] || set -- 1000 10000 200000

# The processor time of a run in seconds, and of a hundred runs of a command.
seconds() {
    bash -c 'TIMEFORMAT="%U %S"; time "$0" "$@" > /dev/null' "$program" "$@" 2>&1 | awk '{ print $1 + $2 }'
}
hundred() {
    bash -c 'TIMEFORMAT="%U %S"; time for k in $(seq 100); do "$0" "$@"; done > /dev/null' "$@" 2>&1 | awk '{ print $1 + $2 }'
}

# Prints what so many rounds took, from two times of which the second has no rounds.
report() {
    awk -v w="$1" -v r="$2" -v a="$3" -v n="$4" \
        'BEGIN { t = a - n; printf "%s, %d rounds: %.2f s, %.0f a second, %.2f us each\n", w, r, t, (t > 0 ? r / t : 0), t / r * 1e6 }'
}

for what in 'type end 20000' 'type middle 20000' 'screen end 1000' 'mark end 200000' 'search end 100'; do
    read -r mode place rounds <<EOF
$what
EOF
    for size; do
        report "$mode, $place: $size characters" "$rounds" "$(seconds "$mode" "$place" "$size" "$rounds")" "$(seconds "$mode" "$place" "$size" 0)"
    done
done
report 'type, one line: 20000 characters' 5000 "$(seconds type line 20000 5000)" "$(seconds type line 20000 0)"
report 'screen, one line: 20000 characters' 1000 "$(seconds screen line 20000 1000)" "$(seconds screen line 20000 0)"
report 'directory: 256 files' 100 "$(seconds directory end 1000 100)" "$(seconds directory end 1000 0)"

folder=$(mktemp -d)
trap 'rm -rf "$folder"' EXIT
: > "$folder/none"
for size; do
    yes xxxxxxxxxxxxxxxxxxxxxxxxxxxxxxxxxxxxxxxxxxxxxxxxx | head -c "$size" > "$folder/text"
    report "grep -F: $size characters" 100 "$(hundred grep -F -c needle "$folder/text")" "$(hundred grep -F -c needle "$folder/none")"
done
mkdir "$folder/files" "$folder/empty"
for k in $(seq 256); do echo > "$folder/files/F$k"; done
report 'ls -l: 256 files' 100 "$(hundred ls -l "$folder/files")" "$(hundred ls -l "$folder/empty")"
