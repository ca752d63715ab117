#!/usr/bin/env bash
# System.Collect of 262,000 characters in one piece and in 10,000, with the checkpoint after it, against the bare writes and syncs of both;
# and a desktop that goes on for ten million written characters, since it collects every 1,000 events. `bench/store/collect.sh [TIMES] [FOLDER]`. Of
# ROUNDS (10) rounds the fastest counts, since what a sync costs varies with all that the machine writes.
set -eu
. "$(dirname "$0")/../parts.sh" "${2:-}"
times=${1:-100}
cc -O2 -o "$folder/sectors" "$top/bench/c/sectors.c"
cd "$folder"

texts_in_one_and_many %0dSystem.Collect 290
for k in $(seq "$times"); do printf '%s\n' 'point m 52 27 52 27' checkpoint; done > collects

opened() { "$program" check desk > said; }
collected() { "$program" play desk < collects > said; }
bare() { ./sectors plain "$sectors" "$times" "$full"; }

# Number $2 of the head of slot $1: 2 for the characters written, 3 for the bytes of the image.
number() { echo $((0x$(dd if=desk bs=1 skip=$((2048 * $1 + 2048 + 4 * $2)) count=4 status=none | od -An -tx1 | tr -d ' \n'))); }

for text in one many; do
    "$program" format desk > said
    { cat $text; printf '%s\n' checkpoint 'point m 52 27 52 27' checkpoint; } | "$program" play desk | sort | uniq -c > said
    [ "$(wc -l < said)" = 1 ] || { echo 'an event was refused'; exit 1; }
    sectors=$((($(number 0 3) + 1023) / 1024)) full=$(($(number 0 2) / 1024))
    head -c 15995904 /dev/zero > plain && sync -d plain
    opening=$(fastest opened)
    play=$(fastest collected)
    loop=$(fastest bare)
    awk -v what="$text" -v n="$times" -v sectors="$sectors" -v full="$full" -v play=$((play - opening)) -v loop="$loop" 'BEGIN {
        printf "%s: a Collect with its checkpoint (%d sectors of characters, an image of %d) %.2f ms, bare %.2f ms, ratio %.2f\n",
            what, full, sectors, play / n / 1e6, loop / n / 1e6, play / loop }'
done

# Documents of 900 characters, each in the place of the one before. Without a Collect the 4,661st is refused.
x=$(head -c 900 /dev/zero | tr '\0' x)
"$program" format desk > said
{
    echo "$begin"
    for k in $(seq 11112); do
        echo "file B $x"
        [ $((k % 1000)) != 0 ] || echo 'point m 52 27 52 27'
    done
} > script
begun=$(date +%s%N)
"$program" play desk < script | sort | uniq -c > said
[ "$(wc -l < said)" = 1 ] || { echo 'an event was refused'; exit 1; }
awk -v spent=$(($(date +%s%N) - begun)) 'BEGIN { printf "10,000,800 characters in 11,112 documents, a Collect every 1,000: %.1f s\n", spent / 1e9 }'
"$program" check desk
echo list | "$program" play desk
