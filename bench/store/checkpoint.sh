#!/usr/bin/env bash
# A checkpoint of 262,144 characters in one piece and in 10,000, against the bare writes and syncs of one; and opening such a store, by time
# and peak memory, beside sqlite3 opening a database of as much text. `bench/store/checkpoint.sh [TIMES] [FOLDER]`. Of ROUNDS (10) rounds the
# fastest counts, since what a sync costs varies with all that the machine writes.
set -eu
. "$(dirname "$0")/../parts.sh" "${2:-}"
times=${1:-100}
cc -O2 -o "$folder/sectors" "$top/bench/c/sectors.c"
cd "$folder"

texts_in_one_and_many '' 291
for k in $(seq "$times"); do echo checkpoint; done > checkpoints

opened() { "$program" check desk > said; }
renewed() { "$program" play desk < checkpoints > said; }
bare() { ./sectors plain "$sectors" "$times"; }

# The length of the image that slot $1 has.
length() { echo $((0x$(dd if=desk bs=1 skip=$((2048 * $1 + 2060)) count=4 status=none | od -An -tx1 | tr -d ' \n'))); }

for text in one many; do
    "$program" format desk > said
    { cat $text; echo checkpoint; echo checkpoint; } | "$program" play desk | sort | uniq -c > said
    [ "$(wc -l < said)" = 1 ] || { echo 'an event was refused'; exit 1; }
    sectors=$((($(length 0) + 1023) / 1024))
    head -c 15995904 /dev/zero > plain && sync -d plain
    opening=$(fastest opened)
    play=$(fastest renewed)
    loop=$(fastest bare)
    awk -v what="$text" -v n="$times" -v sectors="$sectors" -v play=$((play - opening)) -v loop="$loop" -v opening="$opening" 'BEGIN {
        printf "%s: opening %.1f ms; a checkpoint (image of %d sectors) %.2f ms, bare %.2f ms, ratio %.2f\n",
            what, opening / 1e6, sectors, play / n / 1e6, loop / n / 1e6, play / loop }'
    if [ -x /usr/bin/time ]; then
        /usr/bin/time -f "$text: opening and checking %e s, %M KB at most" "$program" check desk > said
    fi
done

# The same text as a row of a table; opening is reading it whole.
if command -v sqlite3 > found && [ -x /usr/bin/time ]; then
    sqlite3 text.db "create table texts(bytes); insert into texts values (cast(zeroblob(262144) as text))"
    /usr/bin/time -f 'sqlite3: opening and reading %e s, %M KB at most' sqlite3 text.db 'select length(hex(bytes)) from texts' > said
fi
