#!/usr/bin/env bash
# The most memory (VmHWM) that 100,000 and 1,000,000 posted events take over the disk in memory, and that as many rounds
# of five calls over 300 sectors of the disk alone take. `bench/store/memory.sh [FOLDER]`.
set -eu
. "$(dirname "$0")/../parts.sh" "${1:-}"
"$top/bench/build" memory_bench
for events in 100000 1000000; do
    yes 'point l 60 20 60 20' | head -n "$events" > "$folder/script"
    /usr/bin/time -f "$events events: %M KB at most, %e s" "$program" < "$folder/script" > "$folder/said"
    [ "$(sort -u "$folder/said")" = ok ] || { echo 'an event was refused'; exit 1; }
    /usr/bin/time -f "$events rounds of the disk: %M KB at most, %e s" \
        "$top/bench/out/memory_bench" "$events" 300 > "$folder/said"
done
