#!/usr/bin/env bash
# `play` of 100,000 lines over the disk in memory.
set -eu
. "$(dirname "$0")/../parts.sh" "${1:-}"
for k in $(seq 25000); do printf 'file F%d.Text %d\nshow F%d.Text\nlist\nan odd line\n' $((k % 200)) "$k" $((k % 300)); done > "$folder/script"
TIMEFORMAT='100,000 lines in %R s (%U s of the processor)'
time "$program" < "$folder/script" > /dev/null
