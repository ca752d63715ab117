#!/usr/bin/env bash
# bench/store/twins.sh [PROGRAM]: a sitting over a store in two files beside one over a store in one: 3,060 letters that are typed,
# each durable before the next one, the best of ten; a start with its end, of equal files, the best of thirty; and a start where
# 200 sectors of the second file are older. PROGRAM is the program desk.
set -u
top=$(cd "$(dirname "$0")/../.." && pwd)
program=$(realpath "${1-$top/crates/desk/out/desk}")
room=$(mktemp -d)
trap 'rm -rf "$room"' EXIT
cd "$room" || exit 1
printf '\021' > quit
"$program" sit 33 new.disk < quit > /dev/null
{
    printf '\033[<1;54;2M\033[<1;54;2m'
    for _ in $(seq 60); do printf 'abcdefghij klmnopqrst uvwxyz abcdefghijklmnop qrst\r'; done
    cat quit
} > letters
one() { "$program" sit 33 one.disk < "$1" > scenes; }
two() { "$program" sit --twin second.disk 33 first.disk < "$1" > scenes; }
# The microseconds that a command takes.
timed() {
    local begun=$(date +%s%N)
    "$@"
    taken=$((($(date +%s%N) - begun) / 1000))
}
best() {
    timed "${@:2}"
    eval "[ \${$1:-999999999} -lt $taken ] || $1=$taken"
}
for _ in $(seq 10); do
    cp new.disk one.disk
    cp new.disk first.disk
    rm -f second.disk
    two quit
    best typed one letters
    best typed2 two letters
done
for _ in $(seq 30); do
    best started one quit
    best started2 two quit
done
head -c 200000 /dev/zero | tr '\0' x | fold > document
"$program" import first.disk A.Text=document > /dev/null 2>&1
timed two quit
echo "3,060 letters: $typed us in one file, $typed2 in two; a start: $started and $started2; with 200 older sectors: $taken"
