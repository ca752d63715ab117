# Calls of a disk in a file that a signal interrupts are made again, and those that move a part of a sector go on where
# they stopped: none is a fault, and what is read is what was written.
cc -shared -fPIC -o calls.so "$TESTS/c/fail_calls.c" || exit 1

# Has the host hold back call number $2 of the kind $1, by the assignment $3, while the disk makes its calls. The lines
# from that call on follow; those before it write the zeros that make the file as long as a disk.
try() {
    echo "$1 $2, $3"
    rm -f calls
    env "$3" CALLS=calls FAIL="$1" AT="$2" LD_PRELOAD=./calls.so "$FILE_CALLS" calls.disk write sync read
    echo "$?"
    sed -n '/^pwrite 15620$/,$p' calls | tail -n +2
    grep -cE '^(failed|in part)$' calls
}
for held in ERROR=4 PART=1 PART=1023; do
    try pwrite 15621 $held
    try pread 0 $held
done
try pwrite 7000 ERROR=4
try fdatasync 0 ERROR=4

# Over a store: whichever call of the program is interrupted, or moves a part alone, replies and store are the same.
"$PROGRAM" format empty.disk
cp empty.disk desk.disk
"$PROGRAM" play desk.disk < "$TESTS/corpus/events/hello.in" > whole
cp desk.disk whole.disk
# Holds back each call of the kind $1 in turn, by the assignment $2.
each() {
    number=0
    while :; do
        cp empty.disk desk.disk
        rm -f calls
        env "$2" CALLS=calls FAIL="$1" AT=$number LD_PRELOAD=./calls.so "$PROGRAM" play desk.disk \
            < "$TESTS/corpus/events/hello.in" > got 2>&1
        status=$?
        [ "$status" = 0 ] && cmp got whole && cmp desk.disk whole.disk || echo "$1 $number, $2: status $status"
        grep -qE '^(failed|in part)$' calls || break
        number=$((number + 1))
    done
    echo "$1, $2: $number calls held back"
    count 'calls interrupted or cut short, play' $number
}
for held in ERROR=4 PART=8; do
    each pread $held
    each pwrite $held
done
each fdatasync ERROR=4
