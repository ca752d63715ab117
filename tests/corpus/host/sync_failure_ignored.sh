# Each sync fails in turn, of `format`, of `play` with one event, and of `check`: the last one of each isn't there any more.
cc -shared -fPIC -o calls.so "$TESTS/c/fail_calls.c" || exit 1
"$PROGRAM" format desk.disk

# Fails sync number $2 of the kind $1.
try() {
    echo "$1 $2 of $3"
    FAIL=$1 AT=$2 LD_PRELOAD=./calls.so "$PROGRAM" "$3" desk.disk < "$TESTS/corpus/events/hello.in"
    echo "$?"
}
for number in 0 1 2 3; do try fdatasync $number play; done
for number in 0 1; do try fdatasync $number check; done
for number in 0 1 2 3; do try fdatasync $number format; done
for number in 0 1; do try fsync $number format; done
