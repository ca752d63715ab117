# The host refuses each call of `format` in turn, over a store that is there and where there is none; of the writes of
# zeros, which are alike, three. What the file is afterwards stands behind. The next `format` makes it a whole store.
. "$TESTS/lib/each_call.sh"
"$PROGRAM" format new.disk
cp new.disk old.disk
"$PROGRAM" play old.disk < "$TESTS/corpus/events/hello.in"

# What becomes of the store $1 where call number $3 of the kind $2 is refused.
try() {
    rm -f desk.disk calls
    [ "$1" = none ] || cp "$1.disk" desk.disk
    FAIL=$2 AT=$3 CALLS=calls LD_PRELOAD=./calls.so "$PROGRAM" format desk.disk > said 2>&1
    status=$?
    grep -q failed calls || return
    echo "$1, $2 $3 refused: $(cat said) $status; $("$PROGRAM" check desk.disk 2>&1)"
    "$PROGRAM" format desk.disk > said
    cmp new.disk desk.disk
    refused=$((refused + 1))
}
refused=0
for store in none old; do
    for call in open flock ftruncate fdatasync fsync realpath write; do
        number=0
        while try $store $call $number; do number=$((number + 1)); done
        [ "$(cat said) $status" = 'ok 0' ] || echo "$call $number: $(cat said)"
    done
    for number in 0 7000 15620 15621 15622 15623 15624 15625 15626 15627; do try $store pwrite $number; done
    try $store pwrite 15628 && echo 'one write more'
done
count 'calls refused, format' $refused
