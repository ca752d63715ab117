# Each read of the store fails in turn: nothing is said but that the disk failed, and the store is as it was.
cc -shared -fPIC -o calls.so "$TESTS/c/fail_calls.c" || exit 1
"$PROGRAM" format desk.disk
"$PROGRAM" play desk.disk < "$TESTS/corpus/events/hello.in" > replies
cp desk.disk whole.disk
for command in play check screen; do
    number=0
    while :; do
        rm -f calls
        CALLS=calls FAIL=pread AT=$number LD_PRELOAD=./calls.so "$PROGRAM" $command desk.disk < /dev/null > got 2> said
        status=$?
        grep -q failed calls || break
        [ "$status" = 4 ] && [ ! -s got ] && [ "$(cat said)" = fault ] || echo "$command: another reply where read $number fails"
        number=$((number + 1))
    done
    [ $number -gt 3 ] && [ "$status" = 0 ] && echo "$command: each read failed once"
done
cmp desk.disk whole.disk
