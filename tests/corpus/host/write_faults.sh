# Writes of `play` and of `format` fail, as on a failing, a full and a read-only medium: the word is `fault`, and the status 4.
cc -shared -fPIC -o calls.so "$TESTS/c/fail_calls.c" || exit 1
for error in 5 28 30; do
    "$PROGRAM" format desk.disk
    # Fails write number $2 of the command $1.
    try() {
        FAIL=pwrite AT=$2 ERROR=$error LD_PRELOAD=./calls.so "$PROGRAM" "$1" desk.disk < "$TESTS/corpus/events/hello.in"
        echo "$1 $2: $?"
    }
    for number in 0 1 2 3; do try play $number; done
    for number in 0 7000 15620 15621 15627 15628; do try format $number; done
done
