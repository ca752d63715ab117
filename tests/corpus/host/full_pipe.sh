# The answers go into a pipe that is full, or whose reader goes away. While it is full the program waits and does no
# line more; killed then, it leaves the events before. Where its reader is gone the program ends with status 4, and the
# store holds what was answered, and at most one event more.
. "$TESTS/lib/answered.sh"
mkfifo script answers

# Begins a play over desk.disk whose script is descriptor 3 and whose answers are descriptor 4.
begin_play() {
    cp new.disk desk.disk
    "$PROGRAM" play desk.disk < script > answers 2> said &
    process=$!
    exec 3> script 4< answers
}
# Plays the first nine events, and then looks that fill a pipe of 64 kB, before the tenth.
fill() {
    head -n 9 events
    yes 'show A.Text' | head -n 100
    tail -n +10 events
}

begin_play
fill >&3 && exec 3>&-
sleep 1
cat <&4 | grep -E '^(ok|no [0-9]+)$' | cmp - whole
wait $process
echo "the reader waits a second: status $?"
holds "$last" && echo 'all events'

begin_play
fill >&3 && exec 3>&-
sleep 1
kill -9 $process
{ wait $process; } 2> shell
echo "killed while the pipe is full: status $?"
holds 9 && echo 'the first nine events'
exec 4<&-

for lines in 1 8 15; do
    begin_play
    head -n $lines events >&3
    for _ in $(seq $lines); do read -r answer <&4; done
    exec 4<&-
    (tail -n +$((lines + 1)) events >&3) 2> shell
    exec 3>&-
    wait $process
    echo "the reader is gone after $lines answers: status $?, '$(cat said)'"
    holds $lines more && echo 'the answered events'
done

# (a write that must not wait says 11, one into a pipe without a reader 32)
for error in 11 32; do
    with_a_failure FAIL=write AT=7 ERROR=$error
    echo "error $error in the eighth answer: status $?, $(answered) answers"
    holds "$(answered)" more && echo 'the answered events'
done
