# The writes and syncs of checkpoints: of a first one seven, of a second one eight, the first of which closes the gate of
# the slot that is written anew. Where sectors of characters are full that the slot in use doesn't name, these are
# written too, and no other. Wherever it is stopped, at opening too, the store shows the same afterwards.
cc -shared -fPIC -o calls.so "$TESTS/c/fail_calls.c" || exit 1
x=$(head -c 900 /dev/zero | tr '\0' x)
looks() { printf '%s\n' list 'show A.Text' 'show X.Text' 'show Y.Text' screen; }

# The calls of a checkpoint of desk.disk that write or sync, but for the sync of opening; then each of them fails once.
try() {
    echo "$1"
    looks | "$PROGRAM" play desk.disk > before
    cp desk.disk old.disk
    rm -f calls
    echo checkpoint | CALLS=calls LD_PRELOAD=./calls.so "$PROGRAM" play desk.disk
    grep -v '^pread' calls | tail -n +2
    looks | "$PROGRAM" play desk.disk | cmp - before && "$PROGRAM" check desk.disk
    for call in pread pwrite fdatasync; do
        number=0
        while :; do
            cp old.disk cut.disk
            said=$(echo checkpoint | FAIL=$call AT=$number LD_PRELOAD=./calls.so "$PROGRAM" play cut.disk 2>&1)
            looks | "$PROGRAM" play cut.disk | cmp - before
            [ "$said" = fault ] || break
            number=$((number + 1))
        done
        [ $number -gt 3 ] && echo "$said, after a stop at each $call"
    done
}

"$OBERON" format desk.disk
try 'the first'
try 'the second'
try 'the third'
printf '%s\n' 'file A.Text Edit.Open X.Text' "file X.Text $x" "file Y.Text $x" | "$OBERON" play desk.disk
try 'one sector is full'
printf '%s\n' "file X.Text $x" "file Y.Text $x" 'file System.Tool Edit.Open X.Text%0dSystem.Collect' 'point m 60 31 60 31' 'point m 52 30 52 30' | "$OBERON" play desk.disk
try 'two more are full'
try 'no other one'
# Right after a System.Collect the characters that are left go to the other area, from its first sector on.
printf '%s\n' "file Y.Text $x" 'point m 52 29 52 29' | "$OBERON" play desk.disk
try 'after a System.Collect'
try 'after that'
