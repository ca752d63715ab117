# What the program takes of memory it gives back: after a run of all commands as many blocks are left when it ends as after no line at all,
# over a store in memory and over one in a file; and after the worked rows of a ring as many as after none of its rounds. The proofs say
# nothing of that: a value may be let go without being freed.
cc -shared -fPIC -o count.so "$TESTS/c/count_blocks.c" || exit 1
{ "$TESTS/../tools/hand_in" System.Tool "$TESTS/lib/tool.text"; cat "$TESTS/lib/walk.in" "$TESTS/lib/clicks.in"; } > events

# The blocks that are left when a program ends, in LEFT, and those that it was given, in GIVEN.
count() {
    LD_PRELOAD=./count.so COUNTED=counted "$@" > /dev/null
    read -r GIVEN _ LEFT _ < counted
}
# Says whether a run of many blocks leaves as many as a run of few.
compare() {
    if [ "$LEFT" = "$2" ] && [ "$GIVEN" -gt $(($3 + 100)) ]; then
        echo "$1: every block freed"
    else
        echo "$1: $GIVEN blocks given, $LEFT left; $3 and $2 where nothing is done"
    fi
}

count "$PROGRAM" < /dev/null
left=$LEFT given=$GIVEN
count "$PROGRAM" < events
compare memory "$left" "$given"

"$PROGRAM" format desk.disk > formatted || exit 1
count "$PROGRAM" play desk.disk < /dev/null
left=$LEFT given=$GIVEN
count "$PROGRAM" play desk.disk < events
compare file "$left" "$given"

count "$RING_BENCH" far 1000 0
left=$LEFT given=$GIVEN
count "$RING_BENCH" far 1000 1000
compare ring "$left" "$given"
