# shellcheck shell=bash
# Sourced by scripts that have each allocation of the program refused in turn, while it plays the lines of the file `events`. What they give
# where none is refused stands in `whole`.
cc -shared -fPIC -o refuse.so "$TESTS/c/refuse_allocation.c" || exit 1

# Plays the events with allocation $1 refused, over the store that the other arguments name.
play() {
    number=$1
    shift
    rm -f refused
    LD_PRELOAD=./refuse.so REFUSE=$number REFUSED=refused "$PROGRAM" "$@" < events > got 2> said
}

# The replies in `got` and `said`, after status $1, are the whole ones, or the first of their lines and the word of that status. The store
# is in a file or in memory, as $order says: a disk in memory that can't record a write fails as a disk does.
right() {
    case $1 in
        0) cmp -s got whole; return ;;
        4) [ $order = memory ] || return; word=fault ;;
        5) word=memory ;;
        *) return 1 ;;
    esac
    if [ -s got ]; then
        [ "$(tail -n 1 got)" = $word ] && head -n -1 got > first && cmp -s -n "$(wc -c < first)" first whole
    else
        [ "$(cat said)" = $word ]
    fi
}

# Plays the events over a store in memory and over one in a file, with allocation 0, 1, 2 .. refused, until none is; for the
# file `new.disk` is a store, and then it shows, by `looks`, just what the events led to whose replies came (`shown.N` for N
# of them). Says `NAME, memory: ..` and `NAME, file: ..` where there were at least $2 allocations, NAME being $1. Where few are
# to be tried these are the first ten, and of the others one in nine.
each_allocation() {
    for order in memory file; do
        words=()
        [ $order = memory ] || words=(play desk.disk)
        number=0
        while :; do
            [ $order = memory ] || cp new.disk desk.disk
            play $number "${words[@]}"
            right $? || echo "$1, $order: other replies with allocation $number refused"
            if [ $order = file ]; then
                looks | "$PROGRAM" play desk.disk | cmp - "shown.$(grep -c '^ok$\|^no [0-9]*$' got)" \
                    || echo "$1, allocation $number refused: the store shows another desktop"
            fi
            [ -e refused ] || break
            [ $number -lt 10 ] && number=$((number + 1)) || number=$((number + $(trials 1 9)))
        done
        cmp got whole && [ $number -ge "$2" ] && echo "$1, $order: every allocation was refused once"
        count "allocations refused, $1, $order" $number
    done
}

# Makes `whole`, what the events give, and `shown.N` for each number N of the events that are no looks: what `looks` shows
# of a store in memory after the first N of them.
show_each() {
    "$OBERON" < events > whole
    grep -v '^show \|^list$\|^screen$' events > posted
    for number in $(seq 0 "$(grep -c '' posted)"); do
        { head -n "$number" posted; looks; } | "$PROGRAM" | tail -n +$((number + 1)) > "shown.$number"
    done
}
