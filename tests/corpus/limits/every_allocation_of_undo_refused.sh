# Each allocation is refused in turn under `desk history`, `desk earlier` and Ctrl-Z, over a store whose last events stand behind
# a checkpoint and before it. What is told is told whole, or it is said that memory ran out. A copy that is there shows the store
# without just the events that were asked for, and it is there where all was well, or where it is told that just its folder could
# not be synced. Otherwise there is none. The store itself stays.
cc -shared -fPIC -o refuse.so "$TESTS/c/refuse_allocation.c" || exit 1
events() {
    cat << 'END'
file System.Tool Edit.Open A.Text
point m 60 31 60 31
point m 52 30 52 30
point l 2 30 2 30
type one
type two
checkpoint
END
}
# The store, and the screens without its last event and without its last two.
made() {
    "$PROGRAM" format "$1" > formatted
    "$PROGRAM" play "$1" > played
    "$PROGRAM" screen "$1" > "$2"
}
{ events; echo type three; } | made new.disk screen.0
events | made one.disk screen.1
events | grep -v two | made two.disk screen.2
"$DESK_PROGRAM" history new.disk > whole
head -n 2 whole

# Does what the other arguments say with allocation $1 refused.
refusing() {
    number=$1
    shift
    rm -f refused earlier.disk
    LD_PRELOAD=./refuse.so REFUSE=$number REFUSED=refused ALLOCATED=allocated "$DESK_PROGRAM" "$@" > got 2> said
}
starved() { [ "$1" = 5 ] && [ "$(cat said)" = 'desk: there was not enough memory' ]; }
# (A disk in memory that can't record a write fails as a disk does.)
history_is_right() {
    cmp -s my.disk new.disk || return 1
    [ "$1" != 0 ] || { cmp -s got whole; return; }
    [ ! -s got ] && { starved "$1" || [ "$1" = 4 ]; }
}
unsynced='desk: "earlier.disk" was made, but its folder could not be synced, so a power failure may take it away'
earlier_is_right() {
    cmp -s my.disk new.disk && [ ! -e earlier.disk.desk-copy ] || return 1
    if [ "$1" = 0 ] || { [ "$1" = 4 ] && [ "$(cat said)" = "$unsynced" ]; }; then
        "$PROGRAM" screen earlier.disk | cmp -s - screen.2
    else
        [ ! -e earlier.disk ] && starved "$1"
    fi
}
# Where memory runs out the sitting ends, and none, one or both events are taken back.
sit_is_right() {
    "$PROGRAM" screen my.disk > seen
    [ "$1" != 0 ] || { cmp -s seen screen.2; return; }
    [ "$1" = 5 ] && { cmp -s seen screen.0 || cmp -s seen screen.1 || cmp -s seen screen.2; }
}

# Refuses the first ten allocations, of the others one in $1, and all of the last $2 or one in nine of them.
each_allocation() {
    every=$1 last=$2 number=0 tried=0 refused=0
    shift 2
    cp --sparse=always new.disk my.disk
    refusing -1 "$@" < keys
    all=$(cat allocated)
    while [ $number -lt "$all" ]; do
        cp --sparse=always new.disk my.disk
        refusing $number "$@" < keys
        status=$?
        "$1_is_right" $status || echo "$1, allocation $number of $all refused: status $status, $(head -c 200 said)"
        tried=$((tried + 1))
        [ $status = 0 ] || refused=$((refused + 1))
        if [ $number -lt 10 ]; then
            number=$((number + 1))
        elif [ $number -lt $((all - last)) ]; then
            number=$((number + every))
        else
            number=$((number + $(trials 1 9)))
        fi
    done
    [ $tried -gt 10 ] && [ $refused -gt 5 ] && echo "$1: allocations were refused"
    count "allocations refused, desk $1" $tried
}
: > keys
each_allocation 997 "$(trials 300 50)" history my.disk
each_allocation "$(trials 3 19)" "$(trials 100 30)" earlier my.disk 2 earlier.disk
printf '\032\032\021\021' > keys
each_allocation "$(trials 1 9)" "$(trials 100 30)" sit 33 my.disk
