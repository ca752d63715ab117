# What the full check runs of each program, with the words of its args and with its stdin, writes what its stdout has. Here it is
# the compiled program, so that a change of what it writes shows before all is proved.
crates=$TESTS/../crates
run() {
    local words=()
    [ ! -f "$crates/$1/args" ] || mapfile -t words < "$crates/$1/args"
    if [ -f "$crates/$1/stdin" ]; then
        "$2" "${words[@]}" < "$crates/$1/stdin"
    else
        "$2" "${words[@]}" < /dev/null
    fi > "$1.got"
    echo "$1: status $?"
    cmp "$crates/$1/stdout" "$1.got"
}
run oberon "$PROGRAM"
run desk "$DESK_PROGRAM"
run crash_search "$CRASH_SEARCH"
