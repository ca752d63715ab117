# shellcheck shell=bash
# Sourced by scripts that have calls fail which a program makes of the host. Such a script says in `attempt ASSIGNMENT..`
# what the program does under the assignments.
cc -shared -fPIC -o calls.so "$TESTS/c/fail_calls.c" || exit 1

# Makes an attempt in which a call fails as the assignments say (FAIL, AT and others of fail_calls.c). What became of the
# call stands in `calls`.
with_a_failure() {
    rm -f calls
    attempt CALLS=calls LD_PRELOAD=./calls.so "$@"
}

# Makes attempts in which call 0, 1, 2 .. of the kind $1 fails, or before which the program is killed where $2 is `killed`,
# until no such call is made any more. What each comes to is judged by `is_right $1`. Afterwards $status is that of the last
# attempt, in which no call failed, and $tried is how many calls there are. Where few are to be tried these are the first six
# and of the others one in seven, or in FEW.
each_call() {
    tried=0
    while :; do
        with_a_failure FAIL="$1" AT=$tried ${2:+KILLED=1} 2> shell
        status=$?
        grep -q "${2:-failed}" calls || return
        is_right "$1" || echo "$1 $tried ${2:-refused}: status $status, $(head -c 200 got said)"
        [ $tried -lt 6 ] && tried=$((tried + 1)) || tried=$((tried + $(trials 1 ${FEW:-7})))
    done
}
