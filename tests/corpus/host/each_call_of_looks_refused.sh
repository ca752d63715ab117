# The host refuses each call of `check` and `screen` in turn: they say `fault`, or where their answer couldn't be
# written nothing and only a front of it is there. The file is as it was.
. "$TESTS/lib/answered.sh"
"$PROGRAM" play new.disk < events > said
attempt() {
    cp new.disk desk.disk
    env "$@" "$PROGRAM" $command desk.disk > got 2> said
}
is_right() {
    cmp new.disk desk.disk && [ $status = 4 ] || return
    case $1 in
        write) [ ! -s said ] && cmp -n "$(wc -c < got)" got whole ;;
        *) [ "$(cat said)" = fault ] && [ ! -s got ] ;;
    esac
}

refused=0
for command in check screen; do
    "$PROGRAM" $command new.disk > whole
    for call in open flock pread fdatasync write; do
        each_call $call
        cmp new.disk desk.disk
        cmp got whole && [ $status = 0 ] && [ $tried -gt 0 ] && echo "$command: each $call was refused once"
        refused=$((refused + tried))
    done
done
count 'calls refused, check and screen' $refused
