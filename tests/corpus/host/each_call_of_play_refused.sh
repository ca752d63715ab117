# The host refuses each call of a play over a file in turn. It says `fault` in place of the next answer, or nothing
# where the answer itself couldn't be written; then the store opens and holds every answered event, and at most one
# more.
. "$TESTS/lib/answered.sh"

# Whether `got` and `said` are right for a play in which a call of the kind $1 was refused.
said_right() {
    head -n "$(answered)" whole > front
    if [ "$1" = write ]; then
        [ ! -s said ] && cmp -s front got
    elif [ -s got ]; then
        [ ! -s said ] && (cat front; echo fault) | cmp -s - got
    else
        [ "$(cat said)" = fault ]
    fi
}
is_right() { said_right "$1" && [ $status = 4 ] && holds "$(answered)" more; }

refused=0
for call in open flock pread pwrite fdatasync write; do
    each_call $call
    cmp got whole && [ $status = 0 ] && [ $tried -gt 0 ] && echo "each $call was refused once"
    refused=$((refused + tried))
done
count 'calls refused, play' $refused
