# A play over a file is killed by signal 9 before each of its calls in turn, and before the answer of each line is
# written. The store then opens and holds every answered event, and at most one more. (`tests/crash/killed` kills at random
# times.)
. "$TESTS/lib/answered.sh"
is_right() {
    [ $status = 137 ] && [ ! -s said ] && head -n "$(answered)" whole | cmp - got && holds "$(answered)" more
}

killed=0
for call in pread pwrite fdatasync write; do
    each_call $call killed
    cmp got whole && [ $status = 0 ] && [ $tried -gt 10 ] && echo "killed before each $call"
    killed=$((killed + tried))
done
count 'stops by signal 9, play' $killed
