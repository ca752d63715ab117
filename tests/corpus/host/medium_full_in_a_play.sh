# The medium is full from each write of a play on: the host refuses this one and all later ones. The store then opens,
# holds every answered event, and at most one more, and plays on once there is room.
. "$TESTS/lib/answered.sh"
number=0
while :; do
    with_a_failure FAIL=pwrite AT=$number ONWARD=1 ERROR=28
    status=$?
    grep -q failed calls || break
    [ $status = 4 ] && [ ! -s said ] && { head -n "$(answered)" whole; echo fault; } | cmp - got \
        || echo "full from write $number on: status $status, $(head -c 200 got said)"
    holds "$(answered)" more || echo "full from write $number on: the store holds something else"
    number=$((number + $(trials 1 5)))
done
cmp got whole && [ $status = 0 ] && [ $number -gt 40 ] && echo 'full from each write on'
count 'plays over a medium that becomes full' $number
