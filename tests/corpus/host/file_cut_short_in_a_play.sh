# A store's file is cut short by somebody else while a play goes on over it. Where only free sectors go, nothing is
# lost. Where more goes, what is missing reads as zeros: the play goes on by what it has in memory, and says `fault` at
# nothing, since no call fails. What opens afterwards holds every answered event, unless sectors went that its slot
# names; a checkpoint after the cut writes the other slot whole, but not again the characters that stood in the area.
. "$TESTS/lib/answered.sh"
mkfifo script

# Cuts desk.disk to $2 bytes after $1 lines.
cut_short() {
    cp new.disk desk.disk
    "$PROGRAM" play desk.disk < script > got 2> said &
    exec 3> script
    head -n "$1" events >&3
    until [ "$(grep -c '' got 2> /dev/null)" = "$1" ]; do sleep 0.02; done
    truncate -s "$2" desk.disk
    tail -n +$(($1 + 1)) events >&3
    exec 3>&-
    wait $!
    echo "to $2 bytes after $1 lines: status $?, $(answered) answers, $("$PROGRAM" check desk.disk 2>&1)"
    diff whole got
    if looks | "$PROGRAM" play desk.disk > looked 2> said; then
        cmp -s looked "shown.$last" && echo 'all is there' || echo 'other characters'
    fi
}
for lines in 5 16; do
    for sector in 11525 7432 7430 7429 4229 1029 7 2 0; do
        cut_short $lines $((sector * 1024))
    done
done
