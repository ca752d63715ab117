# Each allocation of a run over a store whose characters stand in the area is refused in turn: the replies are the same, or
# the first of them and `memory` with status 5, and the store then shows just what the events led to whose replies came.
# Where there is no memory for a sector that was read, nothing is seen of that.
. "$TESTS/lib/refusing.sh"
. "$TESTS/lib/in_the_area.sh"
cat > events <<'END'
show C.Text
point m 52 30 52 30
mark 10 10
point l 20 30 20 30
key paste
point r 51 27 56 27
point m 52 29 52 29
show A.Text
point r 51 30 58 29
checkpoint
point rm 3 30 8 30
type x
point m 52 28 52 28
screen
END
grep -v '^show\|^screen$\|^checkpoint$' events > posted
looks() { printf '%s\n' list 'show B.Text' screen; }

"$OBERON" format made.disk
"$OBERON" play made.disk < begin | uniq -c | sed 's/^ *//'
cp --sparse=always made.disk new.disk
cp new.disk desk.disk
"$OBERON" play desk.disk < events > whole
cut -c1-60 whole

# The store shows what the events led to whose replies stand in `got`.
shows_the_first() {
    answered=$(sed '/^ok$/!{/^no /!d}' got | wc -l)
    [ "$answered" -lt 8 ] || answered=$((answered - 1))
    looks | "$PROGRAM" play desk.disk > shown
    cp new.disk other.disk
    head -n "$answered" posted | "$PROGRAM" play other.disk > said.other
    looks | "$PROGRAM" play other.disk | cmp -s - shown
}

order=file number=0 same=0
while :; do
    cp new.disk desk.disk
    play $number play desk.disk
    status=$?
    right $status || echo "other replies with allocation $number refused"
    shows_the_first || echo "allocation $number refused: the store shows another desktop"
    [ -e refused ] || break
    [ $status != 0 ] || same=$((same + 1))
    number=$((number + $(trials 1 5)))
done
[ $number -gt 90 ] && echo 'every allocation was refused once'
[ $same -gt $(trials 2 -1) ] && echo 'of some nothing was seen'
count 'allocations refused, over pages' $number
count 'allocations refused, over pages, of which nothing was seen' $same
