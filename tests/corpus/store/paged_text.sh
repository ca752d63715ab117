# A text of 80,000 characters of which 78 sectors stand in the area, more than are in memory at one time: what is seen
# and done is the same where they were just put there, after opening, with opening before each line, and where no
# checkpoint was made. The text is looked at through the bar, a word at its end is searched for, words of it are called,
# and stretches of it are copied, cut, put in elsewhere and stored.
typed() {
    for k in $(seq 0 88); do
        awk -v first=$((20 * k + 1)) 'BEGIN {
            for (n = first; n < first + 20; n++) text = text sprintf("line %04d of a text that is long for a desk%%0d", n)
            print "type " text }'
    done
    echo 'type System.SetColor 9%0dneedle%0d'
}
{
    echo 'file System.Tool Edit.Open A.Text%0dEdit.Search%0dSystem.Copy%0dneedle%0d'
    printf '%s\n' 'point m 60 31 60 31' 'point m 52 30 52 30' 'point l 1 30 1 30'
    typed
    echo 'mark 10 10'
} > fill
cat > do <<'END'
screen
point r 0 20 0 20
point l 1 30 1 30
point r 51 27 56 27
point m 52 29 52 29
screen
point m 3 16 3 16
point m 0 15 0 15
point l 5 30 5 30
type <here>
point r 3 28 20 27
key copy
point m 0 3 0 3
point l 3 20 3 20
key paste
point r 10 25 40 22
key cut
point m 0 25 0 25
point l 4 9 4 9
key paste
screen
point m 52 28 52 28
point l 6 12 6 12
type two
screen
point m 46 31 46 31
list
point r 0 18 0 18
point l 1 30 1 30
point m 52 29 52 29
point m 52 29 52 29
screen
END
grep -v '^screen$\|^list$' do > events
looks() { printf '%s\n' list 'show A.Text' screen; }

"$OBERON" format desk.disk
"$OBERON" play desk.disk < fill | uniq -c | sed 's/^ *//'
cp desk.disk journal.disk
{ cat do; looks; } | "$OBERON" play desk.disk > got
sed 's/^\(.\{58\}\).*/\1/' got

cp journal.disk desk.disk
{ echo checkpoint; cat do; looks; } | "$OBERON" play desk.disk | tail -n +2 | cmp - got && echo 'the same after a checkpoint'
cp journal.disk desk.disk
echo checkpoint | "$OBERON" play desk.disk
{ cat do; looks; } | "$OBERON" play desk.disk | cmp - got && echo 'the same after opening'
cp journal.disk desk.disk
while IFS= read -r event; do printf 'checkpoint\n%s\n' "$event" | "$OBERON" play desk.disk > said; done < events
looks | "$OBERON" play desk.disk > last
tail -n "$(wc -l < last)" got | cmp - last && echo 'the same with a checkpoint and opening before each event'
"$OBERON" check desk.disk
