# A checkpoint changes nothing that is shown: after one between all kinds of events the looks are those without it, also
# after closing and opening; caret, selections, marker, current look, pattern, buffers, closed viewer and log go on from
# where they were.
{
    "$TESTS/../tools/hand_in" System.Tool "$TESTS/lib/tool.text"
    cat "$TESTS/lib/walk.in" "$TESTS/lib/clicks.in"
} | grep -v '^screen$\|^list$\|^show ' > events
looks() { printf '%s\n' list 'show A.Text' 'show System.Tool' screen; }
{ cat events; looks; } | "$OBERON" > wanted
{ while IFS= read -r line; do printf '%s\n' "$line" checkpoint; done < events; looks; } | "$OBERON" > got
awk -v events="$(grep -c '' events)" 'NR > 2 * events || NR % 2 == 1' got | cmp - wanted && echo 'the same with a checkpoint after each event'

# One event at a time, each after opening the store, with a checkpoint and without.
for lines in '' checkpoint; do
    "$OBERON" format desk.disk > formatted
    while IFS= read -r line; do
        printf '%s\n' "$line" $lines | "$OBERON" play desk.disk | head -n 1
    done < events > got
    looks | "$OBERON" play desk.disk >> got
    cmp got wanted && echo "the same after opening before each event${lines:+, with a checkpoint after it}"
done
"$OBERON" check desk.disk | sed 's/epoch [0-9]*/epoch E/'

# What isn't shown at once: buffers, pattern, marker, closed viewer, current look, carets and selections.
cat > first <<'END'
file System.Tool Edit.Open A.Text%0dSystem.Recall%0dEdit.Recall%0dSystem.SetColor 3%0dSystem.OpenLog%0dEdit.Open B.Text%0d
point m 60 31 60 31
point m 52 30 52 30
point m 52 27 52 27
point l 1 30 1 30
type abcabc
point r 2 30 3 30
key copy
point l 1 30 1 30
point m 35 31 35 31
point rl 5 30 6 30
point m 52 25 52 25
point m 10 31 10 31
point m 52 26 52 26
mark 5 5
END
cat > then <<'END'
point m 52 29 52 29
point l 1 14 1 14
key paste
point m 52 28 52 28
type x
point m 35 15 35 15
screen
show A.Text
list
END
cat first then | "$OBERON" > wanted
"$OBERON" format desk.disk
{ cat first; echo checkpoint; } | "$OBERON" play desk.disk | grep -v '^ok$' > got
"$OBERON" check desk.disk
"$OBERON" play desk.disk < then >> got
{ grep -v '^ok$' wanted; } > wanted.rest
grep -v '^ok$' got | cmp - wanted.rest && echo 'the same where they are used after opening'
cat got
