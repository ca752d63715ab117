# A store whose desktop has eight tracks over one another is opened again, from the journal and from an image; its
# overlays are closed one after another, and at last the viewer below them.
"$OBERON" format desk.disk
"$OBERON" play desk.disk < "$TESTS/corpus/gestures/eight_deep.in" > first
tail -n 18 first > wanted
again() { echo list | "$OBERON" play desk.disk | cmp - wanted && echo 'the same list'; }
wc -l < wanted
again
"$OBERON" check desk.disk
echo checkpoint | "$OBERON" play desk.disk
again
"$OBERON" check desk.disk
for i in 1 2 3 4 5 6 7; do echo 'point m 52 29 52 29'; done | "$OBERON" play desk.disk
printf '%s\n' list 'point m 52 29 52 29' list checkpoint | "$OBERON" play desk.disk
"$OBERON" check desk.disk
echo list | "$OBERON" play desk.disk
