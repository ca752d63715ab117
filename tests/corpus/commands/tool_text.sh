# The walk of docs/SCRIPTS.md with tests/lib/tool.text, and then a click on each of the other commands of that text.
{ "$TESTS/../tools/hand_in" System.Tool "$TESTS/lib/tool.text"; cat "$TESTS/lib/walk.in" "$TESTS/lib/clicks.in"; } | "$OBERON"
