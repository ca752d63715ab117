# Each allocation of a run of all commands is refused in turn, over a store in memory and over one in a file. The replies
# are the same, or the first of them and `memory` with status 5; and a store in a file then shows just what the events led
# to whose replies came. A disk in memory that can't record a write fails as a disk does: then the word is `fault`, and
# the status 4.
. "$TESTS/lib/refusing.sh"
looks() { printf 'list\nscreen\n'; }
"$OBERON" format made.disk > said && cp --sparse=always made.disk new.disk || exit 1
{ "$TESTS/../tools/hand_in" System.Tool "$TESTS/lib/tool.text"; cat "$TESTS/lib/walk.in" "$TESTS/lib/clicks.in"; } \
    | grep -v '^screen$\|^list$\|^show ' > events
show_each
each_allocation 'all commands' 91
