# Each allocation of a run of hello.in, type_hello.in and store_text.in is refused in turn, over a store in memory and over
# one in a file. The replies are the same, or the first of them and `memory` with status 5; and a store in a file then
# shows just the events whose reply was `ok`. A disk in memory that can't record a write fails as a disk does: then the
# word is `fault`, and the status 4.
. "$TESTS/lib/refusing.sh"
looks() { printf '%s\n' list 'show A.Text' screen; }
"$OBERON" format made.disk > said && cp --sparse=always made.disk new.disk || exit 1
for script in hello type_hello store_text; do
    cp "$TESTS"/corpus/*/"$script.in" events
    show_each
    each_allocation $script 21
done
