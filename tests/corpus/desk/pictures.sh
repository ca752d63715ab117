# The picture of the last screen of each script has the characters of the screen, cell by cell, but for marks of lines that go on.
for script in "$TESTS"/corpus/*/*.in; do
    "$OBERON" format desk.disk > /dev/null
    "$OBERON" play desk.disk < "$script" > /dev/null
    "$OBERON" screen desk.disk > screen
    "$DESK_PROGRAM" picture desk.disk > picture
    python3 -B "$TESTS/lib/picture_cells" picture screen > cells
    sed '/^marks$/,$d; s/^...//; s/ *$//' screen | cmp -s - cells || echo "${script##*/}: another picture"
    echo picture
done | sort | uniq -c | sed 's/^ *//; s/^[0-9]* picture$/pictures were drawn/'
