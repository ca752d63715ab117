# A line that fills more cells than its viewer has columns has a mark in the last of these: in the picture, and not in the screen. A
# line that ends there has none. So it is in both columns, with tabulators, the marker, a caret, a selection, and where another line is
# the first one. The rows of the picture that differ from those of the screen are printed, and then the marks of the screen.
long=123456789012345678901234567890123456789012345678
"$OBERON" format desk.disk > /dev/null
"$OBERON" play desk.disk << END | sort | uniq -c | sed 's/^ *//'
file A.Text $long%0d${long}9%0d${long}90%0d${long}%09%0d${long}9%09%0d${long}9 %0d${long}9%0d${long}9${long}
file B.Text 1234567890123456789012345678%0d12345678901234567890123456789%0d123456789012345678901234567890
file System.Tool Edit.Open A.Text%0dSystem.Open B.Text
point m 60 31 60 31
point m 52 30 52 30
point m 52 29 52 29
END
shown() {
    "$OBERON" screen desk.disk > screen
    "$DESK_PROGRAM" picture desk.disk > picture
    python3 -B "$TESTS/lib/picture_cells" picture > cells
    sed '/^marks$/,$d; s/^...//; s/ *$//' screen > rows
    awk 'NR == FNR { row[FNR] = $0; next } row[FNR] != $0 { print 32 - FNR ":" $0 }' rows cells
    sed '1,/^marks$/d' screen
}
shown
printf '%s\n' 'point r 48 28 49 25' 'point l 49 28 49 28' 'mark 49 27' | "$OBERON" play desk.disk
shown
printf '%s\n' 'point l 0 25 0 25' | "$OBERON" play desk.disk
shown
