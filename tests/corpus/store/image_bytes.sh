# Bytes of an image are changed: those of the empty desktop, which has 30 of them, and those of a desktop that has some
# of everything. What an image says must fit together, so that most changes are damages; others make another desktop.
"$OBERON" format fresh.disk
# Puts $2 (hexadecimal) at byte $1 of the image.
put() {
    cp fresh.disk desk.disk
    printf "\\x$2" | dd of=desk.disk bs=1 seek=$((1029 * 1024 + $1)) conv=notrunc status=none
    echo "byte $1 to $2: $("$OBERON" check desk.disk 2>&1)"
}
put 0 05
put 1 10
put 2 80
put 4 02
put 6 00
put 25 00
put 25 02
put 25 09
put 29 02
put 2 3f
put 30 01
echo 'each bit of the empty desktop, and of a byte behind it'
"$TESTS/lib/each_byte" fresh.disk 1029 0 31

cp fresh.disk full.disk
{
    "$TESTS/../tools/hand_in" System.Tool "$TESTS/lib/tool.text"
    cat "$TESTS/lib/walk.in"
    printf '%s\n' 'mark 3 20' 'point m 22 31 22 31' 'point m 10 31 10 31' 'point r 7 14 11 14' 'point l 2 14 2 14'
    printf '%s\n' 'key copy' checkpoint checkpoint
} > script
"$OBERON" play full.disk < script | grep -cE '^(ok|no [0-9]+)$'
printf 'list\nscreen\n' | "$OBERON" play full.disk | grep '^file\|^viewer\|^written\|^..:[.mcs]*$'
number() { od -An -tu4 --endian=big -j $((2 * 1024 + $1)) -N 4 full.disk | tr -d ' '; }
tail=$(($(number 8) % 1024)) length=$(number 12)
echo "an image of $length bytes, from its last character, $tail, on"
"$TESTS/lib/each_byte" full.disk 1029 $((tail - 1)) $((length + 1)) 01 10 80
echo "a store of layout 1"
gzip -dc "$TESTS/lib/old_stores/version_1.gz" > old.disk
old() { od -An -tu4 --endian=big -j $((2 * 1024 + $1)) -N 4 old.disk | tr -d ' '; }
tail=$(($(old 8) % 1024)) length=$(old 12)
echo "an image of $length bytes, from its last character, $tail, on"
"$TESTS/lib/each_byte" old.disk 1029 $((tail - 1)) $((length + 1)) 01
"$OBERON" check old.disk
