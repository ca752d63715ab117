# What a damaged area is: its characters aren't read while the store is opened, and no check tells one from another. So
# the store opens and shows other characters. What the head says of them must still fit the image.
x=$(head -c 900 /dev/zero | tr '\0' x)
y=$(head -c 900 /dev/zero | tr '\0' y)
"$OBERON" format whole.disk
{
    printf '%s\n' 'file System.Tool Edit.Open X.Text%0dEdit.Open Y.Text' 'point m 60 31 60 31' "file X.Text $x" "file Y.Text $y"
    printf '%s\n' 'file Z.Text z' checkpoint 'point m 52 30 52 30' 'file W.Text w'
} | "$OBERON" play whole.disk
"$OBERON" check whole.disk
printf 'list\nscreen\n' | "$OBERON" play whole.disk | sed -n '1,9p;/^3/p'

of() { cp whole.disk desk.disk; }
# Puts the bytes that printf makes of $2 at byte ${3-0} of sector $1.
put() { printf "$2" | dd of=desk.disk bs=1 seek=$(($1 * 1024 + ${3-0})) conv=notrunc status=none; }
# What the store is, what it lists, and how its documents begin.
say() {
    echo "$1"
    "$OBERON" check desk.disk
    printf '%s\n' list 'show X.Text' 'show Y.Text' 'show Z.Text' | "$OBERON" play desk.disk | grep -v '^file\|^end' | cut -c1-46
    "$OBERON" screen desk.disk 2> /dev/null | sed -n '1,3p'
}

of; put 7429 '\000\177\200\377\n\t\r' 96; say 'seven other bytes in X.Text'
of; dd if=/dev/zero of=desk.disk bs=1024 seek=7430 count=1 conv=notrunc status=none; say 'the second sector has zeros'
of; dd if=/dev/zero of=desk.disk bs=1024 seek=7429 count=1 conv=notrunc status=none
say 'the first sector has zeros: the word that the journal has clicked at is none'
of; put 7429 'X' 42; say 'another menu'
of; truncate -s $((7430 * 1024)) desk.disk; say 'cut off behind the first sector of the area'
of; truncate -s $((7429 * 1024 + 200)) desk.disk; say 'cut off within it'
of; put 4 '\000\000\013\147' 8; say 'as many characters as if a sector more were there'
of; put 4 '\000\000\003\147' 8; say 'as if a sector less were there'
of; put 4 '\000\000\007\150' 8; say 'one character more'
of; put 4 '\000\100\000\000' 8; say 'as if all were written: there is no tail'
"$OBERON" format desk.disk
put 2 '\000\100\000\000' 8; say 'a new store that has written all characters'
printf 'file X.Text x\nfile X.Text\nlist\n' | "$OBERON" play desk.disk
