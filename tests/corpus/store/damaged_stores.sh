# Each kind of damage, and the sector that is named.
"$OBERON" format whole.disk
printf '%s\n' 'file A.Text Hello%0d' checkpoint 'file B.Text b' | "$OBERON" play whole.disk
"$OBERON" check whole.disk

# A copy of the store $1, as desk.disk.
of() { cp "$1.disk" desk.disk; }
# Puts the bytes that printf makes of $2 at byte ${3-0} of sector $1.
put() { printf "$2" | dd of=desk.disk bs=1 seek=$(($1 * 1024 + ${3-0})) conv=notrunc status=none; }
# Copies sector $1 to sector $2.
copy() { dd if=desk.disk of=desk.disk bs=1024 skip="$1" seek="$2" count=1 conv=notrunc status=none; }
# Fills sector $1 with zeros.
clear() { dd if=/dev/zero of=desk.disk bs=1024 seek="$1" count=1 conv=notrunc status=none; }
# What the store is.
say() {
    echo "$1"
    "$OBERON" check desk.disk
    echo "$?"
}

"$OBERON" format fresh.disk
head -c 15995904 /dev/zero > desk.disk; say 'a disk of zeros'
of fresh; put 0 x; say 'another label'
of fresh; clear 1; say 'no gate is open'
of fresh; put 1 OPENGATF; say 'a gate that is almost open'
of fresh; put 1 x 8; say 'other bytes behind an open gate'

for version in 0 4 9; do
    of fresh; put 2 "\\000\\000\\000\\$version"; say "version $version"
done
of fresh; put 2 '\000\000\000\000' 4; say 'epoch 0'
of fresh; put 2 '\000\100\000\001' 8; say 'more characters than can be written'
of fresh; put 2 '\000\062\000\001' 12; say 'an image that has no room'
of fresh; put 2 '\377\377\377\377' 12; say 'an image that is far too long'
of fresh; clear 2; say 'a head of zeros'
of fresh; put 2 '\000\000\000\002' 16; say 'an area that there is not'
of fresh; put 2 x 20; say 'other bytes behind a head'

for length in 35 37 0; do
    of fresh; put 2 "\\$length" 15; say "image length 0$length (octal; it is 036)"
done
of fresh; put 2 '\000\000\000\001' 8; say 'one character written, and no tail'
of fresh; put 2 '\000\000\000\001' 8; put 2 '\037' 15
put 1029 '\101\000\017\100\000\000\000\001\000'; put 1029 '\000\001\000\001\000\000' 25; say 'one character written, and a tail'
echo list | "$OBERON" play desk.disk
for byte in '0 005' '1 020' '2 200' '3 040' '4 002' '6 000' '25 000' '29 002'; do
    of fresh; put 1029 "\\${byte#* }" "${byte% *}"; say "byte ${byte% *} of the image is 0${byte#* }"
done
of fresh; put 1029 '\077' 2; say 'offset -1'
of fresh; put 1029 '\001' 30; say 'a byte behind the image'

of fresh; put 5 OPENGATE; say 'an open gate before a body of zeros'
of fresh; put 5 OPENGATE; put 6 '\004\011\000\000\000\000'; say 'keys that there are not'
of fresh; put 5 OPENGATE; put 6 '\003\001\002'; put 7 OPENGATE; say 'the second body is none'
of whole; put 518 x; say 'a bad body in the journal of slot 1'
of whole; put 4229 '\005'; say 'a bad tail is no damage'
of whole; put 4229 '\005' 6; say 'a bad image in slot 1'

of whole; put 1 OPENGATE; say 'both gates are open: the later epoch'
of whole; put 1 OPENGATE; put 1029 xxxxxxxx
say 'both gates are open, and the image of the slot of the earlier epoch is garbage'
of whole; put 1 OPENGATE; put 4229 '\005' 6
say 'both gates are open, and the image of the slot of the later epoch is garbage'
of whole; put 1 OPENGATE; copy 4 2; say 'both gates are open, and the epochs are equal'
of whole; put 1 OPENGATE; put 4 '\011' 3; put 2 '\011' 3; say 'both heads are bad: slot 0 is named'
of whole; put 1 OPENGATE; put 4 '\011' 3; say 'a bad head under an open gate'
of whole; put 2 '\011' 3; say 'a bad head under a closed gate'
of whole; put 1029 xxxxxxxx; say 'garbage in the slot that is not in use'
"$OBERON" play desk.disk < "$TESTS/corpus/events/hello.in"
