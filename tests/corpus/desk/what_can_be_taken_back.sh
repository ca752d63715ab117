# `desk history` lists the events since the last checkpoint, the last one first, and `desk earlier` makes a store as it was.
desk() { "$DESK_PROGRAM" "$@"; echo "= $?"; }
"$PROGRAM" format my.disk
desk history my.disk
"$PROGRAM" play my.disk << 'END'
file System.Tool Edit.Open A.Text%0d100%25
point m 60 31 60 31
point m 52 30 52 30
mark 3 4
type one
key back
END
desk history my.disk
cp my.disk before.disk
desk earlier my.disk 2 earlier.disk
cmp my.disk before.disk && echo 'the store itself stays'
desk history earlier.disk
desk list earlier.disk
# The store is opened once, and so is locked until the copy is there: nobody posts an event between the question and the copy.
cc -shared -fPIC -o meanwhile.so "$TESTS/c/meanwhile.c"
OPENED=my.disk MEANWHILE="echo 'file New.Text x' | $PROGRAM play my.disk" LD_PRELOAD=./meanwhile.so \
    "$DESK_PROGRAM" earlier my.disk 2 other.disk
"$PROGRAM" screen other.disk | cmp - <("$PROGRAM" screen earlier.disk)
"$PROGRAM" check other.disk
rm meanwhile.so other.disk
desk earlier my.disk 7 none.disk
desk earlier my.disk 1 earlier.disk
ls

# Clicks with keys of the mouse, alone and two at a time, are told by what they do, in words of their own.
"$PROGRAM" format keys.disk
for keys in l lm lr m ml mr r rl rm; do echo "point $keys 1 1 1 1"; done | "$PROGRAM" play keys.disk | sort -u
desk history keys.disk

# The events before a checkpoint can be taken back too: right behind it, and together with those behind it.
"$PROGRAM" format turned.disk
printf '%s\n' 'file A.Text one' 'file B.Text two' checkpoint | "$PROGRAM" play turned.disk
desk history turned.disk
desk earlier turned.disk 1 right_behind.disk
desk list right_behind.disk | grep Text
echo 'file C.Text three' | "$PROGRAM" play turned.disk
desk history turned.disk
desk earlier turned.disk 2 across.disk
desk list across.disk | grep Text
desk earlier turned.disk 4 too_many.disk

# What two presses come to: the middle button on the empty display, and Ctrl-End in a text that is shown in a hundred pages.
"$PROGRAM" format empty.disk
printf '\033[<1;10;10M\033[<1;10;10m\021' | desk sit 33 empty.disk > scenes
desk history empty.disk
"$PROGRAM" format long.disk
seq 3000 > Long.Text
desk import long.disk Long.Text
printf '%s\n' 'file System.Tool Edit.Open Long.Text' 'point m 60 31 60 31' 'point m 52 30 52 30' | "$PROGRAM" play long.disk
printf '\033[<0;20;10M\033[<0;20;10m\033[1;5F\021' | desk sit 33 long.disk > scenes
"$PROGRAM" screen long.disk | cut -c 1-20 | sed -n 2,3p
