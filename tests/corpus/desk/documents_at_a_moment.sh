# Documents as they were so many events ago, listed and put out, without a copy of the store: one that was deleted comes back.
# Events count back as `history --all` and `earlier` count them. What is refused: moments that aren't there, and damage.
desk() { "$DESK_PROGRAM" "$@"; echo "= $?"; }
number() { "$DESK_PROGRAM" history my.disk --all | sed -n "s/^ *\([0-9]*\)  $1.*/\1/p" | head -n 1; }
middle() { printf '\033[<1;%d;%dM\033[<1;%d;%dm' "$1" "$2" "$1" "$2"; }
typed() { for _k in $(seq "$1"); do printf 'ab\177'; done; }
leave() { printf '\021'; }
"$PROGRAM" format my.disk
"$PROGRAM" play my.disk << 'END' | uniq -c
file System.Tool Edit.Open A.Text%0dSystem.DeleteFiles A.Text ~%0d
file B.Text Another one.
point m 60 31 60 31
point m 52 30 52 30
point l 1 30 1 30
END
cp my.disk plain.disk

echo '--- a document is stored, stored once more, and deleted; more than can be taken back is done since'
(printf 'First\023, second\023'; middle 53 3; typed 200; leave) | desk sit --past --no-questions 33 my.disk > shown
cp my.disk same.disk
desk list my.disk
deleted=$(number System.DeleteFiles)
stored=$((deleted + 9)) # the first one: eight letters and another store came behind it
[ "$deleted" -gt 512 ] && echo 'beyond what can be taken back'

echo '--- it is there at the moment before it was deleted, and not at the next one'
"$DESK_PROGRAM" list my.disk --at "$deleted" | grep Text
"$DESK_PROGRAM" list my.disk --at $((deleted - 1)) | grep Text
"$DESK_PROGRAM" list --json --at "$deleted" my.disk | grep -o '"documents":[^]]*]'
desk export my.disk B.Text A.Text --at "$deleted"
desk export my.disk A.Text --at $((deleted - 1)) 2>&1 | sed 's/event [0-9]*/event ../'
desk export my.disk A.Text --at "$stored"
desk export my.disk A.Text --at $((stored + 1)) 2>&1 | sed 's/event [0-9]*/event ../'
desk export my.disk A.Text --looks --at "$deleted" | grep -c 'First'

echo '--- all of them, with what was open then'
desk export my.disk --all then --at $((stored + 1))
desk export my.disk --all with --open --at $((stored + 1))
head then/* with/*
desk export my.disk --all then --at "$deleted"
desk export my.disk --all then --replace --at "$deleted"
cat then/A.Text
echo

echo '--- each moment is that of `earlier`, also those that can be taken back'
for k in 0 1 40 $((deleted - 1)) "$deleted" $((deleted + 3)); do
    "$DESK_PROGRAM" earlier my.disk "$k" then.disk > said
    cmp <("$DESK_PROGRAM" list then.disk) <("$DESK_PROGRAM" list my.disk --at "$k") && echo same
    rm then.disk said
done
cmp my.disk same.disk && echo 'the store itself stays'

echo '--- moments that are not there'
all=$("$DESK_PROGRAM" check my.disk | sed -n 's/^past: the last \([0-9]*\) .*/\1/p')
"$DESK_PROGRAM" list my.disk --at "$all" | grep Text
desk list my.disk --at $((all + 20))
desk export my.disk A.Text --at $((all + 20))
for k in -1 x '' 4294967296 1.5; do desk list my.disk --at "$k"; done
desk list my.disk --at
desk list my.disk --at 1 --at 2
desk export my.disk A.Text --at

echo '--- a store without a past has what can be taken back'
desk list plain.disk --at 2 | grep Text
desk list plain.disk --at 4 | grep -c Text
desk export plain.disk B.Text --at 4
desk list plain.disk --at 6
desk list none.disk --at 1

echo '--- 0 is now'
cmp <("$DESK_PROGRAM" list my.disk) <("$DESK_PROGRAM" list my.disk --at 0) && echo same
desk export my.disk B.Text --at 0
desk list plain.disk --at 0 | grep Text

echo '--- an import is one event: the moment before it has the former text, and the next one the new text'
cp my.disk imported.disk
printf 'Imported.\n' > B.Text
printf 'New.\n' > C.Text
desk import imported.disk B.Text C.Text --replace
"$DESK_PROGRAM" history imported.disk --all | sed -n 1p
desk export imported.disk B.Text --at 1
desk export imported.disk C.Text --at 1
desk export imported.disk B.Text C.Text --at 0
typed 1 | desk sit 33 imported.disk > shown
desk export imported.disk B.Text --at 4
desk export imported.disk B.Text --at 3
desk export imported.disk A.Text --at $((deleted + 4))
desk import plain.disk C.Text
desk list plain.disk --at 1

echo '--- a page that is missing, and a start'
cp my.disk page.disk
dd if=/dev/zero of=page.disk bs=1024 seek=31244 count=1 conv=notrunc status=none
desk list page.disk --at "$deleted"
desk list page.disk --at 1 | grep Text
desk list page.disk --at $((all + 20))
dd if=/dev/zero of=page.disk bs=1024 seek=15623 count=1 conv=notrunc status=none
desk list page.disk --at "$deleted" 2>&1 | sed 's/only [0-9]* /only .. /'
desk list page.disk --at 1 | grep Text
rm -r then with B.Text C.Text
ls
