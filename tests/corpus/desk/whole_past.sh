# A desk that keeps all that is done: a past begins, later sittings go on with it, all its events are listed, and a store is
# made of one of its moments. What of that is refused. What keeps none.
desk() { "$DESK_PROGRAM" "$@"; echo "= $?"; }
reach() { "$DESK_PROGRAM" check "$1" | tail -n 1; }
typed() { for _k in $(seq "$1"); do printf 'ab\177'; done; printf '\021'; }
script() { for _k in $(seq "$1"); do printf '%s\n' 'type a' 'type b' 'key back'; done; }
"$PROGRAM" format new.disk
"$PROGRAM" play new.disk << 'END'
file System.Tool Edit.Open A.Text%0d100%25
point m 60 31 60 31
point m 52 30 52 30
point l 1 30 1 30
END
cp new.disk plain.disk
cp new.disk my.disk

echo '--- without a past a store is what a script makes of it'
typed 90 | desk sit 33 plain.disk > shown
cp new.disk played.disk
script 90 | "$PROGRAM" play played.disk | uniq -c
cmp plain.disk played.disk && echo same
desk history plain.disk --all
reach plain.disk

echo '--- with one each event stays'
typed 150 | desk sit --past 33 my.disk > shown
typed 50 | desk sit 33 my.disk > shown
reach my.disk
"$DESK_PROGRAM" history my.disk --all | sed -n '1,3p; $p'
desk earlier my.disk 550 then.disk
cp new.disk played.disk
script 17 | head -n 50 | "$PROGRAM" play played.disk | uniq -c
cmp <("$PROGRAM" screen then.disk) <("$PROGRAM" screen played.disk) && echo same
desk earlier my.disk 601 none.disk
desk earlier my.disk 550 then.disk

echo '--- a reader that was made from docs/PAST.md alone finds the same'
python3 "$TESTS/lib/past/reader.py" my.disk sitting 54 moment.disk rest
"$PROGRAM" play moment.disk < rest | uniq -c
cmp <("$PROGRAM" screen then.disk) <("$PROGRAM" screen moment.disk) && echo same

echo '--- an import is one deed, and the past goes on over it'
printf 'new\nlines\n' > A.Text
seq 300 450 > B.Text
seq 200 > Long
desk import my.disk A.Text
printf 'newer\nlines\n' > A.Text
desk import my.disk --replace A.Text B.Text Long
reach my.disk
"$DESK_PROGRAM" history my.disk --all | sed -n '1,3p; $p'
typed 1 | desk sit 33 my.disk > shown
desk earlier my.disk 4 before.disk
desk earlier my.disk 3 behind.disk
desk list before.disk
desk list behind.disk
desk export behind.disk --all there
cmp A.Text there/A.Text && cmp B.Text there/B.Text && cmp Long there/Long && echo same
desk import my.disk A.Text
desk import my.disk Missing
reach my.disk
for k in $(seq 0 9); do printf 'a document\n' > "Doc$k"; done
desk import my.disk Doc?
reach my.disk
all=$(reach my.disk | sed 's/.* of \([0-9]*\) events.*/\1/')
python3 "$TESTS/lib/past/reader.py" my.disk sitting $((all - 4)) moment.disk rest
grep -c '^import ' rest
sed '/^import /d; s/^document /file /' rest | "$PROGRAM" play moment.disk | uniq -c
cmp <("$PROGRAM" screen behind.disk) <("$PROGRAM" screen moment.disk) && echo same
cmp <("$DESK_PROGRAM" list behind.disk | sed '/^held/,$d') <("$DESK_PROGRAM" list moment.disk | sed '/^held/,$d') && echo same
rm -r A.Text B.Text Long Doc? there before.disk behind.disk

echo '--- a copy of the store alone begins a past of its own'
desk backup --without-past my.disk copy.disk
reach copy.disk
typed 1 | desk sit 33 copy.disk > shown
reach copy.disk

echo '--- a script ends the past, and the next sitting begins one'
script 90 | "$PROGRAM" play my.disk | uniq -c
reach my.disk
typed 1 | desk sit 33 my.disk > shown
reach my.disk
ls
