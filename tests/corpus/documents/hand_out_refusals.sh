# Where tools/hand_out has nothing to hand out: it says why in one sentence on standard error, and prints nothing.
tools=$TESTS/../tools
export LC_ALL=C
try() {
    "$@" > printed
    echo "$?, $(wc -c < printed) bytes"
}
"$OBERON" format desk.disk
echo 'file A.Text Hello' | "$OBERON" play desk.disk
try "$tools/hand_out"
try "$tools/hand_out" desk.disk
try "$tools/hand_out" desk.disk A.Text more
try "$tools/hand_out" desk.disk A.Text
try "$tools/hand_out" desk.disk B.Text
for name in '' 1.Text 'A.Text ' $'A.Text\nfile A.Text'; do try "$tools/hand_out" desk.disk "$name"; done

# Stores.
mkdir folder
: > empty.disk
echo 'This is a text, and no store.' > text.disk
"$OBERON" format damaged.disk
printf 'OPENGATE' | dd of=damaged.disk bs=1024 seek=5 conv=notrunc status=none
cp desk.disk $'\377.disk'
for store in missing.disk '' folder empty.disk text.disk damaged.disk $'\377.disk' -n.disk; do
    try "$tools/hand_out" "$store" A.Text
done
cp desk.disk ./-n.disk
try "$tools/hand_out" -n.disk A.Text
cp desk.disk locked.disk
chmod 444 locked.disk
cp "$tools/hand_out" .
if [ "$(id -u)" = 0 ]; then
    chmod 755 . hand_out
    try setpriv --reuid 65534 --regid 65534 --clear-groups ./hand_out locked.disk A.Text
else
    try ./hand_out locked.disk A.Text
fi

# Another program has the store.
exec 4< desk.disk
flock -s 4
try "$tools/hand_out" desk.disk A.Text
exec 4<&-
"$tools/hand_out" desk.disk A.Text
echo

# Programs that end in other ways.
stub() {
    printf '#!/bin/sh\nread -r line\n%s\n' "$1" > stub
    chmod 755 stub
    OBERON=./stub try "$tools/hand_out" desk.disk A.Text
}
stub 'echo memory >&2; exit 5'
stub 'echo "0 15 0 Hello"; echo memory; exit 5'
stub 'echo "0 15 0 Hello"; echo fault; exit 4'
stub 'echo "0 15 0 Hello"'
stub 'echo "0 15 0 Hello"; echo a word; echo end'
stub 'kill -9 $$'
stub ':'
OBERON=./missing try "$tools/hand_out" desk.disk A.Text

# Standard output.
"$tools/hand_out" desk.disk A.Text > /dev/full
echo $?
