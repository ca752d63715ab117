# A document of 1,500 bytes in lines that end with CR LF comes back in lines that end with LF; one of more than 200,000
# characters comes back whole, into a file and into a pipe; and a name that is none brings nothing.
"$PROGRAM" format my.disk
for line in $(seq 1000 1249); do printf '%s\r\n' "$line"; done > lines
wc -c < lines
"$DESK_PROGRAM" import my.disk Lines=lines
"$DESK_PROGRAM" export my.disk Lines | cmp - <(tr -d '\r' < lines) && echo 'the lines came back'
echo 'show Lines' | "$PROGRAM" play my.disk | head -c 30
echo
seq 1 38000 > many
wc -c < many
"$DESK_PROGRAM" import my.disk many
"$DESK_PROGRAM" export my.disk many > back && cmp back many && echo 'the many came back'
"$DESK_PROGRAM" export my.disk many | cmp - many && echo 'and through a pipe'
cp my.disk before.disk
for name in '' ' ' '.Text' '1.Text' 'A Text' 'A-Text' ABCDEFGHIJKLMNOPQRSTUVWXYZ.Texts $'A\nB'; do
    "$DESK_PROGRAM" import my.disk "$name=lines"
    echo $?
done
cmp before.disk my.disk && echo 'the store is as it was'
"$DESK_PROGRAM" import my.disk ABCDEFGHIJKLMNOPQRSTUVWXYZ.Text=lines
# A line is told as too wide where one character of it is beyond the edge of a new viewer.
for width in 49 50; do
    head -c $width /dev/zero | tr '\0' x > wide
    "$DESK_PROGRAM" import my.disk W$width=wide
done
