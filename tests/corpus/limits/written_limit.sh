# 4,194,304 characters are taken in all, through 18 checkpoints: then one more is refused, and an event that writes none
# isn't.
"$OBERON" format desk.disk
x=$(head -c 900 /dev/zero | tr '\0' x)
{
    for k in $(seq 4660); do echo "file A.Text $x"; done
    echo "file A.Text $(head -c 304 /dev/zero | tr '\0' y)"
} | "$OBERON" play desk.disk | uniq -c | sed 's/^ *//'
"$OBERON" check desk.disk
# Its last characters are shown from the area, also after opening.
printf '%s\n' 'file A.Text z' list checkpoint 'show A.Text' | "$OBERON" play desk.disk
printf '%s\n' 'show A.Text' 'file A.Text z' 'file A.Text' list | "$OBERON" play desk.disk
echo checkpoint | "$OBERON" play desk.disk
"$OBERON" check desk.disk
printf '%s\n' 'file A.Text z' list | "$OBERON" play desk.disk
# The area is full to its last byte.
dd if=desk.disk bs=1024 skip=11524 count=1 status=none | tail -c 305 | tr -d '\n'
echo
dd if=desk.disk bs=1024 skip=11525 count=1 status=none | cmp -n 1024 - /dev/zero && echo 'what is past it has zeros'
