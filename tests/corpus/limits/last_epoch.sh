# At the last epoch nothing is put into the other slot: `worn` for a checkpoint, and for an event that finds the journal
# full. The script goes on.
"$OBERON" format desk.disk
printf '\377\377\377\377' | dd of=desk.disk bs=1 seek=$((2 * 1024 + 4)) conv=notrunc status=none
"$OBERON" check desk.disk
printf '%s\n' checkpoint 'file A.Text a' 'show A.Text' checkpoint list | "$OBERON" play desk.disk
"$OBERON" check desk.disk
{
    for k in $(seq 255); do echo 'mark 0 0'; done
    printf '%s\n' 'mark 1 1' checkpoint 'mark 1 1' 'file B.Text b' 'show A.Text' 'mark 80 0' '' list
} | "$OBERON" play desk.disk | uniq -c | sed 's/^ *//'
echo "${PIPESTATUS[1]}"
"$OBERON" check desk.disk
# One epoch before it there is one checkpoint left.
"$OBERON" format desk.disk
printf '\377\377\377\376' | dd of=desk.disk bs=1 seek=$((2 * 1024 + 4)) conv=notrunc status=none
printf '%s\n' 'file A.Text a' checkpoint checkpoint 'show A.Text' | "$OBERON" play desk.disk
"$OBERON" check desk.disk
