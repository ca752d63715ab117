# A journal takes 256 events; the next one makes a checkpoint first, and goes into the other slot's journal. So through
# ten journals.
"$OBERON" format desk.disk
for k in $(seq 256); do echo 'mark 0 0'; done | "$OBERON" play desk.disk | uniq -c | sed 's/^ *//'
"$OBERON" check desk.disk
echo 'mark 0 0' | "$OBERON" play desk.disk
"$OBERON" check desk.disk
for k in $(seq 2559); do echo "file F$((k % 7)).Text $k"; done | "$OBERON" play desk.disk | uniq -c | sed 's/^ *//'
"$OBERON" check desk.disk
printf 'list\nshow F0.Text\nshow F6.Text\n' | "$OBERON" play desk.disk
# The same over a store in memory, with looks between the events.
for k in $(seq 600); do
    echo "file F$((k % 7)).Text $k"
    [ $((k % 128)) = 0 ] && echo "show F$((k % 7)).Text"
done | "$OBERON" | grep -v '^ok$'
