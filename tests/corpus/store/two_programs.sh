# While a program plays over a store, another one can't use it, and leaves it as it is. Programs that only read may do so together.
"$OBERON" format desk.disk
mkfifo script
"$OBERON" play desk.disk < script > replies &
exec 3> script
printf 'file A.Text Hello\n' >&3
until [ -s replies ]; do sleep 0.1; done
cp desk.disk before.disk
for command in play format screen check; do
    "$OBERON" $command desk.disk < /dev/null
    echo "$command: $?"
done
cmp before.disk desk.disk
printf 'list\n' >&3
exec 3>&-
wait
cat replies
exec 4< desk.disk
flock -s 4
"$OBERON" check desk.disk
"$OBERON" screen desk.disk | head -n 1
for command in play format; do
    "$OBERON" $command desk.disk < /dev/null
    echo "$command: $?"
done
exec 4<&-
printf 'show A.Text\n' | "$OBERON" play desk.disk
