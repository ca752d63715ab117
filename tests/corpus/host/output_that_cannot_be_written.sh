printf 'list\n' | "$OBERON" >&-
echo "$?"
printf 'list\n' | "$OBERON" > /dev/full
echo "$?"
"$OBERON" format desk.disk > /dev/full
echo "$?"
"$OBERON" check desk.disk > /dev/full
echo "$?"
"$OBERON" screen desk.disk > /dev/full
echo "$?"
"$OBERON" check desk.disk
