"$OBERON" format /dev/full
echo "$?"
"$OBERON" format /proc/version
echo "$?"
