# A store's file that was cut off behind the image of the first slot and can't become longer: what it has is there, and
# takes an event more. A checkpoint has no room in it and fails, and the store is as it was.
"$OBERON" format desk.disk
"$OBERON" play desk.disk < "$TESTS/corpus/events/hello.in"
truncate -s 1030K desk.disk
trap '' XFSZ
ulimit -f 1030
printf 'list\nfile B.Text x\ncheckpoint\nlist\n' | "$PROGRAM" play desk.disk
echo "$?"
"$PROGRAM" check desk.disk
