# What the desk is to print, into an output that is full or closed: one sentence, and status 4; the store is as it was.
"$OBERON" format my.disk
echo 'file A.Text Hello' | "$OBERON" play my.disk
cp my.disk before.disk
for words in 'export my.disk A.Text' 'list my.disk' 'list my.disk --json' 'check my.disk' 'history my.disk' 'picture my.disk'; do
    "$DESK_PROGRAM" $words > /dev/full
    echo "$words: $?"
    "$DESK_PROGRAM" $words >&-
    echo "$words: $?"
done
# So does a sitting, which has a cause to end so: where nothing more can be heard it ends well, and where a read fails by that.
"$DESK_PROGRAM" sit 33 my.disk > /dev/full < /dev/null
echo "sit 33 my.disk: $?"
"$DESK_PROGRAM" sit 33 my.disk >&- < /dev/null
echo "sit 33 my.disk: $?"
"$DESK_PROGRAM" sit 33 my.disk > shown < /dev/null
echo "sit 33 my.disk, at the end of its input: $?"
"$DESK_PROGRAM" sit 33 my.disk > shown < .
echo "sit 33 my.disk, in a folder: $?"
cmp before.disk my.disk && echo 'the store is as it was'
