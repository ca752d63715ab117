# A file that ends within a sector reads as zeros from there on: of the image in sector 1029 the first 28 bytes must
# be there, and the others are zeros.
"$OBERON" format desk.disk
echo 'file A.Text a' | "$OBERON" play desk.disk
for bytes in 29 28 27 0; do
    head -c $((1029 * 1024 + bytes)) desk.disk > short.disk
    "$OBERON" check short.disk
    echo "$?"
done
# Made anew it has all its sectors, of which none keeps what was there.
"$OBERON" format short.disk
wc -c < short.disk
"$OBERON" format desk.disk
cmp short.disk desk.disk
echo 'list' | "$OBERON" play desk.disk
