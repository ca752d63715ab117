# A new store in a file that was longer and had other bytes is the same as one in a new file, and has no holes.
"$OBERON" format new.disk
head -c 20000000 /dev/zero | tr '\0' '\377' > old.disk
"$OBERON" format old.disk
cmp new.disk old.disk && wc -c < old.disk
for disk in new.disk old.disk; do
    [ $(($(stat -c '%b * %B' $disk))) -ge 15995904 ] || echo "$disk has holes"
done
