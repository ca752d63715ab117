"$OBERON" format desk.disk
echo $?
wc -c < desk.disk
# It has its room from the beginning, and no hole.
[ $(($(stat -c %b desk.disk) * 512)) -ge "$(stat -c %s desk.disk)" ] || echo 'it has holes'
printf 'file A.Text Hello%%0d\nshow A.Text\n' | "$OBERON" play desk.disk
echo $?
printf 'show A.Text\nlist\n' | "$OBERON" play desk.disk
"$OBERON" check desk.disk
"$OBERON" screen desk.disk
echo $?
