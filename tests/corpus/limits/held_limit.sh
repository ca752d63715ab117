# All texts, files and buffers together take 262,144 characters: then a character more is refused, also after the store
# was opened again.
x=$(head -c 900 /dev/zero | tr '\0' x)
printf '%s\n' 'file System.Tool Edit.Open A.Text' 'point m 60 31 60 31' 'point m 52 30 52 30' 'point l 1 30 1 30' > fill
for k in $(seq 291); do echo "type $x"; done >> fill
echo "type $(head -c 95 /dev/zero | tr '\0' y)" >> fill
printf '%s\n' 'type x' 'file System.Tool Edit.Open A.Text' 'type x' 'list' > past
cat fill past | "$OBERON" | uniq -c | sed 's/^ *//'
"$OBERON" format desk.disk
"$OBERON" play desk.disk < fill | uniq -c | sed 's/^ *//'
"$OBERON" check desk.disk
"$OBERON" play desk.disk < past
echo checkpoint | "$OBERON" play desk.disk
"$OBERON" check desk.disk
"$OBERON" play desk.disk < past
