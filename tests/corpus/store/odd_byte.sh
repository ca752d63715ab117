# A byte in the area that no event can write: it is shown by its number, and on the screen as a question mark. It is the
# first of two files that fill the area's first sector.
"$OBERON" format desk.disk
x=$(head -c 900 /dev/zero | tr '\0' x)
printf 'file A.Text %s\nfile B.Text %s\ncheckpoint\n' "$x" "${x:0:124}" | "$OBERON" play desk.disk
dd if=/dev/zero of=desk.disk bs=1 seek=$((7429 * 1024)) count=1 conv=notrunc status=none
"$OBERON" check desk.disk
printf 'show %s.Text\n' A B | "$OBERON" play desk.disk | cut -c1-16
printf 'file System.Tool Edit.Open A.Text%%0d\npoint m 60 31 60 31\npoint m 52 30 52 30\n' | "$OBERON" play desk.disk
"$OBERON" screen desk.disk | sed -n 2p | cut -c1-12
