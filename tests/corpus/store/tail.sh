# Full sectors of characters go to the area, and what is left into the image: after 1,024 characters the image has no tail,
# and after one more it has that one, and the second sector of the area is still zeros. No contract refuses a body that
# writes a sector of the area that isn't full yet (a partial sector in the area): this script does.
"$OBERON" format desk.disk
x=$(head -c 900 /dev/zero | tr '\0' x)
y=$(head -c 124 /dev/zero | tr '\0' y)
printf 'file X.Text %s\nfile Y.Text %s\ncheckpoint\n' "$x" "$y" | "$OBERON" play desk.disk
printf '%s%s' "$x" "$y" > characters

# Sector $1 of the store.
sector() { dd if=desk.disk bs=1024 skip="$1" count=1 status=none; }
# The first $2 bytes of sector $1.
front() { sector "$1" | head -c "$2" | od -An -v -tx1; }
sector 7429 | cmp - characters && echo 'the first sector of the area has all characters'
front 4 16
front 4229 8
printf 'file Z.Text z\ncheckpoint\n' | "$OBERON" play desk.disk
front 2 16
front 1029 8
sector 7429 | cmp - characters && echo 'the first sector of the area has them still'
sector 7430 | cmp -n 1024 - /dev/zero && echo 'the second sector of the area has zeros'
"$OBERON" check desk.disk
# After opening: what filled the first sector stays, and the second one takes what the image began with, and more.
printf 'file V.Text %s\nfile W.Text %s\ncheckpoint\n' "$x" "$x" | "$OBERON" play desk.disk
sector 7429 | cmp - characters && echo 'the first sector of the area has them still'
sector 7430 | cmp - <(head -c 1024 <(printf z; printf %s "$x$x")) && echo 'the second sector of the area is full'
sector 7431 | cmp -n 1024 - /dev/zero && echo 'the third sector of the area has zeros'
sector 4229 | cmp -n 777 - <(printf %s "$x") && front 4 16
"$OBERON" check desk.disk
printf 'list\nshow X.Text\nshow Y.Text\nshow Z.Text\nshow W.Text\n' | "$OBERON" play desk.disk
