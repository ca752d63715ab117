# The numbers in a head, each at its limits and past them, and each bit of what says that there is a store.
"$OBERON" format fresh.disk
# A new store that says it has written $3 characters and has an image of $4 bytes, in epoch $2 of version $1, with its
# characters in area $5; where there is a sixth word, the image begins with this byte. In the versions 1 and 2 the image of
# the empty desktop ends in zeros.
head_of() {
    cp fresh.disk desk.disk
    printf "$(printf '\\x%02x' $(for number in "${@:1:5}"; do
        echo $((number >> 24 & 255)) $((number >> 16 & 255)) $((number >> 8 & 255)) $((number & 255))
    done))" | dd of=desk.disk bs=1 seek=2048 conv=notrunc status=none
    if [ "$1" = 1 ] || [ "$1" = 2 ]; then
        head -c 7 /dev/zero | dd of=desk.disk bs=1 seek=$((1029 * 1024 + 23)) conv=notrunc status=none
    fi
    if [ $# = 6 ]; then
        { printf "\\x$6"; dd if=fresh.disk bs=1 skip=$((1029 * 1024)) count=30 status=none; } \
            | dd of=desk.disk bs=1 seek=$((1029 * 1024)) conv=notrunc status=none
    fi
    echo "$*: $("$OBERON" check desk.disk 2>&1)"
}
head_of 3 1 0 30 0
for version in 0 4 4294967295; do head_of $version 1 0 30 0; done
for version in 1 2; do for length in 26 27 28 30; do head_of $version 1 0 $length 0; done; done
for epoch in 0 2 4294967295; do head_of 3 $epoch 0 30 0; done
for written in 1 1024 4194304 4194305 4294967295; do head_of 3 1 $written 30 0; done
for length in 0 27 29 31 3276800 3276801 4294967295; do head_of 3 1 0 $length 0; done
for area in 1 2 4294967295; do head_of 3 1 0 30 $area; done
for area in 1 2 4294967295; do head_of 2 1 0 27 $area; done
for area in 1 2 4294967295; do head_of 1 1 0 27 $area; done
head_of 3 1 1 31 0 41
echo list | "$OBERON" play desk.disk
head_of 3 1 4194304 30 1
echo list | "$OBERON" play desk.disk
head_of 2 1 4194304 27 1
echo list | "$OBERON" play desk.disk
head_of 1 1 4194304 27 0
echo list | "$OBERON" play desk.disk
for sector in 0 1 2 3; do
    echo "each bit of the front of sector $sector"
    "$TESTS/lib/each_byte" fresh.disk $sector 0 21
done
