# A line of 4,097 bytes is malformed, whatever it begins with, and the one after it is played. A last line without its
# line feed is played; where reading fails behind it, it isn't, and the script ends by `input`.
x=$(head -c 4092 /dev/zero | tr '\0' x)
printf 'show %s\nfile A.Text %s\nlist\n' "$x" "${x:0:900}" | "$PROGRAM"
printf 'show %s' "$x" | "$PROGRAM"
printf 'mark 1 1\nlist' | "$PROGRAM"
echo "$?"
cc -shared -fPIC -o calls.so "$TESTS/c/fail_calls.c" || exit 1
printf 'mark 1 1\nlist' | FAIL=read AT=1 LD_PRELOAD=./calls.so "$PROGRAM"
echo "$?"

# Longer ones, whatever pieces they come in, and a last one without an end.
long() { head -c "$1" /dev/zero | tr '\0' x; }
printf 'show %s\nshow %s\nlist\n%s' "$(long 4091)" "$(long 19995)" "$(long 9000)" > lines
for size in 1 7 4096 100000; do
    dd if=lines obs=$size status=none | "$PROGRAM" | tr '\n' ' '
    echo "pieces of $size"
done
