try() {
    "$OBERON" "$@" < /dev/null
    echo "$?"
}
try --help
try play
try play a b
try format
try screens x
try screen x
try --version
try play $'\xff\xfe'
try play missing.disk
try check missing.disk
mkdir folder
try play folder
try format folder
try format missing/desk.disk
: > empty.disk
try play empty.disk
printf '0123456789' > ten.disk
try play ten.disk
printf 'This is a text, and no store.\n' > text.disk
try check text.disk
head -c 15995904 /dev/zero > zeros.disk
try play zeros.disk
try format desk.disk
dd if=/dev/zero of=desk.disk bs=1024 seek=1 count=1 conv=notrunc status=none
try play desk.disk
try format desk.disk
printf 'OPENGATE' | dd of=desk.disk bs=1024 seek=5 conv=notrunc status=none
try play desk.disk
try check desk.disk
