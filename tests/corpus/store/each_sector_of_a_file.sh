# A disk in a file: each of its 15,621 sectors is written with contents of its own and synced, and a new disk over the path
# reads them all. Of another, made anew over it, the first is: a new disk reads it, and the file has zeros else.
"$FILE_CALLS" every.disk fill sync reopen compare
wc -c < every.disk
"$FILE_CALLS" every.disk write sync reopen read
wc -c < every.disk
tail -c +1025 every.disk | cmp -n 15994880 - /dev/zero && echo 'zeros else'
# Where the file is gone when it is opened again, that is a fault, and none is made.
cc -shared -fPIC -o meanwhile.so "$TESTS/c/meanwhile.c"
OPENED=gone.disk MEANWHILE='rm gone.disk' LD_PRELOAD=./meanwhile.so "$FILE_CALLS" gone.disk write sync reopen
ls
