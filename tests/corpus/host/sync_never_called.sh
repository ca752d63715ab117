# The calls that write and sync: of `format` after the zeros that make the file as long as a store, and of `play` with one event.
cc -shared -fPIC -o calls.so "$TESTS/c/fail_calls.c" || exit 1
mkdir stores
CALLS=calls LD_PRELOAD=./calls.so "$PROGRAM" format stores/desk.disk
grep -c '^pwrite' calls
sed -n '/^pwrite 15620$/,$p' calls
rm calls
CALLS=calls LD_PRELOAD=./calls.so "$PROGRAM" play stores/desk.disk < "$TESTS/corpus/events/hello.in"
grep -v '^pread' calls
