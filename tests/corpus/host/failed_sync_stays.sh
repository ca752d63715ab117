# A sync of a disk in a file fails: every later call fails too, and the host is asked for none, though it would say that
# all is there, and could give other bytes. The first sync here is done, the second is the one that the host refuses.
cc -shared -fPIC -o calls.so "$TESTS/c/fail_calls.c" || exit 1
CALLS=calls FAIL=fdatasync AT=1 LD_PRELOAD=./calls.so "$FILE_CALLS" calls.disk \
    write sync write sync read sync write sync read
echo "$?"
echo "syncs that the host was asked for: $(grep -c '^fdatasync' calls)"
echo "calls after the one that it refused: $(sed '1,/^failed$/d' calls | grep -c .)"
