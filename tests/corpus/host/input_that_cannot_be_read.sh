# Standard input is a folder, isn't there, or fails in the middle of a script.
"$PROGRAM" < /
echo "$?"
"$PROGRAM" <&-
echo "$?"
cc -shared -fPIC -o calls.so "$TESTS/c/fail_calls.c" || exit 1
# (the shell writes a line at a time, and cat all at once)
printf 'list\nsh' > front
for number in 0 1 2; do
    (cat front; sleep 1; printf 'ow A\n') | FAIL=read AT=$number LD_PRELOAD=./calls.so "$PROGRAM"
    echo "$?"
done
