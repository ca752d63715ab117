# The host refuses each call of `desk import` of three files in turn, one of them 80,000 bytes long. It says why in one
# sentence; then the store opens, and all three documents are in it as a whole, or none is. If it says that nothing was done,
# none is.
. "$TESTS/lib/each_call.sh"
"$PROGRAM" format made.disk
cp --sparse=always made.disk new.disk
printf 'Hello\n' > A.Text
seq 1 20000 | head -c 80000 > B.Text
mkdir more
printf 'C\n' > more/C.Text
show() { for name in A.Text B.Text C.Text; do "$DESK_PROGRAM" export "$1" $name 2>&1; done; }
show new.disk | sed 's/new.disk/desk.disk/' > none
cat A.Text B.Text more/C.Text > whole
attempt() {
    cp new.disk desk.disk
    env "$@" "$DESK_PROGRAM" import desk.disk A.Text B.Text more > got 2> said
}
is_right() {
    show desk.disk > shown
    [ $status != 0 ] && [ ! -s got ] && [ "$(grep '^desk: ' said | grep -vc '^desk: so nothing was done$')" = 1 ] &&
        { cmp -s shown none || { ! grep -q 'nothing was done' said && cmp -s shown whole; }; }
}

refused=0
for call in open file_read flock pread pwrite fdatasync; do
    each_call $call
    show desk.disk | cmp - whole && [ $status = 0 ] && [ $tried -gt 0 ] && echo "each $call was refused once"
    refused=$((refused + tried))
done

# The same where the import makes the store: why is said in one sentence, beside the one that a store was made if it was, and
# no file is left under another name.
attempt() {
    rm -f fresh.disk*
    env "$@" "$DESK_PROGRAM" import fresh.disk A.Text > got 2> said
}
is_right() {
    [ $status != 0 ] && [ "$(grep '^desk: ' said | grep -vc '^desk: a new store was made: fresh.disk$')" = 1 ] &&
        [ -z "$(ls -A | grep 'fresh.disk.')" ] && { ! grep -q 'a new store was made' said || [ -e fresh.disk ]; }
}
for call in fdatasync fsync realpath; do
    each_call $call
    [ "$("$DESK_PROGRAM" export fresh.disk A.Text)" = Hello ] && [ $status = 0 ] && [ $tried -gt 0 ] && echo "a new store: each $call was refused once"
    refused=$((refused + tried))
done
count 'calls refused, desk import' $refused
