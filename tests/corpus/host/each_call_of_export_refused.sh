# The host refuses each call of `desk export --all` and of `desk backup` in turn. It says why in one sentence; then each
# file that there is has a document whole, no other file is left, and no backup is but a whole one. Where a link is
# refused the file gets its name by a rename, and all is done.
. "$TESTS/lib/each_call.sh"
"$PROGRAM" format my.disk
mkdir in
printf 'Hello\n' > in/A.Text
seq 1 20000 | head -c 80000 > in/B.Text
printf 'C\n' > in/C.Text
"$DESK_PROGRAM" import my.disk in > /dev/null
attempt() {
    rm -rf out
    env "$@" "$DESK_PROGRAM" export my.disk --all out > got 2> said
}
is_right() {
    [ "$1 $status" != 'link 0' ] || { diff -r in out && return; }
    [ $status != 0 ] && [ "$(grep -c '^desk: ' said)" = 1 ] && [ -z "$(ls -A out 2> /dev/null | grep -v '^[ABC].Text$')" ] || return 1
    for file in out/*; do [ "$file" = 'out/*' ] || cmp -s "$file" "in/${file#out/}" || return 1; done
}
refused=0
for call in mkdir open flock file_write fsync link realpath write; do
    each_call $call
    # Each of the three files is synced.
    [ $call != fsync ] || [ $tried -ge 3 ] || echo "only $tried syncs of three files"
    diff -r in out && [ $status = 0 ] && [ $tried -gt 0 ] && echo "export: each $call was refused once"
    refused=$((refused + tried))
done
# Of the sixteen thousand reads some: the store is read whole for texts that are open and not stored.
for number in 0 1 2 3 4 5 6 20 60 500 1031 15000; do
    with_a_failure FAIL=pread AT=$number 2> shell
    status=$?
    grep -q failed calls || continue
    is_right pread || echo "pread $number refused: status $status, $(head -c 200 got said)"
    refused=$((refused + 1))
done
echo 'export: some pread were refused'
count 'calls refused, desk export' $refused

attempt() {
    rm -f copy.disk
    env "$@" "$DESK_PROGRAM" backup my.disk copy.disk > got 2> said
}
is_right() {
    [ "$1 $status" != 'link 0' ] || { cmp my.disk copy.disk && return; }
    [ $status != 0 ] && [ "$(grep -c '^desk: ' said)" = 1 ] && [ -z "$(ls -A | grep desk-copy)" ] || return 1
    [ ! -e copy.disk ] || cmp -s my.disk copy.disk
}
refused=0
for call in open flock fdatasync fsync link realpath write; do
    each_call $call
    cmp my.disk copy.disk && [ $status = 0 ] && [ $tried -gt 0 ] && echo "backup: each $call was refused once"
    refused=$((refused + tried))
done
# Of the sixteen thousand sectors some.
for call in pread pwrite; do
    for number in 0 1 2 3 4 5 6 500 1031 15620 15621 15622 15623 15630 16700 31000; do
        with_a_failure FAIL=$call AT=$number 2> shell
        status=$?
        grep -q failed calls || continue
        is_right || echo "$call $number refused: status $status, $(head -c 200 got said)"
        refused=$((refused + 1))
    done
    echo "backup: some $call were refused"
done
count 'calls refused, desk backup' $refused
# A medium that keeps another byte than it is given, in any sector: the copy is compared, and doesn't stay.
for number in 0 1 500 15620; do
    with_a_failure FAIL=pwrite AT=$number SPOILED=1 2> shell
    status=$?
    grep -q failed calls && [ $status != 0 ] && [ ! -e copy.disk ] || echo "pwrite $number spoiled: status $status, $(head -c 200 got said)"
done
echo 'backup: some pwrite were spoiled'
