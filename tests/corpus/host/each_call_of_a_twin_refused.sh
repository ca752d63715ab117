# The host refuses each call of an import into two files in turn. As long as one file does the call the import is done, and
# it is said which file failed; the file that the flags choose then has the document. Nothing is said where both have all:
# where the end can't mark a file, and where a large read that is refused is made again in small ones. After an import that
# wasn't done the file has the document or not. The next import into both makes them equal again.
FEW=40
. "$TESTS/lib/each_call.sh"
"$PROGRAM" format made.disk
cp --sparse=always made.disk one.new
printf 'first\n' > A.Text
"$DESK_PROGRAM" import one.new --twin two.new A.Text
printf 'Hello\n' > B.Text
printf 'later\n' > C.Text
attempt() {
    cp --sparse=always one.new one.disk
    cp --sparse=always two.new two.disk
    env "$@" "$DESK_PROGRAM" import one.disk --twin two.disk B.Text > got 2> said
}
newest() {
    "$DESK_PROGRAM" check one.disk --twin two.disk 2>&1 | sed -n 's/^newer: //p; s/^in pair.*/one.disk/p'
}
is_right() {
    found=$("$DESK_PROGRAM" export "$(newest)" B.Text 2> missing)
    case $status in
    0) [ "$found" = Hello ] && case $1:$(grep -c '^desk: .* failed, so only' said) in
        *:1) grep -qF "so only \"$(newest)\" has all" said ;;
        *:0) [ ! -s said ] && cmp -n $((15621 * 1024)) one.disk two.disk ;;
        *) false ;;
        esac ;;
    *) [ ! -s got ] && [ "$(grep -c '^desk: ' said)" -ge 1 ] && { [ "$found" = Hello ] || grep -q B.Text missing; } ;;
    esac && "$DESK_PROGRAM" import one.disk --twin two.disk C.Text > again 2>&1 && cmp one.disk two.disk
}

refused=0
for call in pwrite fdatasync; do
    each_call $call
    [ $status = 0 ] && [ $tried -gt 3 ] && [ ! -s said ] && cmp one.disk two.disk && echo "each $call was refused once"
    refused=$((refused + tried))
done

# of the reads, most of which compare both files where no mark says that they are the same, some
for file in one.new two.new; do
    printf '\0' | dd of=$file bs=1 seek=$((15622 * 1024)) conv=notrunc 2> shell
done
tried=0
while :; do
    with_a_failure FAIL=pread AT=$tried 2> shell
    status=$?
    grep -q failed calls || break
    is_right pread || echo "pread $tried refused: status $status, $(head -c 200 got said)"
    [ $tried -lt 6 ] && tried=$((tried + 1)) || tried=$((tried + $(trials ${READS:-9} 99)))
    refused=$((refused + 1))
done
[ $status = 0 ] && [ ! -s said ] && cmp one.disk two.disk && echo 'some of each pread were refused once'
count 'calls refused, an import into two files' $refused
