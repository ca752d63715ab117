# An import into two files is killed by signal 9 before each of its calls in turn, and then either file is deleted. The
# other one opens, has what it had, and has the new document as a whole if that was told; and both together begin a sitting.
# The same of a sitting in which each letter is shown.
FEW=40
. "$TESTS/lib/each_call.sh"
"$PROGRAM" format made.disk
cp --sparse=always made.disk one.new
printf 'first\n' > A.Text
"$DESK_PROGRAM" import one.new --twin two.new A.Text
printf 'Hello\n' > B.Text
attempt() {
    cp --sparse=always one.new one.disk
    cp --sparse=always two.new two.disk
    env "$@" "$DESK_PROGRAM" import one.disk --twin two.disk B.Text > got 2> said
}
has() {
    [ "$("$DESK_PROGRAM" export "$1" A.Text)" = first ] || return
    found=$("$DESK_PROGRAM" export "$1" B.Text 2> missing)
    [ "$found" = Hello ] || { [ ! -s got ] && grep -q B.Text missing; }
}
printf '\021' > quit
begins() {
    "$DESK_PROGRAM" sit --twin two.disk 33 one.disk < quit > shown 2> said
}
is_right() {
    [ $status = 137 ] && has one.disk && has two.disk && begins
}
killed=0
for call in pwrite fdatasync write; do
    each_call $call killed
    [ $status = 0 ] && [ $tried -gt 0 ] && echo "killed before each $call of an import"
    killed=$((killed + tried))
done

attempt() {
    cp --sparse=always made.disk one.disk
    rm -f two.disk*
    env "$@" "$DESK_PROGRAM" sit --twin two.disk 33 one.disk < keys > shown 2> said
}
# the letters of the last scene that was shown whole
printf 'x\021' > keys
opens() {
    [ ! -e "$1" ] || "$DESK_PROGRAM" check "$1" | grep -q 'the store opens'
}
is_right() {
    [ $status = 137 ] && opens one.disk && opens two.disk && { [ -e one.disk ] || [ -e two.disk ]; }
}
for call in pwrite fdatasync; do
    each_call $call killed
    [ $status = 0 ] && [ $tried -gt 0 ] && echo "killed before each $call of a sitting"
    killed=$((killed + tried))
done
count 'stops by signal 9, two files' $killed
