# A backup has the past too, and stays as sparse as the file; or it has the store alone, and then no past. Both are whole or not
# there, whatever the host refuses.
. "$TESTS/lib/each_call.sh"
desk() { "$DESK_PROGRAM" "$@"; echo "= $?"; }
typed() { for _k in $(seq "$1"); do printf 'ab\177'; done; printf '\021'; }
blocks() { du -k "$1" | cut -f 1; }
secrets() { grep -a -o Heimlich "$1" | wc -l; }
told() {
    { "$DESK_PROGRAM" check "$1" && "$DESK_PROGRAM" history "$1" --all; } 2>&1 | sed "s/^file: .*//; s/$1/it/"
}
tells_the_same() {
    cmp <(told "$1") <(told "$2") && told "$2" | grep -e past: -e 'keeps no past'
}
"$PROGRAM" format my.disk
"$PROGRAM" play my.disk << 'LINES' | uniq -c
file Secret.Text Heimlich
file System.Tool Edit.Open A.Text%0dSystem.DeleteFiles Secret.Text ~%0dSystem.Collect
point m 60 31 60 31
point m 52 30 52 30
point l 1 30 1 30
LINES
# A past in the second part: the first one is forgotten, and has zeros.
typed 100 | "$DESK_PROGRAM" sit --past 33 my.disk > shown
"$DESK_PROGRAM" forget my.disk
printf 'z\021' | "$DESK_PROGRAM" sit 33 my.disk > shown
printf 'a new one\n' > B.Text
"$DESK_PROGRAM" import my.disk B.Text
typed 120 | "$DESK_PROGRAM" sit 33 my.disk > shown

echo '--- with the past'
desk backup my.disk copy.disk
cmp my.disk copy.disk && echo 'the same bytes'
tells_the_same my.disk copy.disk
[ "$(blocks copy.disk)" -le $(($(blocks my.disk) + 64)) ] && [ "$(blocks copy.disk)" -ge 15621 ] && echo 'as sparse'
for ago in 0 3 250 300 361; do
    rm -f then.disk there.disk
    "$DESK_PROGRAM" earlier my.disk $ago then.disk > said && "$DESK_PROGRAM" earlier copy.disk $ago there.disk > said || cat said
    cmp <("$PROGRAM" screen then.disk) <("$PROGRAM" screen there.disk) && echo "$ago events ago: same"
done
desk earlier copy.disk 363 none.disk
typed 1 | "$DESK_PROGRAM" sit 33 copy.disk > shown
"$DESK_PROGRAM" check copy.disk | tail -n 1

echo '--- without it'
desk backup --without-past my.disk alone.disk
cmp -n 15995904 my.disk alone.disk && wc -c alone.disk
desk history alone.disk --all
"$DESK_PROGRAM" check alone.disk | tail -n 1
rm -f then.disk there.disk
"$DESK_PROGRAM" earlier my.disk 3 then.disk > said && "$DESK_PROGRAM" earlier alone.disk 3 there.disk > said
cmp <("$PROGRAM" screen then.disk) <("$PROGRAM" screen there.disk) && echo 'what can be taken back: same'
desk earlier alone.disk 361 none.disk
typed 1 | "$DESK_PROGRAM" sit 33 alone.disk > shown
"$DESK_PROGRAM" check alone.disk | tail -n 1
"$DESK_PROGRAM" export alone.disk B.Text

echo '--- what was deleted'
printf '%s\n' 'point m 52 29 52 29' 'point m 52 28 52 28' | "$PROGRAM" play my.disk
rm copy.disk alone.disk
desk backup my.disk copy.disk
desk backup my.disk alone.disk --without-past
[ "$(secrets copy.disk)" = "$(secrets my.disk)" ] && [ "$(secrets alone.disk)" -lt "$(secrets my.disk)" ] &&
    echo 'fewer times without the past'

echo '--- files with other ends: amid the past, amid a sector, behind the past, and before any'
end=$(wc -c < my.disk)
for length in $((end - 100 * 1024)) $((end - 100)) $((end + 5000)) $((15623 * 1024 + 1)); do
    rm -f copy.disk
    cp --sparse=always my.disk other.disk && truncate -s "$length" other.disk
    "$DESK_PROGRAM" backup other.disk copy.disk
    tells_the_same other.disk copy.disk
    truncate -s %1024 other.disk && cmp other.disk copy.disk && echo 'the same bytes'
done
rm copy.disk && truncate -s $((15623 * 1024)) other.disk
"$DESK_PROGRAM" backup other.disk copy.disk
tells_the_same other.disk copy.disk
cmp -n 15995904 other.disk copy.disk && wc -c copy.disk

echo '--- a file of a pair: its copy belongs to none'
cp --sparse=always my.disk one.disk
typed 1 | "$DESK_PROGRAM" sit --twin two.disk 33 one.disk > shown
rm copy.disk
desk backup one.disk copy.disk
python3 - one.disk copy.disk << 'PROGRAM'
import sys
one, other = (open(it, 'rb').read() for it in sys.argv[1:])
print('sectors that differ:', *(n for n in range(len(one) // 1024) if one[n * 1024:n * 1024 + 1024] != other[n * 1024:n * 1024 + 1024]),
      '' if len(one) == len(other) else 'and the length')
PROGRAM
desk import copy.disk --twin two.disk B.Text

echo '--- refused'
rm one.disk two.disk copy.disk alone.disk then.disk there.disk other.disk
echo mine > copy.disk
desk backup my.disk copy.disk
desk backup --without-past my.disk copy.disk
cat copy.disk
rm copy.disk
exec 4< my.disk
flock -x 4
desk backup my.disk copy.disk
exec 4<&-
desk backup none.disk copy.disk
"$PROGRAM" format small.disk
typed 1 | "$DESK_PROGRAM" sit --past 33 small.disk > shown
attempt() {
    rm -f copy.disk
    env "$@" "$DESK_PROGRAM" backup small.disk copy.disk > got 2> said
}
is_right() {
    case "$1 $status" in 'link 0' | 'statx 0') cmp small.disk copy.disk && return ;; esac
    [ $status != 0 ] && [ "$(grep -c '^desk: ' said)" = 1 ] && [ -z "$(ls -A | grep desk-copy)" ] || return 1
    [ ! -e copy.disk ] || cmp -s small.disk copy.disk
}
for call in statx fdatasync link; do
    each_call $call
    cmp small.disk copy.disk && [ $status = 0 ] && [ $tried -gt 0 ] && echo "each $call was refused once"
done
for call in pread pwrite; do
    with_a_failure && many=$(grep -c "^$call " calls)
    for part in 1 5 9 13 15; do
        with_a_failure FAIL=$call AT=$((many * part / 16)) ERROR=28 2> shell
        status=$?
        is_right $call && cat said || echo "$call $part of 16 refused: status $status, $(head -c 200 got said)"
    done | uniq -c
done
with_a_failure FAIL=pwrite AT=$((many - 1)) SPOILED=1 || cat said
with_a_failure FAIL=link AT=0 ERROR=17 || cat said
desk backup --without-past small.disk copy.disk
ls
