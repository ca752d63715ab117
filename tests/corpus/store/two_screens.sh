# Of two screens of a store, one after the other, the second reads nothing of its file: the lines are kept. After an event
# the lines are read again that it may have changed, from the sectors in memory.
cc -shared -fPIC -o calls.so "$TESTS/c/fail_calls.c" || exit 1
"$PROGRAM" format my.disk
"$TESTS/../tools/hand_in" System.Tool "$TESTS/lib/tool.text" > script
x=$(head -c 900 /dev/zero | tr '\0' x)
printf '%s\n' "file A.Text $x" "file B.Text $x" 'point m 60 31 60 31' checkpoint >> script
"$PROGRAM" play my.disk < script | sort | uniq -c | sed 's/^ *//'
count_reads() {
    rm -f calls
    printf '%s\n' "$@" | CALLS=calls LD_PRELOAD=./calls.so "$PROGRAM" play my.disk > said
    grep -c '^pread' calls
}
one=$(count_reads screen)
two=$(count_reads screen screen)
head -n $(($(wc -l < said) / 2)) said | cmp - <(tail -n $(($(wc -l < said) / 2)) said) && echo 'twice the same screen'
[ "$one" = "$two" ] && echo 'the second one reads nothing'
[ "$one" -gt "$(count_reads list)" ] && echo 'the first one reads'
[ "$(count_reads screen 'mark 20 12' screen)" = "$one" ] && echo 'nor does one after an event that changes no text'
