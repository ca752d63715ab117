# Where there is no file, or one that is no store, nothing is made, changed or printed, and the status says why; but `import`
# makes a store where there is no file, and `format` makes one of what is there. Arguments that are none of the desk's have status 2.
echo text > text.disk
"$OBERON" format damaged.disk
printf 'OPENGATE' | dd of=damaged.disk bs=1024 seek=5 conv=notrunc status=none
cp damaged.disk before.disk
for store in missing.disk text.disk damaged.disk; do
    for command in play screen check; do
        echo list | "$OBERON" $command $store > printed 2> said
        echo "$command $store: $? $(cat said), $(wc -c < printed) bytes"
    done
    for command in 'export %s A.Text' 'list %s' 'picture %s' 'check %s' 'history %s' 'import %s text.disk'; do
        # shellcheck disable=SC2059
        "$DESK_PROGRAM" $(printf "$command" $store) > printed 2> said
        echo "$command $store: $?, $(grep -c . said) lines on standard error"
    done
done
ls *.disk
cat text.disk
cmp before.disk damaged.disk
"$DESK_PROGRAM" nothing 2> said
echo "nothing: $?, $(grep -c . said) lines on standard error"
"$OBERON" format damaged.disk
"$OBERON" check damaged.disk
