# While a program plays over a store the desk's commands leave it alone, each with one sentence. Beside a program that only
# looks, those that look are done, and the others aren't.
"$OBERON" format my.disk
echo text > file
mkfifo script
"$OBERON" play my.disk < script > replies &
exec 3> script
printf 'file A.Text Hello\n' >&3
until [ -s replies ]; do sleep 0.05; done
cp my.disk before.disk
try() {
    for words in 'export my.disk A.Text' 'list my.disk' 'picture my.disk' 'backup my.disk copy.disk' 'check my.disk' \
        'history my.disk' 'earlier my.disk 1 earlier.disk' 'import my.disk file'; do
        "$DESK_PROGRAM" $words < /dev/null > printed 2> said
        echo "$words: $?, $(grep -c . said) lines: $(cat said)"
    done
    ls
    rm -f copy.disk earlier.disk
}
try
cmp before.disk my.disk
printf 'list\n' >&3
exec 3>&-
wait
cat replies
echo '--- beside a look'
exec 4< my.disk
flock -s 4
try
exec 4<&-
cmp before.disk my.disk
