# The words of the script desk: options before and behind a path, help for a command, and what is refused.
export DESK=$DESK_PROGRAM
desk() { "$TESTS/../desk" "$@" < /dev/null; echo "= $?"; }
desk -h | head -n 1
desk --help | tail -n 2
desk list --help
desk import my.disk -h | head -n 1
desk one two
desk --no-fill --no-questions one two
desk my.disk --nothing
desk -- --nothing | head -n 1
desk my.disk --no-fill
desk --no-questions list my.disk
desk ''
desk list ''
desk help
desk list
"$PROGRAM" format my.disk
desk list my.disk --nothing
mkdir folder
desk list folder
desk check /dev/null

echo '--- a store that can only be read'
read_only() {
    mkdir mount && mount --bind . mount && mount -o remount,ro,bind mount || exit
    for words in 'list' 'check' 'history'; do
        "$DESK_PROGRAM" $words mount/my.disk | tail -n 1
    done
    "$DESK_PROGRAM" backup mount/my.disk copy.disk
    echo text > text
    "$DESK_PROGRAM" import mount/my.disk A.Text=text
    echo "= $?"
}
export -f read_only
unshare -rm bash -c read_only 2>&1
