# Where a standard stream is closed no file takes its place: what is printed goes nowhere, and into no store, document or
# copy. A command whose output or input is closed fails where it has to print or to read, and else does what it does.
"$PROGRAM" format my.disk
echo 'file A.Text Hello' | "$PROGRAM" play my.disk
echo text > file
try() {
    cp ../my.disk . && cp ../file .
    case $closed in
        0) "$@" <&- > ../printed 2> ../said ;;
        1) "$@" < ../file >&- 2> ../said ;;
        2) "$@" < ../file > ../printed 2>&- ;;
    esac
    echo "$closed closed, ${*:2}: $?"
    for store in *.disk; do "$PROGRAM" check "$store"; done
    cmp file ../file
    [ ! -e out/A.Text ] || echo "out/A.Text: $(cat out/A.Text)"
}
for closed in 0 1 2; do
    for words in 'format' 'play' 'screen' 'check'; do
        (mkdir place && cd place && try "$PROGRAM" "$words" my.disk)
        rm -rf place
    done
    for words in 'import my.disk file' 'export my.disk A.Text' 'export my.disk --all out' 'list my.disk' 'picture my.disk' \
        'backup my.disk copy.disk' 'check my.disk' 'history my.disk' 'nothing'; do
        (mkdir place && cd place && try "$DESK_PROGRAM" $words)
        rm -rf place
    done
done
