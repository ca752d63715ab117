# With ample memory nothing is told as want of it: stores that older programs made, stores with two million characters, many
# documents at once (new ones, others in their place, the same again), and undo across a checkpoint behind journals of any length.
calls=0
desk() {
    calls=$((calls + 1))
    "$DESK_PROGRAM" "$@" > got 2> said || echo "desk $*: $?, $(head -c 200 said)"
}
# What a person does with a store: $1 is the store, $2 what is said of it.
uses() {
    calls=0
    rm -rf copy.disk out
    echo "a file" > New.File
    for words in "check $1" "list $1" "list --json $1" "history $1" "export $1 --all out" "backup $1 copy.disk" "picture $1" \
        "import --dry-run $1 New.File" "import $1 New.File" "history $1" "list $1"; do
        desk $words
    done
    printf '\021' > keys
    desk sit 33 "$1" < keys
    printf '%s\n' 'file Event.Text one more' checkpoint | "$OBERON" play "$1" | uniq
    "$OBERON" check "$1" | cut -d " " -f 1-3
    echo "$2: $calls calls"
}

for version in 1 2; do
    gzip -dc "$TESTS/lib/old_stores/version_$version.gz" > "old$version.disk"
    uses "old$version.disk" "a store of layout $version"
done

x=$(head -c 900 /dev/zero | tr '\0' x)
"$OBERON" format large.disk
{
    for k in $(seq "$(trials 4600 2300)"); do echo "file F$((k % 200)).Text $x"; done
    echo checkpoint
} | "$OBERON" play large.disk | sort -u
uses large.disk 'a store of millions of characters'
desk list large.disk
[ "$(sed -n 's/^written: \([0-9]*\) .*/\1/p' got)" -gt 2000000 ] && echo 'so many were written'

"$OBERON" format many.disk
number=$(trials 256 130)
mkdir many
for k in $(seq "$number"); do echo "document $k" > many/N$k; done
calls=0
desk import --dry-run many.disk many
desk import many.disk many
grep -c 'new$' got | grep -qx "$number" && echo 'all are new'
for k in $(seq "$number"); do echo "another $k" > many/N$k; done
desk import --replace many.disk many
grep -c 'replaced$' got | grep -qx "$number" && echo 'all are replaced'
desk import many.disk many
grep -c 'the same already$' got | grep -qx "$number" && echo 'all are the same'
desk export many.disk --all out2
diff -r many out2 && echo 'all came back'
echo "many documents: $calls calls"

# Two events are taken back, by `desk earlier` and at the desk: the one behind a checkpoint, and the last one of the $1 before it.
back() {
    "$OBERON" format "$1.disk" > answers
    { for k in $(seq "$1"); do echo "file A.Text $k"; done; echo checkpoint; echo 'file B.Text behind'; } | "$OBERON" play "$1.disk" > answers
    calls=0
    desk earlier "$1.disk" 2 "back$1.disk"
    printf '\032\032\021\021' > keys
    desk sit 33 "$1.disk" < keys
    for store in "$1.disk" "back$1.disk"; do
        printf '%s\n' 'show A.Text' 'show B.Text' | "$OBERON" play "$store" > shown
        if [ "$1" = 1 ]; then echo 'no 5'; else printf '0 15 0 %s\nend\n' $(($1 - 1)); fi > wanted
        echo 'no 5' >> wanted
        cmp -s wanted shown || echo "$1 events before a checkpoint, $store: $(tr '\n' ' ' < shown)"
    done
    echo "behind $1 events: $calls calls"
}
for events in 1 2 9 256 $(trials '10 100 255' ''); do back "$events"; done > told
grep -v '^behind [0-9]* events: 2 calls$' told
[ "$(grep -c . told)" -ge 4 ] && echo 'undo crosses a checkpoint'
