# A document that was deleted stays in the past of a store, until that is forgotten. What the store shows stays, and behind it
# there is a copy of it and nothing else. What has no past to be forgotten.
desk() { "$DESK_PROGRAM" "$@"; echo "= $?"; }
reach() { "$DESK_PROGRAM" check "$1" | tail -n 1; }
typed() { for _k in $(seq "$1"); do printf 'ab\177'; done; printf '\021'; }
secrets() {
    echo "$(grep -a -o Heimlich my.disk | wc -l) in the file," \
        "$(head -c $((15621 * 1024)) my.disk | grep -a -o Heimlich | wc -l) of them in the store"
}
"$PROGRAM" format my.disk
"$PROGRAM" play my.disk << 'END' | uniq -c
file Secret.Text Heimlich
file System.Tool Edit.Open A.Text%0dSystem.DeleteFiles Secret.Text ~%0dSystem.Collect
point m 60 31 60 31
point m 52 30 52 30
point l 1 30 1 30
END

echo '--- a document, its past, and its end'
typed 40 | desk sit --past 33 my.disk > shown
printf '%s\n' 'list' | "$PROGRAM" play my.disk
secrets
printf '%s\n' 'point m 52 29 52 29' 'point m 52 28 52 28' 'list' | "$PROGRAM" play my.disk
for _turn in 1 2; do
    typed 100 | desk sit 33 my.disk > shown
    printf '%s\n' 'point m 52 28 52 28' | "$PROGRAM" play my.disk
done
typed 100 | desk sit 33 my.disk > shown
reach my.disk
secrets

echo '--- forgotten'
"$PROGRAM" screen my.disk > before
desk forget my.disk
cmp before <("$PROGRAM" screen my.disk) && echo same
reach my.disk
"$DESK_PROGRAM" history my.disk --all | wc -l
secrets
python3 - my.disk << 'END'
import os, sys
sys.path.insert(0, os.environ['TESTS'] + '/lib/past')
sys.dont_write_bytecode = True
from reader import PART, SITTING, STORE
with open(sys.argv[1], 'rb') as file:
    for base in range(STORE + 2, SITTING, PART):
        file.seek(base * 1024)
        start, pages = file.read(STORE * 1024), file.read((PART - STORE) * 1024)
        if any(start) or any(pages):
            print('a start' if start[:16] == b'OBERONDESKSTORE1' and not any(pages) else 'more', 'in sector', base)
END

echo '--- it goes on'
typed 1 | desk sit 33 my.disk > shown
reach my.disk
desk earlier my.disk 3 then.disk
cmp before <("$PROGRAM" screen then.disk) && echo same

echo '--- a store without a past, what is no store, and nothing'
desk backup --without-past my.disk copy.disk
cp copy.disk same.disk
desk forget copy.disk
cmp copy.disk same.disk && echo same
head -c 20000000 /dev/zero > no.disk
desk forget no.disk
desk forget none.disk
ls
