# Documents at the limits: as many as there may be, names of any length, an output that takes nothing; and lines that are
# broken and joined.
"$PROGRAM" format my.disk
desk() { "$DESK_PROGRAM" "$@"; echo "= $?"; }

echo '--- 256 documents, and one more'
mkdir many
for n in $(seq 256); do echo "document $n" > many/N$n; done
desk import my.disk many | tail -n 2
echo one more > M
desk import my.disk M
echo replaced > N7
desk import --replace my.disk N7
desk list my.disk | tail -n 4
desk export my.disk --all out | tail -n 1
cp N7 many/N7
diff -r many out && echo 'all came back'

echo '--- names of 13, 31, 32, 100 and 255 bytes'
"$PROGRAM" format names.disk
for length in 13 31 32 100 255; do
    name=$(head -c $length /dev/zero | tr '\0' N)
    echo "$length" > "$name"
    "$DESK_PROGRAM" import names.disk "$name" 2>&1 | cut -c 1-60
    "$DESK_PROGRAM" import names.disk "L$length=$name" 2>&1
done
name=$(head -c 40 /dev/zero | tr '\0' M)
echo 40 > "$name"
desk import names.disk --rename "$name"
desk list names.disk

echo '--- an output that takes nothing'
full() { "$DESK_PROGRAM" "$@" > /dev/full; echo "= $?"; }
full export my.disk N1
full list my.disk
full check my.disk
full import --dry-run my.disk --replace N1=M
full import my.disk --replace N1=M
desk export my.disk N1
"$DESK_PROGRAM" import my.disk M=huge 2> /dev/full
echo "= $?"

echo '--- lines broken and joined'
printf 'The quick brown fox jumps over the lazy dog and goes on.\n\nshort\tand wide\n  in front of unbreakableunbreakableunbreakable words  \nend' > prose
"$PROGRAM" format prose.disk
desk import prose.disk --fill 20 prose
desk export prose.disk prose | cat -A
"$DESK_PROGRAM" export --join prose.disk prose | cat -A
desk import prose.disk --fill 49 Wide=prose
desk export prose.disk Wide
sed 's/ *$//' prose > clean
desk import prose.disk --fill 9 Clean=clean
"$DESK_PROGRAM" export prose.disk Clean --join | cmp - clean && echo 'it came back'
desk export prose.disk --all joined --join
cmp joined/Clean clean && echo 'and as a file'
desk import prose.disk --fill 0 prose 2>&1 | cut -c 1-40
desk import prose.disk --fill wide prose 2>&1 | cut -c 1-40

echo '--- room by System.Collect'
"$PROGRAM" format worn.disk
# Longer words stand below it, which are others.
printf 'file System.Tool Edit.Search%%20System.Collect%%20%%0dNoSystem.Collect%%20System.Collector%%0d\npoint m 60 10 60 10\n' | "$PROGRAM" play worn.disk
head -c 200000 /dev/zero | tr '\0' x > large
for n in $(seq 21); do
    echo "$n" >> large
    "$DESK_PROGRAM" import --replace worn.disk large > said 2>&1 || break
done
echo "the import $n was refused"
cat said
desk import --replace --collect worn.disk large
"$DESK_PROGRAM" export worn.disk large | cmp - large && echo 'it came'
desk list worn.disk | tail -n 1
echo '--- a System.Collect that makes too little room: it was done, and no document came'
for n in $(seq 20); do
    echo "$n" >> large
    "$DESK_PROGRAM" import --replace worn.disk large > said 2>&1 || break
done
head -c 100000 /dev/zero | tr '\0' y > other
desk import --dry-run --replace --collect worn.disk large other
desk list worn.disk | tail -n 2 | head -n 1 | cut -d ' ' -f 1-2 | tr 0-9 n
desk import --replace --collect worn.disk large other
desk list worn.disk | tail -n 3 | head -n 2 | cut -d ' ' -f 1-2
desk export worn.disk other
echo '--- and where no viewer shows the word'
"$PROGRAM" format bare.disk
for n in $(seq 21); do
    echo "$n" >> large
    "$DESK_PROGRAM" import --replace bare.disk large > said 2>&1 || break
done
desk import --replace --collect bare.disk large
