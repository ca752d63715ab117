# Files of a person's become documents of a store, and files again: of any length, several at a time, all or none.
"$PROGRAM" format my.disk
desk() { "$DESK_PROGRAM" "$@"; echo "= $?"; }
seq 1 120 | head -c 500 > short.txt
seq 1 2000 | head -c 5000 > middle.txt
seq 1 20000 | head -c 100000 > long.txt
printf 'one\nna\303\257ve \342\200\224 yes\n' > accents.txt
printf 'a\0b\n' > binary.txt
printf 'a\r\nb\r\n' > crlf.txt

echo '--- all or none'
desk import my.disk short.txt middle.txt long.txt accents.txt
desk list my.disk
desk import my.disk short.txt binary.txt
desk import my.disk short.txt missing.txt
desk import --dry-run my.disk short.txt middle.txt long.txt
desk list my.disk
desk import my.disk short.txt middle.txt long.txt crlf.txt A.Text=short.txt
"$DESK_PROGRAM" export my.disk long.txt | cmp - long.txt && echo 'long.txt came back'
"$DESK_PROGRAM" export my.disk short.txt middle.txt | cmp - <(cat short.txt middle.txt) && echo 'two came back'
"$DESK_PROGRAM" export my.disk crlf.txt | od -An -c

echo '--- never over a document, unless so asked'
echo other > short.txt
desk import my.disk short.txt middle.txt
desk import --dry-run --replace my.disk short.txt
desk import --replace my.disk short.txt middle.txt
desk export my.disk short.txt

echo '--- names'
cp middle.txt my-notes.txt
desk import my.disk my-notes.txt
desk import my.disk Notes=my-notes.txt
desk import my.disk 9lives=my-notes.txt
desk import my.disk B.Text my-notes.txt
printf 'heard\n' | desk import my.disk Heard=-
printf 'heard\n' | desk import my.disk -
desk import my.disk short.txt other=short.txt short.txt=long.txt
desk export my.disk short.txt Nobody

echo '--- what is no text as it is'
desk import --ascii my.disk accents.txt
desk export my.disk accents.txt
printf 'x \233 y' > byte.txt
desk import my.disk byte.txt
head -c 262145 /dev/zero | tr '\0' x > huge.txt
desk import my.disk huge.txt
head -c 262144 /dev/zero | tr '\0' x > most.txt
desk import my.disk most.txt

echo '--- folders'
mkdir papers empty
cp short.txt papers/paper1
cp middle.txt papers/paper2
ln -s paper1 papers/paper3
echo hidden > papers/.hidden
desk import my.disk papers/
desk import my.disk empty
desk export my.disk --all out
desk export my.disk --all out
desk export my.disk --all out --replace | tail -n 2
for file in papers/*; do cmp $file out/${file#papers/}; done
ls -A out

echo '--- lists, copies and checks'
desk list my.disk
desk list my.disk --json
desk check my.disk
desk backup my.disk copy.disk
cmp my.disk copy.disk && echo 'the same bytes'
desk backup my.disk copy.disk
head -c 100000 my.disk > cut.disk
desk check cut.disk
head -c 7000000 my.disk > shorter.disk
desk check shorter.disk
desk backup shorter.disk zeros.disk
desk check short.txt
desk check nowhere.disk
printf 'x' | dd of=copy.disk bs=1024 seek=2 conv=notrunc 2> dd.said
desk check copy.disk
desk backup copy.disk other.disk

echo '--- beside another program that looks'
exec 4< my.disk
flock -s 4
desk list my.disk | tail -n 1
exec 4<&-

echo '--- never through a link that has the name aside'
mkdir linked
echo mine > victim
ln -s ../victim linked/.short.txt.desk
desk export my.disk --all linked | tail -n 1
cat victim
ls
