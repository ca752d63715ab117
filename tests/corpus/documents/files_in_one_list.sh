# What can't come into a store is told in one list, with what is left out of a folder; a name of a file that no document can
# have may be the nearest one; and a store is made where there is none, if anything comes.
desk() { "$DESK_PROGRAM" "$@" < /dev/null; echo "= $?"; }
mkdir -p papers/more
echo good > papers/good.txt
printf 'na\303\257ve\n' > papers/accents
printf 'a\0b' > papers/binary
echo one > papers/my-notes.txt
echo two > papers/my_notes.txt
echo hidden > papers/.hidden
echo below > papers/more/below
mkfifo papers/pipe
ln -s nothing papers/link

echo '--- one list'
desk import my.disk papers missing.txt papers/link
ls
desk import my.disk papers --ascii --rename
ls

echo '--- the nearest name, and a store that is made'
rm papers/my_notes.txt papers/binary
printf '\357\273\277dot\r\ndash\r\n' > 'papers/1st résumé, final.txt'
printf 'a\rb\n' > papers/---
desk import my.disk papers --ascii --rename --dry-run
ls
desk import my.disk papers --ascii --rename
desk list my.disk
desk export my.disk File.1st.resume.final.txt File. my.notes.txt
desk import my.disk papers --ascii --rename

echo '--- two words are two files'
echo notes > notes.txt
desk import my.disk A.Text=notes.txt
desk import my.disk --replace A.Text papers/good.txt
desk export my.disk A.Text
desk import my.disk --replace A.Text=papers/good.txt
desk export my.disk A.Text

echo '--- nothing comes, and no store'
mkdir empty
desk import new.disk empty
desk import new.disk 9lives=notes.txt
head -c 262144 /dev/zero | tr '\0' x > most.txt
desk import new.disk most.txt notes.txt
desk import none/new.disk notes.txt
ls

echo '--- how commands are used'
desk import my.disk notes.txt --nothing
desk list
desk nothing

echo '--- a name that is no UTF-8'
mkdir odd
echo one > odd/One.Text
echo two > "odd/$(printf 'two\377')"
desk import odd.disk odd
desk list odd.disk
