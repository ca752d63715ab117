# With --skip an import leaves out each file that can't come, says why, and takes the others. What becomes of a file is
# told of those alone that come.
desk() { "$DESK_PROGRAM" "$@" < /dev/null; echo "= $?"; }
mkdir papers
echo good > papers/good.txt
printf 'na\303\257ve\r\n' > papers/accents
printf 'a\0b\r\n' > papers/binary
printf 'one\r' > papers/my-notes.txt
echo two > papers/my_notes.txt
head -c 262145 /dev/zero | tr '\0' x > papers/long
printf 'dot\r\ndash\r\n' > papers/ends

echo '--- all or none'
desk import my.disk papers missing.txt
desk import my.disk papers --ascii --rename
ls

echo '--- all that can come'
desk import --skip my.disk papers missing.txt --dry-run
ls
desk import --skip my.disk papers missing.txt
desk import --skip my.disk papers --ascii --rename
desk list my.disk
desk export my.disk my.notes.txt accents

echo '--- of two files that would be one document the first that can come'
mkdir twice
printf 'a\0' > twice/a
echo second > twice/b
echo third > twice/c
desk import --skip twice.disk A.Text=twice/a A.Text=twice/b A.Text=twice/c
desk export twice.disk A.Text

echo '--- nothing can come'
desk import --skip new.disk papers/binary papers/long
desk import --skip new.disk missing.txt
desk import --skip my.disk good.txt=twice/b
ls
