# tools/install puts the programs and their man pages into a folder, and takes them away again, and nothing else.
tools=$TESTS/../tools
export LC_ALL=C

# In a folder of their own: the files with their modes, and what is left afterwards.
"$tools/install" new
find new -printf '%M %P\n' | sort -k 2
cmp new/bin/oberon "$PROGRAM"
cmp new/bin/desk "$TESTS/../desk"
cmp new/libexec/nealtsjom/desk "$TESTS/../crates/desk/out/desk"
for page in oberon desk; do cmp new/share/man/man1/$page.1 "$TESTS/../docs/$page.1"; done
PATH=$PWD/new/bin:$PATH
oberon < "$TESTS/corpus/events/hello.in"
oberon format my.disk
desk import my.disk A.Text="$TESTS/corpus/events/hello.in" && desk export my.disk A.Text | head -n 1
"$tools/install" new/
"$tools/install" --remove new
echo "$?"
[ ! -e new ] && echo 'the folder is gone'

# Beside other files, which stay, and in the place of an older program and of a page that there was then.
mkdir -p old/bin old/share/doc
echo 'a program' > old/bin/other
find old | sort > before
"$tools/install" old > printed
echo older > old/bin/oberon
echo older > old/share/man/man1/older.1
list=old/share/nealtsjom/installed
{
    grep -v '^file bin/oberon ' "$list"
    for path in bin/oberon share/man/man1/older.1; do echo "file $path $(sha256sum < old/$path | cut -d ' ' -f 1)"; done
} > list
cp list "$list"
"$tools/install" old | grep -v 'on the PATH'
cmp old/bin/oberon "$PROGRAM"
ls old/share/man/man1
grep -c '' "$list"
"$tools/install" --remove old
find old | sort | cmp - before && echo 'what was there before'
