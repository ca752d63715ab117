# Where tools/install can't do all of its work it does none of it, and says why in one sentence.
tools=$TESTS/../tools
export LC_ALL=C

# What is in the folder $1, and what the files have.
state() { find "$1" 2> /dev/null -printf '%p %M %s %y\n' | sort; find "$1" -type f 2> /dev/null -exec sha256sum {} + | sort; }
# Runs tools/install with the arguments after the first, which is a folder that has to stay as it is.
try() {
    state "$1" > before
    "$tools/install" "${@:2}" > printed
    echo "$?, $(wc -c < printed) bytes"
    state "$1" | cmp - before
}
try .none
try .none --remove
try .none ''
try .none --take p
try .none p q
try .none --remove p q

# Places that can't be written.
echo text > file
try file file
try missing missing/folder
try /proc/folder /proc/folder
mkdir -p files/share
echo text > files/bin
try files files
rm files/bin
echo text > files/share/man
try files files

# A program and a page that somebody else put there.
mkdir -p other/bin
echo 'another program' > other/bin/oberon
try other other
rm other/bin/oberon
ln -s nowhere other/bin/oberon
try other other
rm other/bin/oberon
mkdir -p other/share/man/man1/oberon.1
try other other

# No room for the program, after all folders were made.
mkdir full
(
    trap '' XFSZ
    ulimit -f 4
    try full full 2>&1
) | cat

# A program that isn't built, and can't be: no crate is proved.
mkdir -p copy/crates bin
cp -r "$tools" "$TESTS/../docs" "$TESTS/../crates.txt" copy
printf '#!/bin/sh\nexit 1\n' > bin/rt
chmod 755 bin/rt
PATH=$PWD/bin:$PATH copy/tools/install unbuilt 2>&1 | grep '^install'
ls unbuilt 2> /dev/null

# Nothing to remove, and something that was changed.
try missing --remove missing
try other --remove other
"$tools/install" mine > printed
echo more >> mine/bin/oberon
try mine --remove mine
try mine mine
rm mine/bin/oberon
"$tools/install" --remove mine
ls mine 2> /dev/null
echo end
