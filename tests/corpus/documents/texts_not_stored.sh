# What is typed and not stored is listed, and comes along where that is asked for: in a viewer that is covered, and in two
# viewers of one text, too. The store stays as it is.
desk() { "$DESK_PROGRAM" "$@" < /dev/null; echo "= $?"; }
"$PROGRAM" format my.disk
"$PROGRAM" play my.disk << 'END' > played
file System.Tool Edit.Open A.Text%0dEdit.Open B.Text%0dSystem.Grow Edit.Store
file C.Text stored%0d
point m 60 31 60 31
point m 52 30 52 30
point l 2 30 2 30
type first
point m 52 29 52 29
point l 2 14 2 14
type second%0d
END
cp my.disk before.disk
echo '--- two texts'
desk list my.disk
desk list my.disk --json
desk export my.disk --all out
ls out
desk export my.disk --all open --open
head open/*
desk export my.disk A.Text
desk export my.disk --open A.Text C.Text
cmp my.disk before.disk && echo 'the store itself stays'

echo '--- one of them in two viewers, in a track of its own'
"$PROGRAM" play my.disk << 'END' > played
mark 3 14
point m 52 28 52 28
END
desk list my.disk

echo '--- a viewer that is covered by one with a lower number'
"$PROGRAM" format low.disk
"$PROGRAM" play low.disk << 'END' > played
file System.Tool Edit.Open A.Text%0dEdit.Open B.Text%0dSystem.Close%0dSystem.Grow
point m 60 31 60 31
point m 52 30 52 30
point m 52 29 52 29
point l 2 14 2 14
type second%0d
mark 2 30
point m 52 28 52 28
point m 52 30 52 30
mark 2 30
point m 52 28 52 28
mark 3 14
point m 52 27 52 27
END
desk list low.disk

echo '--- two open texts of one name: one comes, and of the other it is told that it stays behind'
"$PROGRAM" format two.disk
"$PROGRAM" play two.disk << 'END' > played
file System.Tool Edit.Open A.Text%0d
point m 60 31 60 31
point m 52 30 52 30
point l 2 30 2 30
type one
point m 52 30 52 30
point l 2 14 2 14
type another
END
cp two.disk before.disk
desk list two.disk | tail -n 3
desk export two.disk --all both --open
grep . both/A.Text
desk export two.disk --open A.Text
echo
desk export two.disk --open System.Tool
cmp two.disk before.disk && echo 'the store itself stays'

echo '--- all stored'
"$PROGRAM" format my.disk
"$PROGRAM" play my.disk << 'END' > played
file System.Tool Edit.Open A.Text%0dEdit.Store%0d
point m 60 31 60 31
point m 52 30 52 30
point l 2 30 2 30
type text
mark 2 30
point m 52 29 52 29
key escape
END
desk list my.disk
desk export my.disk --all stored

echo '--- what was pressed, in words'
desk history my.disk
