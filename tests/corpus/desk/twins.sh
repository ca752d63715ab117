# A store in two files: made, written to alone, told apart, paired again, refused.
printf 'Hello\n' > A.Text
printf '\021' | "$DESK_PROGRAM" sit --twin two.disk 33 one.disk > shown
echo "sit $?"
cmp one.disk two.disk && echo 'both are the same'
"$DESK_PROGRAM" import one.disk --twin two.disk A.Text
"$DESK_PROGRAM" check one.disk --twin two.disk | sed -n 1,2p

echo 'without the twin:'
"$DESK_PROGRAM" import one.disk B.Text=A.Text
"$DESK_PROGRAM" check two.disk --twin one.disk | sed -n 1,2p
"$DESK_PROGRAM" check one.disk --twin two.disk | sed -n 2p
"$DESK_PROGRAM" import two.disk --twin one.disk C.Text=A.Text
"$DESK_PROGRAM" check one.disk --twin two.disk | sed -n 1,2p
"$DESK_PROGRAM" list two.disk | grep Text

echo 'one is gone:'
mv two.disk away
"$DESK_PROGRAM" import one.disk --twin two.disk D.Text=A.Text
echo "$?"
"$DESK_PROGRAM" import one.disk D.Text=A.Text
"$DESK_PROGRAM" import one.disk --twin two.disk E.Text=A.Text
"$DESK_PROGRAM" check one.disk --twin two.disk | sed -n 1,2p

echo 'each was used without the other:'
"$DESK_PROGRAM" import two.disk F.Text=A.Text
"$DESK_PROGRAM" import one.disk G.Text=A.Text
"$DESK_PROGRAM" import one.disk --twin two.disk H.Text=A.Text
echo "$?"

echo 'a file of an earlier pair, and files of none:'
"$DESK_PROGRAM" import away --twin one.disk H.Text=A.Text
echo "$?"
printf '\021' | "$DESK_PROGRAM" sit 33 other.disk > shown
"$DESK_PROGRAM" import one.disk --twin other.disk H.Text=A.Text
echo "$?"
head -c 20000000 /dev/zero > zeros
cp zeros kept
"$DESK_PROGRAM" import one.disk --twin zeros H.Text=A.Text
echo "$?"
cmp zeros kept
"$DESK_PROGRAM" import zeros H.Text=A.Text
echo "$?"
cmp zeros kept
"$DESK_PROGRAM" import none.disk --twin none2.disk H.Text=A.Text
echo "$?"
ls
