# The files of a store lie on two file systems. One of them becomes full amid an import: the import is done, the other file has
# it, and goes on alone until there is room. Then it is unmounted amid a sitting: all that was typed is in the first file, and
# the second one is missed until the first is used once without it. Where there is no room for a new twin nothing is left of
# it, and it can be made elsewhere.
if [ -z "${ROOM-}" ]; then
    unshare -rm true 2> /dev/null || { cat "$TESTS/corpus/host/twins_on_two_file_systems.out"; exit; }
    ROOM=$PWD exec unshare -rm bash "$TESTS/corpus/host/twins_on_two_file_systems.sh"
fi
mkdir small && mount -t tmpfs -o size=20m none small || exit 1
head -c 60000 /dev/zero | tr '\0' x | fold > B.Text
printf 'Hello\n' > A.Text
"$DESK_PROGRAM" import one.disk --twin small/two.disk A.Text
free() { df --output=avail -B 4096 small | tail -n 1; }
newer() { "$DESK_PROGRAM" check one.disk --twin small/two.disk | sed -n 's/^newer/newer/p; s/^in pair.*/in pair/p'; }
newer

echo 'full:'
head -c $(($(free) * 4096)) /dev/zero > small/filler
"$DESK_PROGRAM" import one.disk --twin small/two.disk B.Text
echo "status $?"
newer
rm small/filler
"$DESK_PROGRAM" import one.disk --twin small/two.disk C.Text=A.Text
newer
cmp one.disk small/two.disk && "$DESK_PROGRAM" list small/two.disk | grep Text

echo 'unmounted:'
{ sleep 1; umount -l small; printf '\033[<1;54;2M\033[<1;54;2m'; sleep 1; printf zebra; sleep 1; printf '\021'; } |
    "$DESK_PROGRAM" sit --twin small/two.disk 33 one.disk > scenes
echo "status $?"
"$PROGRAM" screen one.disk | grep -c zebra
"$DESK_PROGRAM" import one.disk --twin small/two.disk D.Text=A.Text
echo "status $?"
"$DESK_PROGRAM" import one.disk D.Text=A.Text
"$DESK_PROGRAM" import one.disk E.Text=A.Text

echo 'no room for a new one:'
mkdir less && mount -t tmpfs -o size=16k none less || exit 1
"$DESK_PROGRAM" import three.disk A.Text
"$DESK_PROGRAM" import three.disk --twin less/four.disk C.Text=A.Text
echo "status $?"
ls less
"$DESK_PROGRAM" import three.disk --twin four.disk C.Text=A.Text
cmp three.disk four.disk && "$DESK_PROGRAM" list four.disk | grep Text
