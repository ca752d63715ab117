# The characters that fill sectors of the area stay there: of 78 files of 900 characters they are 68 sectors, more than
# are in memory at one time, and the image begins with the 568 that are left. They are shown in whatever order, in the
# same run and after opening, over a file and in memory.
bytes() { yes "F$1" | tr '\n' ' ' | head -c 900; }
files() { for k in $(seq 78); do echo "file F$k $(bytes "$k")"; done; }
shows() { printf 'show F%s\n' "$@"; }
wanted() { for k; do printf '0 15 0 %s\nend\n' "$(bytes "$k")"; done; }
for k in $(seq 78); do bytes "$k"; done > characters

"$OBERON" format desk.disk
{ files; echo checkpoint; shows 1 78 1; } | "$OBERON" play desk.disk > said
head -n 79 said | uniq -c | sed 's/^ *//'
wanted 1 78 1 | cmp - <(tail -n +80 said) && echo 'F1, F78 and F1, after the checkpoint'
"$OBERON" check desk.disk
echo list | "$OBERON" play desk.disk | sed -n '1p;78,$p'

# So many sectors of the store from $1 on.
sectors() { dd if=desk.disk bs=1024 skip="$1" count="$2" status=none; }
sectors 7429 68 | cmp - <(head -c 69632 characters) && echo 'the area has 69,632 characters'
sectors 7497 1 | cmp -n 1024 - /dev/zero && echo 'its next sector has zeros'
sectors 4229 1 | head -c 568 | cmp - <(tail -c 568 characters) && echo 'the image begins with 568'

same() { shows "${@:2}" | "$OBERON" play desk.disk | cmp - <(wanted "${@:2}") && echo "$1, after opening"; }
same 'F1, F78 and F1' 1 78 1
same 'all files twice' $(seq 78) $(seq 78)
same 'all files there and back' $(seq 78) $(seq 78 -1 1)
same 'all files, those of the first sectors between them' $(for k in $(seq 78); do echo 1 "$k" 2; done)

{ files; echo checkpoint; shows $(seq 78) $(seq 78); } | "$OBERON" | tail -n +80 | cmp - <(wanted $(seq 78) $(seq 78)) &&
    echo 'all files twice, in memory'
