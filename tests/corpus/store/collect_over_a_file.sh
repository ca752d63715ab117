# Six runs over a store in a file write 5,038,200 characters, more than a store takes without a Collect, in 5,598
# documents, each with contents of its own. Each run ends with a System.Collect and a checkpoint, by which the characters
# go to the other area, and the next program finds in the file what the last one left.
"$OBERON" format desk.disk
documents() {
    for k in $(seq "$1" "$2"); do printf 'file F%d.Text %0899d.\n' $((k % 200)) "$k"; done
}
{ echo 'file System.Tool System.Collect'; echo 'point m 60 31 60 31'; } | "$OBERON" play desk.disk
for run in 0 1 2 3 4 5; do
    {
        documents $((1000 * run)) $((1000 * run + 932))
        printf '%s\n' 'point m 52 30 52 30' checkpoint
    } | "$OBERON" play desk.disk | uniq -c | sed 's/^ *//'
    "$OBERON" check desk.disk
    echo list | "$OBERON" play desk.disk | tail -n 2
done
# What each document holds is what was written to it last.
for k in $(seq 0 199); do echo "show F$k.Text"; done | "$OBERON" play desk.disk > shown
for k in $(seq 0 199); do
    last=$((5932 - (5932 - k) % 200))
    grep -q "$(printf '%0899d\.' $last)" shown && echo "$last"
done | wc -l
