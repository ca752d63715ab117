# Files of the host become documents of a store (tools/hand_in), and come out again (tools/hand_out): byte for byte where
# LF ends their lines. CR LF and CR come out as LF.
tools=$TESTS/../tools
"$OBERON" format desk.disk

# Hands in the file $1 as A.Text and out again, and compares that with the file $2.
there_and_back() {
    "$tools/hand_in" A.Text "$1" | "$OBERON" play desk.disk | tr '\n' ' '
    "$tools/hand_out" desk.disk A.Text > back
    cmp back "$2" && echo "$1: $(wc -c < back) bytes, the same"
}
: > empty
printf 'Hello' > unended
printf 'one\ntwo\n' > lines
printf '\n\n\n' > ends
printf '\ta\tb\t\n\t\n' > tabulators
printf '  %%41 100%% \\n\\x41\\c &$HOME `x` "q" '\''r'\'' ~\nend\nno 5\n0 15 0 x%%0d \n end ' > odd
head -c 900 /dev/zero | tr '\0' x > longest
awk 'BEGIN { for (n = 0; n < 898; n++) printf "%c", n % 95 + 32; print "\t" }' > all_bytes
head -c 900 /dev/zero | tr '\0' '\n' > longest_ends
for file in empty unended lines ends tabulators odd longest all_bytes longest_ends "$TESTS/lib/tool.text"; do
    cp "$file" "${file##*/}" 2> /dev/null
    there_and_back "${file##*/}" "$file"
done
awk '{ printf "%s\r\n", $0 }' lines > cr_lf
there_and_back cr_lf lines
awk '{ printf "%s\r\n", $0 }' longest_ends > longest_cr_lf
there_and_back longest_cr_lf longest_ends
printf 'one\rtwo\r' > cr
there_and_back cr lines
printf '\r\n\r\r\n\n\r' > mixed
there_and_back mixed <(printf '\n\n\n\n\n')
cp lines ./-n
there_and_back -n lines
there_and_back <(cat lines) lines | sed 's/^.*:/a pipe:/'

# The line of a script.
for file in empty lines odd; do "$tools/hand_in" A.Text $file; done

# The text of the walk in docs/SCRIPTS.md, which has two looks, and one that is longer than a line can bring in.
{ "$tools/hand_in" System.Tool "$TESTS/lib/tool.text"; grep -v '^screen$\|^show ' "$TESTS/lib/walk.in"; } | "$OBERON" play desk.disk | uniq
"$tools/hand_out" desk.disk A.Text
{
    echo 'point l 1 30 1 30'
    for byte in p q r; do echo "type $(head -c 900 /dev/zero | tr '\0' $byte)"; done
    echo 'point m 47 31 47 31'
} | "$OBERON" play desk.disk | uniq
"$tools/hand_out" desk.disk A.Text | tr -s pqr
"$tools/hand_out" desk.disk A.Text | wc -c
env -u OBERON "$tools/hand_out" desk.disk A.Text 2> said | wc -c
grep -v 'this program is compiled but not yet proved' said >&2

# What is handed out stays as it was.
cp desk.disk before.disk
"$tools/hand_out" desk.disk System.Tool | cmp - "$TESTS/lib/tool.text"
cmp desk.disk before.disk && echo 'the store is as it was'
