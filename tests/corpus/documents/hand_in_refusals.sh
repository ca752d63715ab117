# What tools/hand_in doesn't take: it says why in one sentence on standard error, and prints nothing.
tools=$TESTS/../tools
export LC_ALL=C
try() {
    "$@" > printed
    echo "$?, $(wc -c < printed) bytes"
}
echo text > file
try "$tools/hand_in"
try "$tools/hand_in" A.Text
try "$tools/hand_in" A.Text file more

# Names.
for name in '' .Text 1.Text A-Text 'A Text' $'A.Text\nlist' $'\303\204.Text' A.Text ABCDEFGHIJKLMNOPQRSTUVWXYZ.Text ABCDEFGHIJKLMNOPQRSTUVWXYZ.Texts; do
    try "$tools/hand_in" "$name" file
done

# Files.
mkdir folder
for file in missing '' 'a missing file' folder /proc/self/mem; do try "$tools/hand_in" A.Text "$file"; done
chmod 0 file
cp "$tools/hand_in" .
if [ "$(id -u)" = 0 ]; then
    chmod 755 . hand_in
    try setpriv --reuid 65534 --regid 65534 --clear-groups ./hand_in A.Text file
else
    try ./hand_in A.Text file
fi

# Lengths: of the document, where CR LF is one byte.
for length in 900 901 100000; do
    head -c $length /dev/zero | tr '\0' x > longer
    try "$tools/hand_in" A.Text longer
done
head -c 901 /dev/zero | tr '\0' '\n' | sed 's/$/\r/' > longer
try "$tools/hand_in" A.Text longer

# Bytes: the first one that isn't taken.
printf 'one\ntwo\0three\n' > bytes
try "$tools/hand_in" A.Text bytes
printf 'one\r\ntwo\r\nf\303\274nf\n' > bytes
try "$tools/hand_in" A.Text bytes
printf '\357\273\277one\n' > bytes
try "$tools/hand_in" A.Text bytes
for octal in 001 010 013 014 016 037 177 200 377; do
    printf "$(printf '%0900d' 0 | tr 0 x | head -c 899)\\$octal" > bytes
    try "$tools/hand_in" A.Text bytes
done
printf 'x\r\r\n\ry\f\177' > bytes
try "$tools/hand_in" A.Text bytes

# Standard output.
"$tools/hand_in" A.Text longer > /dev/full
chmod 644 file
"$tools/hand_in" A.Text file > /dev/full
echo $?
"$tools/hand_in" A.Text file >&-
echo $?
