# What the program desk takes as arguments: each command with too few words, with too many, with options before and behind,
# and with what it doesn't know. Where the words name no order nothing is done, and the status is 2.
"$PROGRAM" format my.disk
echo text > A.Text
echo more > B.Text
try() {
    "$DESK_PROGRAM" "$@" < /dev/null > printed 2> said
    echo "$*: $?, $(grep -c . printed) printed, $(cut -c 1-12 said | head -n 1)" | tr '\377' '?'
}
try
try nothing
try --help
try --version
try help
for command in sit picture import export list backup check history earlier forget; do
    try $command
    try $command my.disk --nothing
    try $command --path my.disk
done
for command in picture list check history; do
    try $command my.disk
    try $command my.disk my.disk
    try $command missing.disk
    try $command --json my.disk
done
try list my.disk --json
try list --json=yes my.disk
try sit x
try sit 70000
try sit -1
try sit 33 my.disk my.disk
try sit 33 --unproved my.disk
try sit --unproved 33 my.disk
try import my.disk
try import my.disk A.Text
try import my.disk B.Text A.Text --replace
try import --replace --ascii my.disk B.Text --fill 20 --dry-run
try import my.disk --fill
try import my.disk --fill 0 A.Text
try import my.disk --fill 256 A.Text
try import my.disk --fill=20 --replace A.Text
try import my.disk --fill 20 --fill 30 A.Text
try import my.disk --replace --replace A.Text
try import my.disk --collect --replace A.Text
try import my.disk -- --replace
try export my.disk
try export my.disk A.Text
try export my.disk A.Text B.Text
try export my.disk A.Text --all out
try export my.disk --all out
try export my.disk --all
try export --all out --join --replace my.disk
try backup my.disk
try backup my.disk copy.disk
try backup my.disk copy.disk more
try backup --without-past my.disk alone.disk
try backup my.disk other.disk --without-past --without-past
try backup --without-past my.disk
try earlier my.disk 1
try earlier my.disk x earlier.disk
try earlier my.disk -1 earlier.disk
try earlier my.disk 4294967296 earlier.disk
try earlier my.disk 0 earlier.disk
try earlier my.disk $'\xff' earlier.disk
ls
