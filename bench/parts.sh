# Sourced by benches of the program `oberon`, with the folder where a folder of their own is made (the project's, where none is named).
# $top is the project's folder, $folder is the bench's own and gone in the end, and $program is built.
top=$(cd "$(dirname "${BASH_SOURCE[0]}")/.." && pwd)
folder=$(mktemp -d -p "${1:-$top}")
trap 'rm -rf "$folder"' EXIT
"$top/oberon" < /dev/null
program=$top/crates/oberon/out/oberon

# Nanoseconds that a command takes.
took() {
    local begun
    begun=$(date +%s%N)
    "$@"
    echo $(($(date +%s%N) - begun))
}

# The least of the nanoseconds that a command takes in ROUNDS rounds.
fastest() {
    local round
    for round in $(seq "${ROUNDS:-10}"); do took "$@"; done | sort -n | head -n 1
}

# Makes the scripts `one` and `many`: a text of $2 times 900 characters in one piece, and one of 260,000 in 10,000 pieces, since
# a text keeps a piece for each stretch of one look. It stands in a viewer beside a tool text, by which its colour
# changes; there the words $1 stand too. What both begin with is in $begin.
texts_in_one_and_many() {
    local k x
    begin="file System.Tool System.SetColor 1%0dSystem.SetColor 2%0dEdit.Open A$1
point m 60 31 60 31
point m 52 28 52 28
point l 1 30 1 30"
    x=$(head -c 900 /dev/zero | tr '\0' x)
    { echo "$begin"; for k in $(seq "$2"); do echo "type $x"; done; } > one
    {
        echo "$begin"
        for k in $(seq 5000); do
            printf '%s\n' 'point m 52 30 52 30' 'type abcdefghijklmnopqrstuvwxyz'
            printf '%s\n' 'point m 52 29 52 29' 'type abcdefghijklmnopqrstuvwxyz'
        done
    } > many
}
