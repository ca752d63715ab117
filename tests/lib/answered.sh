# shellcheck shell=bash
# Sourced by scripts that cut a play off, and look at what its store holds afterwards. It makes `new.disk`, a store
# whose characters stand in the area, and `events`, a script whose lines are answered by one line each. `shown.N` is
# what such a store shows after the first N of them, as a run in memory has it, and `whole` is the answers.
. "$TESTS/lib/each_call.sh"
. "$TESTS/lib/in_the_area.sh"
{
    printf '%s\n' 'point m 52 30 52 30' 'mark 10 10' 'point l 20 30 20 30' 'key paste' 'point r 51 27 56 27'
    printf '%s\n' 'point m 52 29 52 29' 'point r 51 30 58 29' checkpoint 'point rm 3 30 8 30' 'type x'
    printf '%s\n' 'point m 52 28 52 28' 'point m 47 31 47 31' "file D.Text $(text other)" checkpoint 'key back'
    printf '%s\n' 'point rl 1 30 6 30' 'mark 80 0' 'type after%0d' 'point m 23 31 23 31'
} > events
last=$(grep -c '' events)
looks() { printf '%s\n' list 'show A.Text' 'show B.Text' 'show D.Text' screen; }
"$PROGRAM" format made.disk > said && "$PROGRAM" play made.disk < begin > said || exit 1
cp --sparse=always made.disk new.disk
begun=$(grep -c '' begin)
for number in $(seq 0 "$last"); do
    { cat begin; head -n "$number" events; looks; } | "$PROGRAM" | tail -n +$((begun + number + 1)) > "shown.$number"
done
{ cat begin events; } | "$PROGRAM" | tail -n +$((begun + 1)) > whole

# Plays the events over a copy of the store, desk.disk, under the assignments. The answers are in `got`, and what is said
# on standard error in `said`. Returns the status.
attempt() {
    cp new.disk desk.disk
    env "$@" "$PROGRAM" play desk.disk < events > got 2> said
}

# How many lines of `got` are answers of events and checkpoints.
answered() { grep -cE '^(ok|no [0-9]+)$' got; }

# Whether desk.disk opens and shows what the first $1 events lead to, or one event more where there is a second word. It
# is played on with the events that it doesn't hold, and then shows what all of them lead to.
holds() {
    local held=$1
    looks | "$PROGRAM" play desk.disk > looked || return
    if ! cmp -s looked "shown.$held"; then
        held=$((held + 1))
        [ $# -gt 1 ] && cmp -s looked "shown.$held" || return
    fi
    { tail -n +$((held + 1)) events; looks; } | "$PROGRAM" play desk.disk | tail -n +$((last - held + 1)) \
        | cmp -s - "shown.$last"
}
