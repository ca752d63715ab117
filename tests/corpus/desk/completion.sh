# What bash completes after the word desk: its commands, and the options of each, as its --help has them.
. "$TESTS/../tools/completion"
completed() {
    COMP_WORDS=("$TESTS/../desk" "$@") COMP_CWORD=$#
    _desk "$TESTS/../desk"
    echo "$*: ${COMPREPLY[*]}"
}
completed ''
completed e
for command in import export list backup history earlier forget check picture; do
    completed "$command" --
done
completed export --l
completed my.disk --
completed ../x --
