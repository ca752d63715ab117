# The line below says that a text isn't stored, and it is asked before its document is opened once more. tests/lib/unstored says what
# is tried.
"$TESTS/lib/unstored"
