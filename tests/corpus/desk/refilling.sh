# The paragraph of the caret is filled by a key, and by Ctrl-Z it is as it was. tests/lib/refilling says what is tried.
"$TESTS/lib/refilling"
