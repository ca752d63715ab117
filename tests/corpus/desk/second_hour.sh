# The clipboard of the terminal, a second click, a search round the end, a change of looks. tests/lib/second_hour says what is tried.
"$TESTS/lib/second_hour"
