# Keys that select and cut, by a person without a mouse. tests/lib/selecting says what is tried.
"$TESTS/lib/selecting"
