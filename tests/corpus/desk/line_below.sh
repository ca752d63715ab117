# What the line below says: why a file of the host isn't typed, where the home folder is, how many characters became question
# marks, and what is left of each sentence in narrow windows. tests/lib/line_below says what is tried.
"$TESTS/lib/line_below"
