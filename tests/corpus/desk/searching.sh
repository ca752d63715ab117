# Words that are asked for and sought, onward and backward, in a text that is in sight and in one that isn't. tests/lib/searching says
# what is tried.
"$TESTS/lib/searching"
