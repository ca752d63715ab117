# Random sittings over two files, programs that are killed amid typing over two files, of which either is deleted then, and
# trials of two files of which one fails, or that are no pair. tests/random/sittings says what is compared.
number=$(trials 6 2)
"$TESTS/random/sittings" "$number" 0 twins | sed "s/^$number sittings, /all sittings, /; s/^$number killed /all killed /"
