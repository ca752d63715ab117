# Desks with a past and without one, by the same keys. tests/random/alike says what is tried.
number=$(trials 10 3)
"$TESTS/random/alike" "$number" 2> /dev/null | sed "s/^$number pairs of desks, /all pairs of desks, /"
