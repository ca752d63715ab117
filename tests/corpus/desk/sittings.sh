# Random sittings at a pseudo terminal. tests/random/sittings says what is compared. The fifth one has the smallest window.
number=$(trials 10 5)
"$TESTS/random/sittings" "$number" | sed "s/^$number sittings, /all sittings, /"
