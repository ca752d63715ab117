# How sittings at a pseudo terminal begin and end. tests/random/sittings says what is tried.
number=$(trials 20 3)
"$TESTS/random/sittings" --ends "$number" | sed "s/^$((62 + number)) beginnings and ends, /all beginnings and ends, /"
