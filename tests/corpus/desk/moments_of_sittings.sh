# Random sittings at a desk that keeps its past, against a reader of the store's file. tests/random/pasts says what is compared.
number=$(trials 4 1)
"$TESTS/random/pasts" "$number" 2> moments | sed "s/^$number sittings /all sittings /"
count 'moments of pasts' "$(sed -n 's/ moments$//p' moments)"
