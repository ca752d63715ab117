# A day of work at a desk that keeps its past, moment by moment. tests/random/day says what is compared.
"$TESTS/random/day" "$(trials 8 3)" "$(trials 200 100)" 2> done | sed 's/^[0-9]* moments/all moments/'
