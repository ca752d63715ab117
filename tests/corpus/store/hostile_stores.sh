# Stores that nobody made: what opens must play and reopen, what does not must be refused, and nothing else may happen. Of how
# many open the number is known for all trials alone.
all='2000 stores, 842 opened, 1158 refused, '
number=$(trials 2000 200)
[ "$number" = 2000 ] && few="$all" || few="$number stores, [0-9]* opened, [0-9]* refused, "
"$TESTS/random/hostile" "$number" | sed "s/^$few/$all/"
