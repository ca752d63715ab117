# Random sittings with Ctrl-Z and Ctrl-Y, and scripts with undos. tests/random/undos says what is compared.
sittings=$(trials 3 1)
scripts=$(trials 25 4)
"$TESTS/random/undos" "$sittings" "$scripts" | sed "s/^$sittings sittings /all sittings /; s/^$sittings walks /all walks /; s/^$scripts scripts /all scripts /"
