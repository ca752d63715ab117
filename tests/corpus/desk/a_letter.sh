# A letter, as a person writes it who sees nothing but the screen. tests/lib/letter says what is tried.
"$TESTS/lib/letter"
