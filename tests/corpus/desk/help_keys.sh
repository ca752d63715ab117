# Each sentence of the document Help, by a person who does what it says. tests/lib/help_keys says what is tried.
"$TESTS/lib/help_keys"
