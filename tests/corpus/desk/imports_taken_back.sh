# Imports are taken back and done again at a desk with a past, also after a kill, and not without one. tests/lib/imports_taken_back
# says what is pressed.
"$TESTS/lib/imports_taken_back"
