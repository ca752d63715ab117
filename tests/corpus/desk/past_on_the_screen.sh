# The past on the screen: moments back and forth, a kill amid it, words that went from the screen, keys that are typed ahead,
# a turn back, a copy that Ctrl-V types, and a store that keeps no past. tests/lib/past_on_the_screen says what is pressed.
"$TESTS/lib/past_on_the_screen"
