# What a crash may leave of the bytes of a store's file, drawn from the calls that the program was seen to make: the
# program opens each image, and shows a desktop of before or after the event that was under way (tests/crash/torn).
number=$(trials 300 60)
python3 "$TESTS/crash/torn" "$number" 1 | sed "s/^$number images/all images/; s/, [0-9]* of the later/, some of the later/"
