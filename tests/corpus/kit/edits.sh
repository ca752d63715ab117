# Each edit of a wrong body, and each mistake, finds the lines that it is to change: where code was moved or renamed none is lost
# in silence.
"$TESTS/wrong_bodies" --read
"$TESTS/mistakes/run" --read
