# docs/desk.html is made again from these sources, byte by byte.
"$TESTS/../tools/page" --check
