# Each command of README.md and of docs/SIT-DOWN.md, as it stands there.
"$TESTS/lib/pages"
