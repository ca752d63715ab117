# What the right button extends with Shift or Alt. tests/lib/extending says what is tried.
"$TESTS/lib/extending"
