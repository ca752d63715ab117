# Three documents of 80,000 bytes are brought into a store whose disk stops at one call after another. Images that a crash
# then may leave are opened, with stops of their own: each has none of the documents or all three, and all three where
# that was acknowledged.
"$CRASH_SEARCH" bring | sed 's/^[0-9]* stops, [0-9]* second stops: [0-9]* images of none, [0-9]* of all, /images of none and of all, /'
