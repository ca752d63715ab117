# Over 5,000 images that crashes of a store may leave, or 300. Opening each is stopped in its turn, at one call after another,
# and what is opened in the end shows the desktop before the call that the crash stopped, or the one after it.
"$CRASH_SEARCH" "$(trials 5000 300)" | sed 's/^[0-9]* images, [0-9]* second stops, /images, second stops, /'
