# In no program a large frame is made behind something that is read: LLVM's loop for it spoils a register (large_frames).
"$TESTS/lib/large_frames" "$PROGRAM" "$DESK_PROGRAM"
