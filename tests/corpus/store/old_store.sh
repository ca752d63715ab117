# A store that an older program made, with heads of version 1 (tests/lib/old_stores): it opens and shows the same, is as it was
# while it is only looked at, and becomes a store of the newest version at its first event or checkpoint.
old() { gzip -dc "$TESTS/lib/old_stores/version_1.gz" > desk.disk; }
look() {
    "$OBERON" check desk.disk
    "$OBERON" screen desk.disk | cmp - "$TESTS/lib/old_stores/version_1.screen" && echo 'the same screen'
}
heads() { for at in 2 4; do od -An -v -tu4 --endian=big -j $((at * 1024)) -N 20 desk.disk; done; }
old
look
heads
printf '%s\n' list 'show A.Text' 'show B.Text' 'show D.Text' screen | "$OBERON" play desk.disk
gzip -dc "$TESTS/lib/old_stores/version_1.gz" | cmp - desk.disk && echo 'the file is as it was'
echo 'an event'
echo 'mark 20 12' | "$OBERON" play desk.disk
look
heads
echo 'a checkpoint'
old
echo checkpoint | "$OBERON" play desk.disk
look
heads
echo 'System.Collect, which the journal calls in vain, by the first event'
old
printf '%s\n' 'point m 52 26 52 26' list 'show B.Text' | "$OBERON" play desk.disk
look
echo checkpoint | "$OBERON" play desk.disk
look
heads
