# Stores of both older versions (tests/lib/old_stores): each opens and shows the same, is as it was while it is only looked at,
# and becomes one of the newest version by one checkpoint, with the same screen. Its first event has the same effect.
for version in 1 2; do
    echo "version $version"
    gzip -dc "$TESTS/lib/old_stores/version_$version.gz" > old.disk
    cp old.disk desk.disk
    look() {
        "$OBERON" check desk.disk
        "$OBERON" screen desk.disk | cmp - "$TESTS/lib/old_stores/version_$version.screen" && echo 'the same screen'
    }
    look
    echo list | "$OBERON" play desk.disk
    cmp old.disk desk.disk && echo 'the file is as it was'
    echo checkpoint | "$OBERON" play desk.disk
    look
    echo list | "$OBERON" play desk.disk
    cp old.disk desk.disk
    echo 'mark 20 12' | "$OBERON" play desk.disk
    look
done
