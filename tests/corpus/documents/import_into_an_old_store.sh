# A store that an older program made becomes one of the newest version by an import that brings something, and by none that is
# refused, is only tried, or brings nothing new: after these it is byte for byte as it was.
head -c 262000 /dev/zero | tr '\0' x > long
echo other > A.Text
for version in 1 2; do
    gzip -dc "$TESTS/lib/old_stores/version_$version.gz" > my.disk
    cp my.disk old.disk
    try() {
        "$DESK_PROGRAM" import "$@"
        echo "= $?"
        cmp old.disk my.disk && echo 'as it was'
    }
    try my.disk A.Text
    try my.disk 'New.Text=A.Text' long
    try --dry-run my.disk 'New.Text=A.Text'
    "$DESK_PROGRAM" export my.disk A.Text > same
    try my.disk A.Text=same
    "$DESK_PROGRAM" import my.disk 'New.Text=A.Text'
    "$PROGRAM" check my.disk
    "$DESK_PROGRAM" export my.disk New.Text A.Text | cmp - <(cat A.Text same) && echo 'the documents are there'
done
