# tools/package: the package installed into an empty root by dpkg, the programs run from there, and removed again. Where the
# command dpkg isn't, nothing is tried.
command -v dpkg > /dev/null || { cat "${0%.sh}.out" && exit; }
tools=$TESTS/../tools
export LC_ALL=C

mkdir packages root
package=$("$tools/package" packages)
ls packages | sed 's/_1+[0-9]\{8\}[^_]*_/_VERSION_/'
dpkg-deb --contents "$package" | sed 's/ \{1,\}[0-9]* [0-9-]* [0-9:]* / /'
dpkg-deb --field "$package" Package Architecture
"$tools/package" . | sed 's/_1+[0-9]\{8\}[^_]*_/_VERSION_/'
cmp "$package" "${package##*/}" && echo 'made again it is the same'

echo '== installed'
mkdir -p root/var/lib/dpkg/{info,updates}
: > root/var/lib/dpkg/status
: > root/var/lib/dpkg/available
find root -type d | sort > before
manage() { dpkg --root="$PWD/root" --force-depends --force-not-root --force-script-chrootless "$@" > printed 2>&1 || cat printed; }
manage --install "$package"
find root/usr -type f -printf '%M %P\n' | sort -k 2
PATH=$PWD/root/usr/bin:$PATH
oberon < "$TESTS/corpus/events/hello.in"
oberon format my.disk
desk import my.disk A.Text="$TESTS/corpus/events/hello.in" && desk export my.disk A.Text | head -n 1
desk --version | sed 's/commit [0-9a-f]*\( and changes since\)\{0,1\}/commit C/; s/no commit/commit C/; s/by .*/by a kit/'
cmp root/usr/bin/oberon "$TESTS/../crates/oberon/out/oberon"
cmp root/usr/libexec/nealtsjom/desk "$TESTS/../crates/desk/out/desk"
[ "$(sed -n 's/^program desk: //p' root/usr/share/nealtsjom/provenance)  -" = "$(sha256sum < root/usr/libexec/nealtsjom/desk)" ] &&
    echo 'the sum is that of the program'
for page in oberon desk; do
    gzip -dc root/usr/share/man/man1/$page.1.gz | cmp - "$TESTS/../docs/$page.1"
    ! command -v man > /dev/null || man -M "$PWD/root/usr/share/man" $page | grep -q 'Oberon desktop' || echo "$page is not shown"
done
(
    . root/usr/share/bash-completion/completions/desk
    COMP_WORDS=(desk pi) COMP_CWORD=1
    _desk desk
    echo "desk pi: ${COMPREPLY[*]}"
)

echo '== removed'
manage --remove nealtsjom
manage --purge nealtsjom
[ ! -e root/usr ] && echo 'nothing is left'

echo '== refusals'
"$tools/package" --help; echo "$?"
"$tools/package" missing; echo "$?"
(trap '' XFSZ; ulimit -f 4; "$tools/package" packages 2>&1; echo "$?") | cat
ls packages | grep -c .
