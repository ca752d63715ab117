# Where a backup, an import or an export takes longer than a second, it is told on a terminal how far it has come, and
# nowhere else. The host's calls are slow here.
cat > slow.c << 'END'
#define _GNU_SOURCE
#include <dlfcn.h>
#include <stdlib.h>
#include <unistd.h>
static void wait_for(const char *call) { const char *slow = getenv(call); if (slow) usleep(atoi(slow)); }
ssize_t pwrite(int f, const void *b, size_t n, off_t o) {
    wait_for("WRITES");
    return ((ssize_t (*)(int, const void *, size_t, off_t))dlsym(RTLD_NEXT, "pwrite"))(f, b, n, o);
}
ssize_t pwrite64(int f, const void *b, size_t n, off_t o) { return pwrite(f, b, n, o); }
int fsync(int f) {
    wait_for("SYNCS");
    return ((int (*)(int))dlsym(RTLD_NEXT, "fsync"))(f);
}
int open64(const char *p, int flags, int mode) {
    wait_for("OPENS");
    return ((int (*)(const char *, int, int))dlsym(RTLD_NEXT, "open64"))(p, flags, mode);
}
int open(const char *p, int flags, int mode) { return open64(p, flags, mode); }
END
cc -shared -fPIC -o slow.so slow.c || exit 1
cat > seen.py << 'END'
# Runs a command of which calls are slow, whose standard error is a terminal, and whose output is a file; what the
# terminal gets is printed, each line once.
import os, pty, re, subprocess, sys
ours, theirs = pty.openpty()
with open('output', 'wb') as output:
    slow = {**os.environ, 'LD_PRELOAD': os.path.abspath('slow.so'), sys.argv[1]: sys.argv[2]}
    done = subprocess.Popen(sys.argv[3:], stdin=subprocess.DEVNULL, stdout=output, stderr=theirs, env=slow)
os.close(theirs)
said = b''
while True:
    try:
        more = os.read(ours, 4096)
    except OSError:
        break
    if not more:
        break
    said += more
lines = re.sub('[0-9]+ ', 'N ', said.decode()).replace('\r', '\n').split('\n')
print(f'status {done.wait()}:', *sorted({it for it in lines if it}))
END
"$PROGRAM" format my.disk
mkdir in
for number in 1 2 3 4 5 6 7 8; do echo $number > in/note$number; done
python3 seen.py OPENS 200000 "$DESK_PROGRAM" import my.disk in
python3 seen.py WRITES 100 "$DESK_PROGRAM" backup my.disk copy.disk
cmp my.disk copy.disk && echo 'a whole copy'
# (on a slow machine reading the store for open texts takes a second too)
python3 seen.py SYNCS 200000 "$DESK_PROGRAM" export my.disk --all out | sed 's/ desk: N of N sectors read//'
diff -r in out && echo 'all out'
rm copy.disk
WRITES=100 LD_PRELOAD=$PWD/slow.so "$DESK_PROGRAM" backup my.disk copy.disk > said 2>&1
grep -c sectors said || true
