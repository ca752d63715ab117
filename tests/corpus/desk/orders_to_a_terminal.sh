# A document whose bytes a terminal would take for orders: somebody has written them into the store's file. A terminal
# gets question marks in their place, and a pipe the bytes as they are.
"$PROGRAM" format my.disk
printf 'one QQQQ two\tthree\n' > A.Text
"$DESK_PROGRAM" import my.disk A.Text
python3 - << 'END'
data = open('my.disk', 'rb').read()
assert data.count(b'QQQQ') == 1
open('my.disk', 'wb').write(data.replace(b'QQQQ', b'\x1b]\x07\x9b'))
END
"$DESK_PROGRAM" export my.disk A.Text | od -An -c
python3 -c '
import os, pty, sys
seen = []
def read(terminal):
    data = os.read(terminal, 1024)
    seen.append(data)
    return b""
pty.spawn([os.environ["DESK_PROGRAM"], "export", "my.disk", "A.Text"], read)
print(b"".join(seen))' < /dev/null
