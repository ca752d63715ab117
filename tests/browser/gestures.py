#!/usr/bin/env python3
"""gestures.py [GESTURES [SEED]]: random gestures go to the module of docs/desk.html, in a browser, and to the native library that
the kit makes of the same sources (tools/page --native). After each of them status, calls of the disk, drawing, line, bell,
leaving and pointer have to be the same."""
import base64
import ctypes
import json
import random
import re
import subprocess
import sys
import tempfile
import zlib

from browsers import FILE, TOP, browsers, room

COUNT = int(sys.argv[1]) if len(sys.argv) > 1 else 10000
random.seed(int(sys.argv[2]) if len(sys.argv) > 2 else 1)
WORDS = ['System.Open ', 'System.OpenLog', 'Edit.Open A.Text', 'Edit.Store', 'System.Grow', 'System.Copy', 'System.Close',
         'Edit.Search', 'System.Directory', 'Edit.Locate', 'System.Recall', 'Hello', '^', '"x"', 'A.Text']
FUNCTIONS = ['\x1bOP', '\x1bOQ', '\x1bOR', '\x1bOS', '\x1b[15~', '\x1b[17~', '\x1b[18~', '\x1b[19~', '\x1b', '\x1b[A',
             '\x1b[B', '\x1b[C', '\x1b[D', '\x1b[5~', '\x1b[6~', '\x1b[H', '\x1b[F', '\t', '\x7f', '\x03', '\x07', '\x0f',
             '\x19', '\x1a', '\x18']
RUN = '''(async () => {
    const code = Uint8Array.from(atob(%r), c => c.charCodeAt(0)), gestures = %s, out = [], table = new Int32Array(256);
    for (let n = 0; n < 256; n++) {
        let c = n;
        for (let k = 0; k < 8; k++) c = c & 1 ? 0xedb88320 ^ (c >>> 1) : c >>> 1;
        table[n] = c;
    }
    const crc = bytes => { let c = -1; for (const b of bytes) c = table[(c ^ b) & 255] ^ (c >>> 8); return ~c >>> 0; };
    const m = (await WebAssembly.instantiate(code, {})).instance.exports, memory = () => new Uint8Array(m.memory.buffer);
    const place = bytes => { const at = m.page_room(BigInt(bytes.length + 8)); memory().set(bytes, Number(at)); return at; };
    const held = place(new Uint8Array(8)), to = m.page_room(BigInt(1 << 22));
    m.page_start(held);
    m.page_begin(held, 1);
    const copied = kind => Number(to) + Number(m.page_copy(held, kind, to, BigInt(1 << 22)));
    const made = kind => { const end = copied(kind); return crc(memory().subarray(Number(to), end)); };
    for (const gesture of gestures) {
        const bytes = Uint8Array.from(gesture, c => c.charCodeAt(0)), at = place(bytes);
        const status = ['look', 'forget'].includes(gesture) ? m['page_' + gesture](held) : m.page_press(held, at, BigInt(bytes.length));
        m.page_give_back(at);
        out.push([status, made(0), made(1), made(2), m.page_rings(held), m.page_leaves(held), m.page_looks(held), m.page_pointer(held)]);
    }
    return JSON.stringify(out); })()'''


def gesture():
    kind, x, y = random.random(), random.randint(1, 80), random.randint(1, 32)
    mouse = lambda code, end, x=x, y=y: f'\x1b[<{code};{x};{y}{end}'
    if kind < 0.35:
        code = random.choice([0, 1, 1, 1, 2])
        return mouse(code, 'M') + mouse(code, 'm')
    if kind < 0.45:
        first, second = random.sample([0, 1, 2], 2)
        return mouse(first, 'M') + mouse(second, 'M') + mouse(second, 'm') + mouse(first, 'm')
    if kind < 0.5:
        return mouse(2, 'M') + mouse(2, 'm', random.randint(1, 80), random.randint(1, 32))
    if kind < 0.55:
        return mouse(random.choice([64, 65]), 'M')
    if kind < 0.65:
        return random.choice(FUNCTIONS)
    if kind < 0.7:
        return '\x1b[200~' + ''.join(random.choice('abc \r\n\t') for _ in range(random.randint(0, 60))) + '\x1b[201~'
    if kind < 0.71:
        return 'look' if kind < 0.709 else 'forget'
    if kind < 0.73:
        return ''.join(chr(random.randint(0, 255)) for _ in range(random.randint(1, 6))).replace('\x11', '')
    if kind < 0.85:
        return random.choice(WORDS) + '\r'
    return random.choice('abcdefghijklmnopqrstuvwxyz .,\r')


def natively(gestures):
    with tempfile.TemporaryDirectory() as folder:
        subprocess.run([f'{TOP}/tools/page', '--native', f'{folder}/page.so'], check=True)
        library = ctypes.CDLL(f'{folder}/page.so')
    place, size = ctypes.c_void_p, ctypes.c_size_t
    library.page_press.argtypes, library.page_begin.argtypes = [place, ctypes.c_char_p, size], [place, ctypes.c_uint32]
    library.page_start.argtypes = library.page_look.argtypes = library.page_looks.argtypes = library.page_forget.argtypes = [place]
    calls = {'look': library.page_look, 'forget': library.page_forget}
    library.page_copy.argtypes, library.page_copy.restype = [place, ctypes.c_uint32, place, size], size
    library.page_rings.argtypes = library.page_leaves.argtypes = library.page_pointer.argtypes = [place]
    held, to = ctypes.byref(ctypes.c_uint64(0)), ctypes.create_string_buffer(1 << 22)
    library.page_start(held)
    library.page_begin(held, 1)
    for one in gestures:
        made = [calls[one](held) if one in calls else library.page_press(held, one.encode('latin1'), len(one))]
        for kind in range(3):
            made.append(zlib.crc32(ctypes.string_at(to, library.page_copy(held, kind, to, 1 << 22))))
        yield made + [call(held) for call in (library.page_rings, library.page_leaves, library.page_looks, library.page_pointer)]


kinds = browsers()
if not kinds:
    sys.exit(print('no browser here: skipped'))
with open(FILE, encoding='utf-8') as file:
    packed = base64.b64decode(re.search(r'id="wasm">\s*(\S+)\s*<', file.read())[1], b'._')
module = base64.b64encode(zlib.decompress(packed, -15)).decode()
all_gestures = [gesture() for _ in range(COUNT)]
wanted = list(natively(all_gestures))
for one in kinds:
    page = one(room())
    page.go('about:blank')
    got = json.loads(page.js(RUN % (module, json.dumps(all_gestures)), wait=True))
    page.quit()
    for i, (left, right) in enumerate(zip(got, wanted, strict=True)):
        if left != right:
            sys.exit(f'{one.__name__}, gesture {i}, {all_gestures[i]!r}: {left} and natively {right}')
    scenes, rang = len({tuple(it[1:3]) for it in got}), sum(it[4] for it in got)
    print(f'{one.__name__}: {COUNT} gestures, the same; {scenes} scenes, {rang} rang')
