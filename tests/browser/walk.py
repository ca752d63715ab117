#!/usr/bin/env python3
"""walk.py [FOLDER]: the walk of docs/SIT-DOWN.md in each browser, with pictures in the folder; then a paste, copying, a chord,
undo, the buttons for a mouse with one button, how keys are told, the pointer that keys move, documents in and out, the store saved and opened again, and another start. The file
that was saved, and the one that the browser keeps, go to `./oberon check` and `./desk picture`, where these are built."""
import base64
import json
import os
import shutil
import subprocess
import sys

from browsers import ROWS, TOP, browsers, room, served

PICTURES = sys.argv[1] if len(sys.argv) > 1 else None
LINE = "document.getElementById('line').textContent"
PASTE = '''(event => {
    Object.defineProperty(event, 'clipboardData', {value: {getData: () => %r}});
    document.getElementById('keys').dispatchEvent(event);
})(new Event('paste', {bubbles: true, cancelable: true}))'''
SAVED = '''new Promise(done => {
    const old = URL.createObjectURL;
    HTMLAnchorElement.prototype.click = () => {};
    URL.createObjectURL = blob => {
        URL.createObjectURL = old;
        blob.arrayBuffer().then(buffer => {
            const bytes = new Uint8Array(buffer);
            let s = '';
            for (let i = 0; i < bytes.length; i += 30000) s += String.fromCharCode(...bytes.subarray(i, i + 30000));
            done(btoa(s));
        });
        return old.call(URL, blob);
    };
    %s; })'''
FILE = '''(() => {
    const files = [new File([%r], %r)];
    dispatchEvent(Object.assign(new Event('drop', {cancelable: true}), {dataTransfer: { files }}));
})()'''
LOAD = '''(() => {
    const sectors = %s, files = new DataTransfer(), input = document.getElementById('load');
    const all = new Uint8Array(1024 * (sectors.at(-1)[0] + 1));
    for (const [n, bytes] of sectors) all.set(Uint8Array.from(atob(bytes), c => c.charCodeAt(0)), 1024 * n);
    files.items.add(new File([all], 'my.disk'));
    window.confirm = () => true;
    input.files = files.files;
    input.dispatchEvent(new Event('change'));
})()'''

# What is pressed with Shift (1), Alt (2) and Ctrl (4), and the bytes that the page tells of it; none where the key stays the
# browser's.
TOLD = [('a', 0, 'a'), ('A', 1, 'A'), ('s', 4, '\x13'), ('c', 4, ''), ('s', 5, ''), ('5', 4, ''), ('2', 2, '\x1b2'), (' ', 2, '\x1b '),
        ('z', 2, '\x1bz'), ('Tab', 0, '\t'), ('Enter', 0, '\r'), ('Backspace', 0, '\x7f'), ('Escape', 0, '\x1b'),
        ('Delete', 0, '\x1b[3~'), ('F2', 0, '\x1bOQ'), ('F11', 0, '\x1b[23~'), ('F12', 0, ''), ('ArrowLeft', 0, '\x1b[D'),
        ('ArrowLeft', 1, '\x1b[1;2D'), ('ArrowLeft', 2, '\x1b[1;3D'), ('ArrowLeft', 4, '\x1b[1;5D'), ('Home', 4, '\x1b[1;5H'),
        ('PageUp', 2, '\x1b[5;3~'), ('Shift', 1, ''), ('p', 4, '\x10'), ('d', 4, ''), ('u', 4, '\x15'), ('F5', 0, ''), ('\u00e9', 0, '\u00e9')]
KEY = """pressed(new KeyboardEvent('keydown', {key: %r, shiftKey: %d, altKey: %d, ctrlKey: %d}))"""


def same(what, got, wanted):
    if got != wanted:
        sys.exit(f'{what}: {got!r}, and not {wanted!r}')
    print(f'  {what}: ok')


def checked(store, what):
    """What the native programs, proved or as the sources stand, say of a store."""
    for program, words in (('oberon', ['check']), ('desk', ['picture'])):
        for built in (f'crates/{program}/out/{folder}{program}' for folder in ('', 'unproved/')):
            if os.path.exists(f'{TOP}/{built}'):
                ran = subprocess.run([f'{TOP}/{built}', *words, store], stdout=subprocess.PIPE, check=False)
                good = ran.returncode == 0 and (words == ['check'] or b'World' in ran.stdout)
                same(f'{what}: {built} {words[0]}', good, True)


def kept_by(profile, store):
    """The file in which the browser keeps the store: it begins as the store does."""
    for folder, _, files in os.walk(profile):
        for name in files:
            path = os.path.join(folder, name)
            if name != 'my.disk' and os.path.isfile(path):
                with open(path, 'rb') as file:
                    if file.read(1024) == store[:1024]:
                        return path
    return sys.exit('the file in which the browser keeps the store is not found')


def walk(kind, url, profile):
    page = kind(profile)
    print(kind.__name__, page.begin(url), page.js('navigator.userAgent.split(" ").at(-1)'), 'ready after',
          round(page.js("performance.getEntriesByName('opened')[0].startTime")), 'ms')
    shot = lambda name: PICTURES and page.shot(f'{PICTURES}/{kind.__name__.lower()}-{name}.png')
    shot('1-begin')
    page.call('Edit.Open', 50)                                   # Edit.Open A.Text
    same('a viewer opens', page.text(0, 50)[0].split(' |')[0], 'A.Text')
    page.click(2, 1)
    page.type('Hello World\r')
    same('typed', page.text(1, 50)[0 if page.text(1, 50)[0].startswith('Hello') else 1], 'Hello World')
    same('the line says that it is not stored', page.js(LINE).startswith("A.Text isn't stored: Ctrl-S stores"), True)
    page.js(FILE % ('Hello World\n', 'A.Text'))
    page.wait(1)
    same('and no more once the document has it', "isn't stored" in page.js(LINE), False)
    page.press(7, 1, 'right')
    page.release(11, 1, 'right')
    page.wait(2)
    page.call('Edit.ChangeColor', 50)
    blue = 'getComputedStyle([...document.querySelectorAll("#screen text")].find(t => t.textContent.startsWith("World"))).fill'
    page.until('[...document.querySelectorAll("#screen text")].some(t => t.textContent.startsWith("World"))')
    print('  the colour of World:', page.js(blue))
    page.click(48, 0, 'middle')                                  # Edit.Store, as far as there is room
    page.call('System.OpenLog', 50)
    same('the log', any('Edit.Store A.Text 12' in row for row in page.text(50)), True)
    shot('2-walk')
    page.call('System.Close', 0, 50)
    same('the viewer is gone', any('Hello' in row for row in page.text(0, 50)), False)
    page.call('Edit.Open', 50)
    same('and opened again', any('World' in row for row in page.text(0, 50)), True)
    page.click(8, 3)
    page.js(PASTE % 'pasted\ntext\n')
    page.wait(1)
    same('a paste', [row for row in page.text(1, 50) if row.startswith(('pasted', 'text'))], ['pasted', 'text'])
    x, y = page.find('text', 1, 50)
    page.press(x, y, 'right')
    page.release(x + 3, y, 'right')
    page.wait(2)
    page.control('c')
    page.click(8, y + 1)
    page.control('v')
    same('copied and put in', [row for row in page.text(1, 50) if 'text' in row], ['text', 'text'])
    x, y = page.find('pasted', 1, 50)
    page.press(x, y, 'right')
    page.press(x + 5, y, 'left', held=3)
    page.release(x + 5, y, 'left', held=2)
    page.release(x + 5, y, 'right')
    page.wait(4)
    same('right with left deletes', any('pasted' in row for row in page.text(1, 50)), False)
    page.control('z')
    same('Ctrl-Z takes it back', any('pasted' in row for row in page.text(1, 50)), True)
    print('  the line says:', page.js(LINE))
    page.control('y')
    same('Ctrl-Y does it again', any('pasted' in row for row in page.text(1, 50)), False)
    page.js('document.querySelector("#bar [data-key=F2]").click()')
    page.wait(1)
    same('the line below', page.js(LINE), 'the next click calls the word there; Escape calls it off')
    x, y = page.find('System.Directory', 50)
    page.click(x + 1, y, 'left')
    same('one button calls', any('A.Text' in row for row in page.text(50, 80)), True)
    page.click(2, 1, 'middle')
    same('a refusal', page.js(LINE).startswith("That word isn't a command"), True)
    for key, held, bytes_told in TOLD:
        told = page.js(KEY % (key, held & 1, held & 2, held & 4))
        if told != bytes_told:
            sys.exit(f'{key!r} with {held} is told as {told!r}')
    print('  keys are told as a terminal tells them: ok')
    for key, is_shown in (('F11', True), ('ArrowDown', True), ('Escape', False)):
        page.js(f"document.getElementById('keys').dispatchEvent(new KeyboardEvent('keydown', {{key: '{key}'}}))")
        page.wait(1)
        same(f'the pointer after {key}', page.js('Boolean(document.getElementById("pointer"))'), is_shown)
    page.js(FILE % ('dropped\r\nlines\n', 'Drop-ped.Text'))
    page.wait(0)
    page.until('document.getElementById("note").textContent.includes("Dropped.Text")')
    page.js('void (window.prompt = () => "Dropped.Text")')
    got = base64.b64decode(page.js(SAVED % 'document.getElementById("export-link").click()', wait=True)).decode()
    same('brought in and given out', got, 'dropped\nlines\n')
    store = base64.b64decode(page.js(SAVED % 'document.getElementById("save-link").click()', wait=True))
    same('the store is saved with its past', len(store) > (15623 + 15621) * 1024 and len(store) % 1024 == 0, True)
    with open(f'{profile}/my.disk', 'wb') as file:
        file.write(store)
    checked(f'{profile}/my.disk', 'saved')
    before = page.rows()
    page.type('lost')
    sectors = [(n, store[n * 1024:n * 1024 + 1024]) for n in range(len(store) // 1024)]
    page.js(LOAD % json.dumps([[n, base64.b64encode(sector).decode()] for n, sector in sectors if any(sector)]))
    page.until(f'{ROWS} == {before!r}')
    print('  the store that was saved is there again: ok')
    page.quit()
    page = kind(profile)
    page.begin(url)
    same('and after another start', page.rows(), before)
    shot('3-again')
    page.quit()
    checked(kept_by(profile, store), 'kept')


kinds = browsers()
if not kinds:
    sys.exit(print('no browser here: skipped'))
for one in kinds:
    where = room()
    walk(one, served(), where)
    shutil.rmtree(where, ignore_errors=True)
print('done')
