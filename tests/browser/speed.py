#!/usr/bin/env python3
"""speed.py [KEYS [FILE..]]: how long the start of the page takes, a key to its scene, and pastes of 2,000 and 20,000 characters to
the scene with their last line. After each key a worker of the same page makes the writes and flushes that a key makes, and no
more: three sectors with two flushes, on the next sectors of a file like the store's. Of both, and of their difference, the median
and what 95 of 100 stay below, in ms. Each file is measured in turn, and then each once more."""
import json
import os
import shutil
import sys

import browsers
from browsers import Firefox, room, served

KEYS = int(sys.argv[1]) if len(sys.argv) > 1 else 200
BARE = '''{ const code = `let file, n = 0; const sector = new Uint8Array(1024), write = at => file.write(sector, { at: 1024 * at });
    const ready = navigator.storage.getDirectory().then(folder => folder.getFileHandle("bare", { create: true }))
        .then(it => it.createSyncAccessHandle()).then(it => { file = it; file.truncate(15621 * 1024); });
    onmessage = async () => {
        await ready;
        const began = performance.now();
        write(n + 1); write(n + 2); file.flush(); write(n); file.flush();
        n += 2;
        postMessage(performance.now() - began); };`;
    const worker = new Worker(URL.createObjectURL(new Blob([code])));
    window.bare = () => new Promise(done => { worker.onmessage = event => done(event.data); worker.postMessage(0); }); }'''
# When the desktop was opened (today's page, and the one before it).
STARTED = "window.started || (performance.getEntriesByName('opened')[0] || {startTime: performance.now()}).startTime"
FINE_CLOCK = ['"privacy.reduceTimerPrecision", false']


# From a paste to the scene that shows its last line.
PASTED = '''new Promise(done => {
    const event = new Event('paste', {bubbles: true, cancelable: true}), began = performance.now();
    const look = () => document.getElementById('screen').textContent.includes(%r) ? done(performance.now() - began) : setTimeout(look, 1);
    Object.defineProperty(event, 'clipboardData', {value: {getData: () => %r}});
    document.getElementById('keys').dispatchEvent(event);
    look();
})'''


def of(times):
    times = sorted(times)
    return f'{times[len(times) // 2]:.2f} {times[len(times) * 95 // 100]:.2f}'


def measured(one, profile):
    page = one(profile, *(FINE_CLOCK if one is Firefox else []))
    page.begin(served())
    start = page.js(STARTED)
    page.call('Edit.Open', 50)
    page.click(2, 1)
    page.js(BARE)
    page.js('bare()', wait=True)
    bare, count = [], page.js('tried.times.length')
    for i in range(KEYS):
        page.type('\r' if i % 30 == 29 else 'a')
        bare.append(page.js('bare()', wait=True))
    keys = json.loads(page.js(f'JSON.stringify(tried.times.slice({count}))'))
    pastes = []
    for size in (2_000, 20_000):
        last = f'end of {size}'
        text = '\n' + 'a line of a letter, as one pastes it,\n' * (size // 38) + last
        pastes.append(f'{page.js(PASTED % (last, text), wait=True):.0f}')
    page.quit()
    more = [key - alone for key, alone in zip(keys, bare, strict=True)]
    print(f'{one.__name__}: start {start:.0f} ms; key to its scene {of(keys)}; bare {of(bare)}; more {of(more)}; '
          f'pastes {" ".join(pastes)}', flush=True)


kinds = browsers.browsers()
if not kinds:
    sys.exit(print('no browser here: skipped'))
files = sys.argv[2:] or [browsers.FILE]
for one in kinds:
    for file in files * min(2, len(files)):
        browsers.FILE = file                      # (which `served` copies)
        print(f'{file}: {os.path.getsize(file)} bytes')
        where = room()
        measured(one, where)
        page = one(where)
        page.begin(served())
        print(f'{one.__name__}: start over a store that is there {page.js(STARTED):.0f} ms', flush=True)
        page.quit()
        shutil.rmtree(where, ignore_errors=True)
