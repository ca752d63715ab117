#!/usr/bin/env python3
"""shots.py FOLDER: pictures to look at, of each browser: a window of 1366 by 633, one of 1920 by 1080 at 200 %, a phone of 320 by
568, dark surroundings, and a store that is damaged with its ways out. Printed is what a screen reader is given of two viewers."""
import os
import shutil
import sys

from browsers import Chromium, browsers, room, served

FOLDER = sys.argv[1]
SIZES = [('1366x633', 1366, 633, 1, False), ('1920x1080', 960, 540, 2, False), ('320x568', 320, 568, 2, True)]
# What spoils the first sectors of the store that the browser keeps, while no page has it open.
SPOIL = '''(async () => {
    const folder = await navigator.storage.getDirectory();
    for await (const [name, file] of folder.entries()) if (file.kind === 'file') {
        const to = await file.createWritable({ keepExistingData: true });
        await to.write({ type: 'write', position: 1024, data: new Uint8Array(4096) });
        await to.close();
    }
    return 'spoiled';
})()'''


def measures(page):
    """How large a cell is, and how much of the window the display fills."""
    return page.js('''(box => `a cell of ${(box.width / 80).toFixed(1)} by ${(box.height / 32).toFixed(1)} pixels; the display has
        ${Math.round(100 * Math.min(box.width, innerWidth) / innerWidth)} % of the width and
        ${Math.round(100 * Math.min(box.height, innerHeight) / innerHeight)} % of the height of ${innerWidth}x${innerHeight}; `
        + `the page is ${document.documentElement.scrollWidth}x${document.documentElement.scrollHeight}`)
        (document.getElementById("screen").getBoundingClientRect())''').replace('\n        ', ' ')


def tree(page):
    """The tree of what is told, a line for each node that isn't left out, as the browser has it."""
    if not isinstance(page, Chromium):
        return page.told()
    nodes = page.ask('Accessibility.getFullAXTree')['nodes']
    return '\n'.join(f'    {node["role"]["value"]}: {node.get("name", {}).get("value", "")[:100]!r}'
                     + ''.join(f' {it["name"]}={it["value"].get("value")}' for it in node.get('properties', ()))
                     for node in nodes if not node['ignored'] and node['role']['value'] not in ('InlineTextBox', 'StaticText'))


def shots(kind):
    profile, address, name = room(), served(), kind.__name__
    page = kind(profile)
    page.begin(address, plain=False)
    for size, width, height, scale, mobile in SIZES:
        page.sized(width, height, scale, mobile)
        page.js('new Promise(done => setTimeout(done, 400))', wait=True)
        print(f'{name} {size}: {measures(page)}', flush=True)
        page.shot(f'{FOLDER}/{name}-{size}.png')
    page.sized(1366, 633)
    page.dark()
    page.js('new Promise(done => setTimeout(done, 400))', wait=True)
    page.shot(f'{FOLDER}/{name}-dark.png')
    page.call('System.OpenLog', 50)
    page.js('new Promise(done => setTimeout(done, 1500))', wait=True)
    print(f'{name}, what a screen reader is given:\n{tree(page)}', flush=True)
    page.quit()
    page = kind(profile)
    page.go(address.replace('desk.html', 'none.html'))
    page.js('new Promise(done => setTimeout(done, 1500))', wait=True)
    print(f'{name}:', page.js(SPOIL, wait=True))
    print(f'{name}:', page.begin(address, plain=False), '|', page.note())
    page.shot(f'{FOLDER}/{name}-damaged.png')
    page.quit()
    shutil.rmtree(profile, ignore_errors=True)


os.makedirs(FOLDER, exist_ok=True)
for one in browsers():
    shots(one)
