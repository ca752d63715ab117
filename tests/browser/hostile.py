#!/usr/bin/env python3
"""hostile.py [COUNT [SEED]]: stores that nobody made (those of tests/random/hostile) go to the module of the page, in each
browser. Each is opened, and where it opens some presses follow. Nothing may trap, and what is drawn may have the elements and
attributes of a drawing alone, so that no text of a store becomes a part of the page."""
import base64
import gzip
import importlib.machinery
import importlib.util
import json
import random
import re
import sys
import zlib

from browsers import FILE, TOP, browsers, room

COUNT = int(sys.argv[1]) if len(sys.argv) > 1 else 1000
SEED = int(sys.argv[2]) if len(sys.argv) > 2 else 0
BATCH, SECTOR, SECTORS = 25, 1024, 65536
LOADER = importlib.machinery.SourceFileLoader('hostile_stores', f'{TOP}/tests/random/hostile')
STORES = importlib.util.module_from_spec(importlib.util.spec_from_loader('hostile_stores', LOADER))
sys.dont_write_bytecode = True
LOADER.exec_module(STORES)
MARKUP = '<img src=x onerror=alert(1)></text><script>alert(2)</script>&lt;\r'
BEGIN = '''(async () => {
    window.code = await WebAssembly.compile(Uint8Array.from(atob(%r), c => c.charCodeAt(0)));
    window.desk = async sectors => {
        const m = (await WebAssembly.instantiate(window.code, {})).exports, memory = () => new Uint8Array(m.memory.buffer);
        const place = bytes => { const at = m.page_room(BigInt(bytes.length + 8)); memory().set(bytes, Number(at)); return at; };
        const held = place(new Uint8Array(8)), to = m.page_room(BigInt(1 << 22));
        const copied = kind => Number(to + m.page_copy(held, kind, to, BigInt(1 << 22)));
        const made = kind => { const end = copied(kind); return memory().slice(Number(to), end); };
        const at = place(sectors);
        m.page_start(held);
        if (sectors.length) m.page_load(held, 0, at, BigInt(sectors.length));
        const status = m.page_begin(held, 1);
        m.page_give_back(at);
        const press = text => {
            const bytes = Uint8Array.from(text, c => c.charCodeAt(0)), there = place(bytes);
            const now = m.page_press(held, there, BigInt(bytes.length));
            m.page_give_back(there);
            return now;
        };
        return { status, made, press, look: () => m.page_look(held) };
    };
    window.store = (all, calls) => {
        for (let at = 0; at < calls.length;) {
            const n = new DataView(calls.buffer).getUint32(at, true);
            if (n !== 0xffffffff) { all.set(calls.subarray(at + 4, at + 1028), n * 1024); at += 1028; } else at += 4;
        }
    };
    return true;
})()'''
MADE = '''(async () => {
    const desk = await window.desk(new Uint8Array(0)), all = new Uint8Array(65536 * 1024), out = [];
    window.store(all, desk.made(2));
    for (const press of %s) { desk.press(press); window.store(all, desk.made(2)); }
    for (let n = 0; n < 65536; n++) {
        const sector = all.subarray(1024 * n, 1024 * n + 1024);
        if (sector.some(Boolean)) out.push([n, btoa(String.fromCharCode(...sector))]);
    }
    return JSON.stringify(out);
})()'''
TRY = '''(async () => {
    const allowed = /^(svg|style|rect|text|g)$/;
    const names = /^(xmlns|width|height|viewBox|font-|xml:space|x$|y$|fill|textLength|text-decoration)/;
    const good = drawing => {
        const root = document.createElement('div');
        root.innerHTML = drawing;
        return root.children.length === 1 && [...root.querySelectorAll('*')].every(it => allowed.test(it.localName) &&
            [...it.attributes].every(({ name }) => names.test(name)));
    };
    const text = bytes => new TextDecoder().decode(bytes), out = [];
    for (const [sectors, presses] of %s) {
        let last = -1;
        for (const [n] of sectors) last = Math.max(last, n);
        const all = new Uint8Array(1024 * (last + 1));
        for (const [n, bytes] of sectors) all.set(Uint8Array.from(atob(bytes), c => c.charCodeAt(0)), 1024 * n);
        try {
            const desk = await window.desk(all);
            let is_good = true, status = desk.status;
            if (!status) {
                is_good = good(text(desk.made(0)));
                for (const press of presses) {
                    if (status = press === 'look' ? desk.look() % 10 : desk.press(press)) break;
                    is_good &&= good(text(desk.made(0)));
                }
            }
            out.push([desk.status, status, is_good]);
        } catch (error) { out.push([-1, String(error), false]); }
    }
    return JSON.stringify(out);
})()'''
PRESSES = ['\x1b[<1;52;2M\x1b[<1;52;2m', 'Hello World\r', MARKUP, '\x13', '\x1b[<2;3;3M\x1b[<2;9;3m', '\x03',
           '\x1b[<1;52;8M\x1b[<1;52;8m', '\x1a', 'more', '\x1b[<1;60;4M\x1b[<1;60;4m', '\x1a']


def presses(chance):
    mouse = lambda: '\x1b[<{0};{1};{2}M\x1b[<{0};{1};{2}m'.format(
        chance.choice([0, 1, 1, 2]), chance.randint(1, 80), chance.randint(1, 32))
    return [chance.choice([mouse(), mouse(), mouse(), 'x', MARKUP, '\x1a', '\x13', '\x1b[<65;9;9M', 'look', '\x1b[D', '\x1b[5~', '\r', '\x1b']) for _ in range(8)]


def templates(page):
    made = {n: base64.b64decode(bytes_) for n, bytes_ in json.loads(page.js(MADE % json.dumps(PRESSES), wait=True))}
    olds = []
    for version in (1, 2):
        with gzip.open(f'{TOP}/tests/lib/old_stores/version_{version}.gz') as file:
            olds.append(file.read())
    sectors = [{n: old[n * SECTOR:n * SECTOR + SECTOR] for n in range(15621)} for old in olds]
    olds = [{n: data for n, data in old.items() if any(data)} for old in sectors]
    return [made, olds[0], made, olds[1]]


def tried(page, numbers, made):
    stores = []
    for number in numbers:
        chance = random.Random(number)
        store, _ = STORES.hostile(chance, made[number % 4])
        sectors = [(n, base64.b64encode(bytes(data)).decode()) for n, data in sorted(store.items()) if n < SECTORS and any(data)]
        stores.append((sectors, presses(chance)))
    return json.loads(page.js(TRY % json.dumps(stores), wait=True))


kinds = browsers()
if not kinds:
    sys.exit(print('no browser here: skipped'))
with open(FILE, encoding='utf-8') as file:
    packed = base64.b64decode(re.search(r'id="wasm">\s*(\S+)\s*<', file.read())[1], b'._')
module = base64.b64encode(zlib.decompress(packed, -15)).decode()
failed = 0
for one in kinds:
    page = one(room())
    page.go('about:blank')
    page.js(BEGIN % module, wait=True)
    made = templates(page)
    opened = refused = 0
    for first in range(SEED, SEED + COUNT, BATCH):
        for i, (begun, status, good) in enumerate(tried(page, range(first, min(first + BATCH, SEED + COUNT)), made)):
            opened += begun == 0
            refused += begun > 0
            if begun < 0 or begun == 0 and not good:
                failed += 1
                print(f'{one.__name__}, store {first + i}: {status}', flush=True)
        if (first + BATCH - SEED) % 100 == 0:
            print(f'{one.__name__}: {first + BATCH - SEED} so far, {opened} opened, {refused} refused, {failed} failed', flush=True)
    page.quit()
    print(f'{one.__name__}: {COUNT} stores, {opened} opened, {refused} refused, {failed} failed', flush=True)
sys.exit(failed != 0)
