#!/usr/bin/env python3
"""trust.py [ITEM..]: what a page that one can trust does where something goes wrong, in each browser. Each line says what should
be so, and whether it is; the status is 1 where something isn't. PAGE=FILE in the environment tries that file instead of
docs/desk.html. The items: copying importing note files earlier ways causes sentences errors policy typing."""
import base64
import json
import shutil
import sys
import time

from browsers import HARNESS, Chromium, Firefox, browsers, copied, leaks, room, served

WRONG = []
HEAD = '<script type="text/plain" id="worker">\n'
SIZE = 15621 * 1024
BLIND = "void document.getElementById('keys').dispatchEvent(new KeyboardEvent('keydown', {key: 'y', bubbles: true}))"
LEAVE = '''void document.getElementById('keys').dispatchEvent(
    new KeyboardEvent('keydown', {key: 'q', ctrlKey: true, bubbles: true}))'''
# What the page asks and hands out: questions are answered with yes, and what would be downloaded is kept.
ANSWERS = '''(() => {
    window.confirm = words => { window.askedFor = words; return window.answerNo !== true; };
    window.askedFor = '';
    if (navigator.clipboard) navigator.clipboard.writeText = async text => { window.clip = text; };
    URL.createObjectURL = (old => blob => { window.handed = blob; return old.call(URL, blob); })(URL.createObjectURL);
    HTMLAnchorElement.prototype.click = function () { window.handedName = this.download; };
})()'''
DROP = '''(() => {
    const files = %s.map(([name, text]) => new File([text], name));
    dispatchEvent(Object.assign(new Event('drop', { cancelable: true }), { dataTransfer: { files } }));
})()'''
PASTE = '''(() => {
    const event = Object.assign(new Event('paste', { bubbles: true, cancelable: true }),
        { clipboardData: { getData: () => %s } });
    document.getElementById('keys').dispatchEvent(event);
})()'''
COPY = '''(() => {
    const event = Object.assign(new Event(%r, { bubbles: true, cancelable: true }),
        { clipboardData: { setData(kind, text) { window.clip = text; } } });
    window.clip = null;
    document.getElementById('keys').dispatchEvent(event);
    return window.clip;
})()'''
BYTES = '''window.handed.arrayBuffer().then(buffer => {
    const bytes = new Uint8Array(buffer), out = [];
    for (let at = 0; at < bytes.length; at += 1024) {
        const sector = bytes.subarray(at, at + 1024);
        if (sector.some(Boolean)) out.push([at, btoa(String.fromCharCode(...sector))]);
    }
    return JSON.stringify([bytes.length, out]);
})'''
PUT = '''navigator.storage.getDirectory().then(async folder => {
    const all = new Uint8Array(15621 * 1024), sectors = %s.filter(([n]) => n < 15621);
    for (const [n, bytes] of sectors) all.set(Uint8Array.from(atob(bytes), c => c.charCodeAt(0)), 1024 * n);
    const file = await (await folder.getFileHandle('desk', { create: true })).createWritable();
    await file.write(all);
    await file.close();
    return true;
})'''
OPEN = '''(() => {
    const sectors = %s, all = new Uint8Array(1024 * (sectors.at(-1)[0] + 1));
    for (const [n, bytes] of sectors) all.set(Uint8Array.from(atob(bytes), c => c.charCodeAt(0)), 1024 * n);
    const input = document.getElementById('load'), files = new DataTransfer();
    files.items.add(new File([all], 'backup.disk'));
    input.files = files.files;
    input.dispatchEvent(new Event('change'));
})()'''
SEEN = "(id => { const it = document.getElementById(id); return Boolean(it && !it.closest('[hidden]')); })(%r)"
FILL = '''navigator.storage.getDirectory().then(async folder => {
    for (const [name, byte] of %s) {
        const file = await (await folder.getFileHandle(name, { create: true })).createWritable();
        await file.write(new Uint8Array(%d * 1024).fill(byte));
        await file.close();
    }
    return true;
})'''


# In the worker: of the documents whose first one has a number in its name the medium takes as many writes as that.
CUT = '''{
    let left = -1;
    addEventListener('message', ({ data }) => {
        if (data.ask === 'bring') left = +/[0-9]+/.exec(data.words.documents[0].name);
    });
    const { write } = FileSystemSyncAccessHandle.prototype;
    FileSystemSyncAccessHandle.prototype.write = function (...words) {
        if (left-- === 0) throw new DOMException('full', 'QuotaExceededError');
        return write.apply(this, words);
    };
}
'''


def check(kind, item, what, holds, more=''):
    print(f'  {kind.__name__} {item}: {what}: ' + ('ok' if holds else f'WRONG {more!r}'), flush=True)
    if not holds:
        WRONG.append(what)


def click_on(page, button):
    page.js(f'document.getElementById({button!r})?.click()')


def settle(page, seconds=0.4):
    time.sleep(seconds)
    return page.note()


def answered(page, word):
    """What the line says, once it has this word or tells of a failure."""
    page.until(f"document.body.dataset.failed || document.getElementById('note').textContent.includes({word!r})")
    return page.note()


def fresh(kind, url, profile=None, plain=True):
    page = kind(profile or room())
    page.begin(url, plain)
    page.js(ANSWERS)
    return page


def typing(page):
    """An empty text with the caret in it."""
    page.call('Edit.Open', 50)
    page.click(2, 1)


def handed(page):
    """The bytes that the page hands out, as soon as it does."""
    page.until('Boolean(window.handed)')
    size, parts = json.loads(page.js(BYTES, wait=True))
    out = bytearray(size)
    for at, part in parts:
        out[at:at + 1024] = base64.b64decode(part)
    return bytes(out)


def saved(page):
    """The bytes of the store, as the page hands them out."""
    page.js('void (window.handed = null)')
    click_on(page, 'save-link')
    return handed(page)


def given(page, name):
    """The text of a document, or nothing."""
    page.js(f'void (window.prompt = () => {name!r}, window.handed = null)')
    click_on(page, 'export-link')
    page.until(f"Boolean(window.handed) || document.getElementById('note').textContent.startsWith({name + ': '!r})", 10)
    return handed(page).decode() if page.js('Boolean(window.handed)') else None


def changed(worker='', change=lambda text: text):
    """A folder with a file whose worker begins with these words."""
    folder = room()
    copied(folder)
    copied(folder, 'changed.html', lambda text: change(text.replace(HEAD, HEAD + worker)))
    with open(f'{folder}/empty.html', 'w', encoding='ascii') as file:
        file.write('<!doctype html><title>empty</title>')
    return served(folder)


def select(page, first, last):
    page.press(*first, 'right')
    page.release(*last, 'right')
    page.wait(2)


def clipboard(page, kind, before):
    """What the clipboard has after the page copies or cuts."""
    time.sleep(1)
    page.js(COPY % kind)
    try:
        page.until("window.clip !== null || /press that/.test(document.getElementById('note').textContent)", 5)
    except TimeoutError:
        pass
    time.sleep(1)
    now = page.js('window.clip')
    page.count = page.js('tried.times.length')
    return before if now is None else now


def copying(kind):
    mail = 'Dear reader,\n\n   this is a line that goes on behind the edge of its viewer.   \n\n\nYours  \nA writer\n'
    page = fresh(kind, served())
    typing(page)
    page.js('document.querySelector("#bar [data-key=w]").click()')  # lines are not broken at the edge
    page.wait(1)
    page.js(PASTE % json.dumps(mail))
    page.wait(1)
    select(page, (1, 1), (49, 7))
    before = page.rows()
    got = clipboard(page, 'copy', 'foreign')
    whole = got in (mail, mail.rstrip('\n'))
    check(kind, 'copying', 'the clipboard has all of what was copied', whole, got)
    if page.rows() == before:
        select(page, (1, 1), (49, 7))
    got = clipboard(page, 'cut', 'foreign')
    now = page.text(1, 50)
    whole = got in (mail, mail.rstrip('\n'))
    check(kind, 'copying', 'what was cut is on the clipboard whole', whole and not any('Dear' in row for row in now), got)
    page.quit()
    page = fresh(kind, served())
    typing(page)
    page.js(PASTE % json.dumps('first\n' + 'more\n' * 60))
    page.wait(1)
    page.control('z')
    page.js(PASTE % json.dumps('the first words of all\n' + '\n' * 20 + 'the last\n'))
    page.wait(1)
    x, y = page.find('words', 1, 50)
    select(page, (x, y), (x + 4, y))
    for _ in range(4):
        page.js('document.getElementById("screen").dispatchEvent(new WheelEvent("wheel", {deltaY: 100, bubbles: true, '
                'cancelable: true, clientX: 100, clientY: 100}))')
        page.wait(1)
    clip = clipboard(page, 'copy', 'foreign')
    page.click(1, 10)
    page.js(PASTE % json.dumps(clip))
    page.wait(1)
    rows = page.text(1, 50)
    check(kind, 'copying', 'a selection out of sight is put in, and no older clipboard',
          not any('foreign' in row for row in rows) and any('words' in row for row in rows), rows)
    page.quit()


def importing(kind):
    page = fresh(kind, served())
    page.js(DROP % json.dumps([['notes.txt', 'one\n'], ['notes.txt', 'two\n'], ['2024-01.txt', 'January\n'],
                               ['2024-02.txt', 'February\n']]))
    settle(page, 1)
    texts = {given(page, name) for name in ('notes.txt', 'notes2.txt', 'T202401.txt', 'T202402.txt')}
    check(kind, 'importing', 'four files are four documents', texts == {'one\n', 'two\n', 'January\n', 'February\n'}, texts)
    page.js('void (window.answerNo = true)')
    page.js(DROP % json.dumps([['notes.txt', 'another\n']]))
    settle(page)
    check(kind, 'importing', 'a document that is there is asked for', 'notes.txt' in page.js('window.askedFor'))
    check(kind, 'importing', 'and stays where the answer is no', given(page, 'notes.txt') == 'one\n')
    page.js('void (window.answerNo = false)')
    page.js(DROP % json.dumps([['good.txt', 'good\n'], ['bad.txt', 'b\u00e4d\n']]))
    settle(page, 1)
    check(kind, 'importing', 'of a good and a bad file none is imported', given(page, 'good.txt') is None)
    page.js(DROP % json.dumps([[f'many{n}.txt', 'one of many\n'] for n in range(300)]))
    said = answered(page, 'imported')
    check(kind, 'importing', 'of more files than there may be none is imported',
          'no room' in said and given(page, 'many1.txt') is None, said)
    page.quit()
    cut_off(kind)


def cut_off(kind):
    """Several files in one import, of which the medium takes the first n writes: all are there after it, or none."""
    page = fresh(kind, changed(CUT).replace('desk.html', 'changed.html'))
    wrong, least, most = [], False, False
    for n in (0, 1, 2, 3, 5, 8, 13, 21, 999):
        names = [f'cut{n}{letter}' for letter in 'abc']
        page.js(DROP % json.dumps([[name, f'{name}\n' * 300] for name in names]))
        said = answered(page, names[0])
        if page.js('document.body.dataset.failed'):
            time.sleep(0.4)
            wrong += [said] if 'were imported' in page.note() else []
            click_on(page, 'again')
            page.until('!document.body.dataset.failed')
            time.sleep(0.4)
        there = [given(page, name) == f'{name}\n' * 300 for name in names]
        wrong += [] if all(there) or not any(there) else [(n, there)]
        least, most = least or not any(there), most or all(there)
    check(kind, 'importing', 'of several files that a full medium cuts off all are there, or none',
          not wrong and least and most, (wrong, least, most))
    page.quit()


def note(kind):
    page = fresh(kind, served())
    page.js(DROP % json.dumps([['bad.txt', 'b\u00e4d\n']]))
    said = settle(page)
    check(kind, 'note', 'a refused import is told as refused',
          'is the document' not in said and 'Nothing was imported' in said, said)
    page.js(DROP % json.dumps([['good.txt', 'good\n']]))
    said = settle(page)
    check(kind, 'note', 'and a good one after it as done', 'is the document good.txt' in said and 'Nothing was' not in said, said)
    given(page, 'good.txt')
    said = settle(page)
    check(kind, 'note', 'an export says what it did', 'good.txt' in said and 'is the document' not in said, said)
    saved(page)
    said = settle(page)
    check(kind, 'note', 'and a save', 'my.disk' in said, said)
    page.quit()


def files(kind):
    url = changed('FileSystemFileHandle.prototype.move = () => { throw Error("renamed"); };')
    page = fresh(kind, url.replace('desk.html', 'changed.html'))
    check(kind, 'files', 'no file is renamed for a new store', page.js('document.body.dataset.ready') == 'file', page.note())
    page.quit()
    stores = []
    for left in ([], [['desk.part', 255], ['desk (second)', 254]]):
        page = kind(room())
        page.go(url.replace('desk.html', 'empty.html'))
        page.js(FILL % (json.dumps(left), 2000), wait=True)
        page.begin(url, plain=False)
        page.js(ANSWERS)
        stores.append(saved(page))
        page.quit()
    check(kind, 'files', 'what was left in files of other names is no part of a new store', stores[0] == stores[1])
    url = changed('{ const read = FileSystemSyncAccessHandle.prototype.read; '
                  'FileSystemSyncAccessHandle.prototype.read = function (to, how) { '
                  'return read.call(this, to.byteLength > 10000 ? to.subarray(0, 10000) : to, how); }; }')
    profile = room()
    page = fresh(kind, url, profile)
    typing(page)
    page.type('kept')
    page.quit()
    page = kind(profile)
    kept = page.begin(url.replace('desk.html', 'changed.html'))
    check(kind, 'files', 'a browser that reads in parts gives the same store',
          kept == 'file' and 'kept' in page.text(1, 50), kept)
    page.quit()


def sectors_of(store):
    """The sectors that aren't all zeros, for a page."""
    whole = [store[at:at + 1024] for at in range(0, len(store), 1024)]
    return json.dumps([[n, base64.b64encode(sector).decode()] for n, sector in enumerate(whole) if any(sector)])


def earlier(kind):
    """A store of the page before there were two files: one file, and no number behind it."""
    url = changed()
    page = fresh(kind, url)
    typing(page)
    page.type('of an earlier page')
    store = saved(page)
    page.quit()
    profile = room()
    page = kind(profile)
    page.go(url.replace('desk.html', 'empty.html'))
    page.js(PUT % sectors_of(store), wait=True)
    page.begin(url)
    page.js(ANSWERS)
    check(kind, 'earlier', 'a store that an earlier page made opens', 'of an earlier page' in page.text(1, 50), page.note())
    click_on(page, 'anew')
    page.until("document.getElementById('note').textContent.includes('new desktop')")
    page.quit()
    page = kind(profile)
    page.begin(url)
    check(kind, 'earlier', 'and the one that is put in its place is there after another start',
          'of an earlier page' not in page.text(1, 50) and page.js('document.body.dataset.ready') == 'file', page.note())
    page.quit()


def ways(kind):
    url = changed()
    backup = fresh(kind, url)
    typing(backup)
    backup.type('of the backup')
    store = saved(backup)
    backup.quit()
    open_it = OPEN % sectors_of(store)
    for way in ('load', 'anew'):
        page = kind(room())
        page.go(url.replace('desk.html', 'empty.html'))
        page.js(FILL % (json.dumps([['desk', 255]]), 40), wait=True)
        page.begin(url)
        page.js(ANSWERS)
        check(kind, 'ways', 'bytes that are no store are told', page.js('document.body.dataset.failed') != '', page.note())
        shown = [page.js(SEEN % button) for button in ('again', 'save-bytes', 'load-instead', 'anew')]
        check(kind, 'ways', 'with four ways out', all(shown), shown)
        if not all(shown):
            page.quit()
            continue
        page.js('void (window.handed = null)')
        click_on(page, 'save-bytes')
        got = handed(page)
        check(kind, 'ways', 'the bytes are saved as they are', got == b'\xff' * 40960, len(got))
        if way == 'load':
            page.js(open_it)
        else:
            click_on(page, 'anew')
        page.until('!document.body.dataset.failed')
        settle(page, 1)
        rows = page.text(0, 80)
        check(kind, 'ways', f'{way}: there is a desktop',
              any(('of the backup' if way == 'load' else 'Edit.Open A.Text') in row for row in rows), rows[:3])
        page.js(HARNESS)
        page.quit()
    url = changed('FileSystemSyncAccessHandle.prototype.write = (write => { let left = 40; return function (...words) { '
                  'if (left-- === 0) throw new DOMException("full", "QuotaExceededError"); return write.apply(this, words); }; }'
                  ')(FileSystemSyncAccessHandle.prototype.write);')
    profile = room()
    page = fresh(kind, url, profile, plain=False)         # with a text that has the caret
    page.quit()
    page = kind(profile)
    page.begin(url.replace('desk.html', 'changed.html'), plain=False)
    page.js(ANSWERS)
    for _ in range(60):
        page.js("document.getElementById('keys').dispatchEvent(new KeyboardEvent('keydown', {key: 'x', bubbles: true}))")
    page.until("document.body.dataset.failed", 10)
    check(kind, 'ways', 'after a failed write too',
          all(page.js(SEEN % it) for it in ('again', 'save-bytes', 'load-instead', 'anew')))
    page.js('void (window.handed = null)')
    click_on(page, 'save-bytes')
    page.until('Boolean(window.handed)')
    check(kind, 'ways', 'and the bytes can be saved', page.js('window.handed.size') > SIZE)
    page.js("document.getElementById('keys').focus()")
    page.tab()
    check(kind, 'ways', 'and Tab leads to the ways out', page.js('document.activeElement.id') == 'again',
          page.js('document.activeElement.id'))
    page.quit()
    page = kind(room())
    page.begin(changed('FileSystemFileHandle.prototype.createSyncAccessHandle = () => '
                       'Promise.reject(new DOMException("no handle", "UnknownError"));').replace('desk.html', 'changed.html'))
    page.js(ANSWERS)
    check(kind, 'ways', 'a file that the browser does not open is told', 'no handle' in page.note(), page.note())
    click_on(page, 'save-bytes')
    page.until("document.getElementById('note').textContent.includes('no bytes')", 20)
    click_on(page, 'anew')
    page.until("document.body.dataset.ready === 'memory'", 20)
    check(kind, 'ways', 'and one can begin anew in memory', 'In memory' in page.note() and 'no handle' in page.note(), page.note())
    page.quit()


def waits(page):
    """Whether the page says that the desktop is open in another tab, and isn't at its end."""
    try:
        return page.until("document.getElementById('note')?.textContent.includes('another tab')", 15) and \
            not page.js('document.body.dataset.failed')
    except TimeoutError:
        return False


def causes(kind):
    denied = 'Promise.reject(new DOMException("The data of sites are blocked", "SecurityError"))'
    for what, worker in (
            ('a lock that is refused for another reason', f'LockManager.prototype.request = () => {denied};'),
            ('a browser without getDirectory', 'delete StorageManager.prototype.getDirectory;'),
            ('an early browser, whose files answer later', 'for (const name of ["getSize", "flush", "truncate"]) { '
             'const early = FileSystemSyncAccessHandle.prototype[name]; '
             'FileSystemSyncAccessHandle.prototype[name] = async function (...words) { return early.apply(this, words); }; }'),
            ('blocked data of sites', f'StorageManager.prototype.getDirectory = () => {denied}; '
             f'IDBFactory.prototype.open = () => {{ throw new DOMException("blocked", "SecurityError"); }};')):
        page = kind(room())
        kept = page.begin(changed(worker).replace('desk.html', 'changed.html'))
        check(kind, 'causes', f'{what}: a desktop', kept in ('memory', 'table'), kept)
        if kept == 'memory':
            check(kind, 'causes', 'in memory, with the reason',
                  'blocked' in page.note() and 'keep nothing' in page.note(), page.note())
        if 'early' in what:
            check(kind, 'causes', 'and it keeps the store in a table', kept == 'table', page.note())
        page.quit()
    if kind is Firefox:
        page = kind(room(), '"javascript.options.wasm_memory64", false')
        check(kind, 'causes', 'a browser that knows addresses of 32 bits alone has a desktop', page.begin(served()) == 'file',
              page.note())
        page.quit()
    url = served()
    page = fresh(kind, url)
    typing(page)
    if kind is Chromium:
        first, first_target = page.session, page.target
        page.go(url)
        check(kind, 'causes', 'a second tab says what it waits for', waits(page), page.note())
        page.js(BLIND)
        second = page.session
        page.session = None
        page.ask('Target.closeTarget', targetId=first_target)
        page.session = second
    else:
        first = page.ask('WebDriver:GetWindowHandle')['value']
        second = page.ask('WebDriver:NewWindow', type='tab')['handle']
        page.ask('WebDriver:SwitchToWindow', handle=second)
        page.go(url)
        check(kind, 'causes', 'a second tab says what it waits for', waits(page), page.note())
        page.js(BLIND)
        page.ask('WebDriver:SwitchToWindow', handle=first)
        page.ask('WebDriver:CloseWindow')
        page.ask('WebDriver:SwitchToWindow', handle=second)
    try:
        page.until('document.body.dataset.ready === "file"', 10)
        taken = True
    except TimeoutError:
        taken = False
    check(kind, 'causes', 'and takes over when the first is closed', taken, page.note())
    settle(page, 1)
    check(kind, 'causes', 'without what was typed blindly', not any('y' in row for row in page.text(1, 50)), page.text(1, 50))
    page.quit()


def sentences(kind):
    url = changed('delete NavigatorLocks; Object.defineProperty(WorkerNavigator.prototype, "locks", { value: undefined });')
    page = kind(room())
    kept = page.begin(url.replace('desk.html', 'changed.html'))
    check(kind, 'sentences', 'without locks a desktop in memory', kept == 'memory', page.note())
    typing(page)
    page.type('x')
    page.js(LEAVE)
    settle(page)
    page.js(LEAVE)
    said = settle(page)
    check(kind, 'sentences', 'one who leaves it isn\'t told that all is kept',
          'verything is kept' not in said and 'left' in said, said)
    leaves = page.js('''(() => { const event = new Event('beforeunload', { cancelable: true }); dispatchEvent(event);
        return event.defaultPrevented; })()''')
    check(kind, 'sentences', 'and the browser asks before the tab is closed', leaves)
    again = page.js("document.getElementById('again').click()")
    settle(page, 1)
    check(kind, 'sentences', 'sitting down again shows what was there', any('x' == row for row in page.text(1, 50)), again)
    page.quit()
    page = fresh(kind, served())
    said = page.note()
    persisted = page.js('navigator.storage.persisted()', wait=True)
    check(kind, 'sentences', 'a store that the browser may drop is told so', persisted or 'may drop' in said, said)
    page.quit()
    for pressed_at_once in (False, True):
        cleared(kind, pressed_at_once)
    page = fresh(kind, changed('FileSystemFileHandle.prototype.createSyncAccessHandle = undefined; '
                               'StorageManager.prototype.getDirectory = undefined; IDBFactory.prototype.open = undefined;')
                 .replace('desk.html', 'changed.html'))
    page.js("stop(); fail('The worker ended')")
    said = settle(page)
    check(kind, 'sentences', 'what was in memory alone is told as gone with its worker', 'is gone' in said, said)
    page.quit()


def cleared(kind, pressed_at_once):
    """The data of the site are cleared while the desktop is open: what is seen is in memory, as the line says."""
    url = served()
    page = fresh(kind, url)
    typing(page)
    page.type('before it')
    page.clear(url)
    if pressed_at_once:
        page.js("document.getElementById('keys').dispatchEvent(new KeyboardEvent('keydown', {key: '!', bubbles: true}))")
        settle(page, 1)
        click_on(page, 'again') if page.js('document.body.dataset.failed') else None
    try:
        page.until("document.getElementById('note').textContent.includes('cleared')", 25)
        told = True
    except TimeoutError:
        told = False
    when = 'with a press just then' if pressed_at_once else 'while it is open'
    check(kind, 'sentences', f'data that are cleared {when} are told', told, page.note())
    page.js("void document.getElementById('keys').dispatchEvent(new KeyboardEvent('keydown', {key: 'x', bubbles: true}))")
    page.until("/before it.?x/.test(document.getElementById('screen').textContent)")
    rows = page.text(1, 50)
    check(kind, 'sentences', 'and the desktop goes on', rows[-1].startswith('before it') and rows[-1].endswith('x'), rows)
    store = saved(page)
    page.js('void (window.answerNo = false)')
    for _ in range(2):
        page.js(LEAVE)
        settle(page, 1)
    click_on(page, 'again')
    page.until("!document.body.classList.contains('ended')")
    settle(page, 1)
    check(kind, 'sentences', 'also when one has left it and sits down again', page.text(1, 50) == rows, page.text(1, 50))
    page.quit()
    page = fresh(kind, url)
    page.js(OPEN % sectors_of(store))
    page.until("document.getElementById('note').textContent.includes('backup.disk')")
    check(kind, 'sentences', 'and what was saved then is it', page.text(1, 50) == rows, page.text(1, 50))
    page.quit()


def errors(kind):
    for what, worker in (('throws at its start', 'throw Error("broken");\n'), ('is no program', '(((\n')):
        page = kind(room())
        page.go(changed(worker).replace('desk.html', 'changed.html'))
        try:
            page.until("(said => said && !said.includes('being opened'))(document.getElementById('note').textContent)", 15)
        except TimeoutError:
            pass
        said = page.note()
        check(kind, 'errors', f'a worker that {what} is told', 'being opened' not in said and said != '', said)
        page.quit()
    page = fresh(kind, served())
    page.js('''(() => {
        const file = { name: 'folder', size: 4096, arrayBuffer: () => Promise.reject(new DOMException('', 'NotFoundError')) };
        dispatchEvent(Object.assign(new Event('drop', { cancelable: true }), { dataTransfer: { files: [file] } }));
    })()''')
    said = settle(page)
    check(kind, 'errors', 'a folder is told', 'folder' in said and 'read' in said, said)
    page.js('''(() => {
        window.wasRead = false;
        const arrayBuffer = () => { window.wasRead = true; return Promise.resolve(new ArrayBuffer(9)); };
        const file = { name: 'film.mp4', size: 1200000000, arrayBuffer };
        dispatchEvent(Object.assign(new Event('drop', { cancelable: true }), { dataTransfer: { files: [file] } }));
    })()''')
    said = settle(page)
    check(kind, 'errors', 'a file that is too long isn\'t read', not page.js('window.wasRead') and 'film.mp4' in said, said)
    if kind is Chromium:                                  # (what a test throws in Firefox is of its own sandbox)
        page.js("void setTimeout(() => Promise.reject(Error('something else')))")
        said = settle(page)
        check(kind, 'errors', 'what else fails is told', 'something else' in said, said)
    page.quit()


def policy(kind):
    url, asked = leaks()
    page = kind(room())
    page.begin(url)
    page.js("void (new Image().src = '/leak-image')")
    page.js("void document.head.append(Object.assign(document.createElement('script'), { src: '/leak-script' }))")
    page.js("void document.head.append(Object.assign(document.createElement('link'), "
            "{ rel: 'stylesheet', href: '/leak-style' }))")
    page.js("void fetch('/leak-fetch').catch(() => 0)") if kind is Chromium else None
    page.js("void document.body.append(Object.assign(document.createElement('iframe'), { src: '/leak-frame' }))")
    time.sleep(1)
    check(kind, 'policy', 'the page can ask nobody for anything', not asked, asked)
    page.quit()
    url, asked = leaks('fetch("%s/leak-worker").catch(() => 0); try { importScripts("%s/leak-import"); } catch {}')
    page = kind(room())
    kept = page.begin(url)
    time.sleep(1)
    check(kind, 'policy', 'nor its worker', not asked and kept == 'file', asked)
    page.quit()


def typing_of(kind):
    page = fresh(kind, served())
    typing(page)
    told = '''(() => { window.tried.said.length = 0; })()'''
    insert = '''(text => {
        const keys = document.getElementById('keys');
        keys.value += text;
        keys.dispatchEvent(new InputEvent('input', { inputType: 'insertText', data: text }));
    })(%s)'''
    page.js(told)
    page.js(insert % json.dumps('a\x07b\x11c'))
    settle(page)
    said = ''.join(page.js('window.tried.said'))
    inner = said.replace('\x1b[200~', '').replace('\x1b[201~', '')
    check(kind, 'typing', 'control bytes of an input method are no keys', '\x07' not in inner and '\x11' not in inner, said)
    page.count = page.js('tried.times.length')
    page.js(told)
    for text in ('don\u2019t ', '\u00e9t\u00e9 '):
        page.js(PASTE % json.dumps(text))
    settle(page)
    said = ''.join(page.js('window.tried.said'))
    check(kind, 'typing', 'what isn\'t ASCII is put in as what is nearest', "don't" in said and 'ete' in said, said)
    check(kind, 'typing', 'and that is told', 'ASCII' in page.note(), page.note())
    page.js(told)
    page.js("void document.getElementById('keys').dispatchEvent(new KeyboardEvent('keydown', {key: '\u00e9', bubbles: true}))")
    settle(page)
    check(kind, 'typing', 'by a key too', ''.join(page.js('window.tried.said')) == 'e', page.js('window.tried.said'))
    page.js(told)
    page.js("document.getElementById('keys').focus(); document.execCommand('delete')")
    settle(page)
    said = page.js('window.tried.said')
    check(kind, 'typing', 'the Backspace of a phone deletes', ''.join(said) == '\x7f', said)
    page.js(told)
    page.count = page.js('tried.times.length')
    if kind is Chromium:
        page.ask('Input.imeSetComposition', text='kana', selectionStart=4, selectionEnd=4)
        style = page.js("(it => getComputedStyle(it).opacity !== '0' && it.getBoundingClientRect().width > 20)"
                        "(document.getElementById('keys'))")
        check(kind, 'typing', 'what is composed is seen', style)
        page.press(10, 6, 'left')
        page.release(10, 6, 'left')
        settle(page)
        said = page.js('window.tried.said')
        check(kind, 'typing', 'and typed before a press elsewhere', bool(said) and 'kana' in said[0], said)
    page.quit()


ITEMS = {'copying': copying, 'importing': importing, 'note': note, 'files': files, 'earlier': earlier, 'ways': ways, 'causes': causes,
         'sentences': sentences, 'errors': errors, 'policy': policy, 'typing': typing_of}
if __name__ == '__main__':
    kinds = browsers()
    if not kinds:
        sys.exit(print('no browser here: skipped'))
    for one in kinds:
        for name in sys.argv[1:] or ITEMS:
            try:
                ITEMS[name](one)
            except (TimeoutError, LookupError, RuntimeError, EOFError) as error:
                check(one, name, 'the item was tried to its end', False, str(error)[:300])
    print(len(WRONG), 'wrong')
    sys.exit(bool(WRONG))
