#!/usr/bin/env python3
"""faults.py: the browser's medium fails. A flush that throws, a write that throws and one that is cut short end the sitting
with a sentence, and the page opened anew has all that was shown; a full quota gives a desktop in memory, and says so."""
import shutil
import sys

from browsers import Chromium, browsers, copied, room, served

COUNTED = ('{ const old = FileSystemSyncAccessHandle.prototype.%s; let left = %d; '
           'FileSystemSyncAccessHandle.prototype.%s = function (...words) { '
           'if (left-- <= 0) { %s } return old.apply(this, words); }; }')
FAULTS = [('flush', 'throw new DOMException("the disk is gone", "InvalidStateError");'),
          ('write', 'throw new DOMException("full", "QuotaExceededError");'),
          ('write', 'return 100;')]


def check(what, holds):
    print('  ' + what + (': ok' if holds else ': WRONG'), flush=True)
    if not holds:
        sys.exit(1)


def shown(page):
    return ''.join(page.text(1, 50))


def broken(folder, call, calls, how):
    """A file beside the page in its folder, so over the same store, whose medium fails after so many calls."""
    head = '<script type="text/plain" id="worker">\n'
    copied(folder, 'broken.html', lambda text: text.replace(head, head + COUNTED % (call, calls, call, how)))


def faults(kind):
    folder = room()
    copied(folder)
    address = served(folder)
    for call, how in FAULTS:
        profile = room()
        page = kind(profile)
        page.begin(address)
        page.call('Edit.Open', 50)
        page.click(2, 1)
        page.type('abc')
        page.quit()
        broken(folder, call, 30, how)
        page = kind(profile)
        page.begin(address.replace('desk.html', 'broken.html'))
        seen = shown(page)
        for _ in range(60):
            page.type('x', wait=False)
            try:
                page.until('document.body.dataset.failed', 0.3)
                break
            except TimeoutError:
                seen = shown(page)
        page.until('document.body.dataset.failed', 10)
        print('  ' + page.note())
        check(f'{kind.__name__}: {call} fails, and the sitting ends with {seen!r} in sight', seen.startswith('abcx'))
        page.quit()
        page = kind(profile)
        page.begin(address)
        check('what was shown is there', shown(page).startswith(seen))
        page.quit()
        shutil.rmtree(profile, ignore_errors=True)
    profile = room()
    page = kind(profile, *([] if kind is Chromium else ['"dom.quotaManager.temporaryStorage.fixedLimit", 1024']))
    if kind is Chromium:
        page.go('about:blank')
        page.ask('Storage.overrideQuotaForOrigin', origin=address.rsplit('/', 1)[0], quotaSize=1_000_000)
    check('a full quota', page.begin(address) == 'memory')
    print('  ' + page.note())
    page.call('Edit.Open', 50)
    page.click(2, 1)
    page.type('in memory')
    check('and it works', shown(page).startswith('in memory'))
    page.quit()
    shutil.rmtree(profile, ignore_errors=True)


kinds = browsers()
if not kinds:
    sys.exit(print('no browser here: skipped'))
for one in kinds:
    faults(one)
print('done')
