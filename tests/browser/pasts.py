#!/usr/bin/env python3
"""pasts.py: the past in the page, in each browser. Ctrl-Z reaches over a reload; Ctrl-P and the button
show the past, keys lead through it and seek a word, Return turns back to what is shown; what is selected there can be copied, and a
document given as it was; the store is saved with its past and opened again; the past is forgotten by a button that asks first;
where the medium has no room for a past the desktop opens without one. Each line says what should be so, and whether it is; the status is 1 where something isn't."""
import shutil
import sys

from browsers import browsers, room, served
from trust import ANSWERS, OPEN, PUT, WRONG, changed, check, click_on, saved, sectors_of

LINE = "document.getElementById('line').textContent"
KEY = "void document.getElementById('keys').dispatchEvent(new KeyboardEvent('keydown', {key: %r, ctrlKey: %s, bubbles: true}))"
IN_PAST = "document.body.classList.contains('past')"
# In the worker: the medium has room for a store, and no byte behind it.
FULL = '''{
    const { write } = FileSystemSyncAccessHandle.prototype;
    FileSystemSyncAccessHandle.prototype.write = function (bytes, how) {
        if (how.at > 15622 * 1024) throw new DOMException('full', 'QuotaExceededError');
        return write.call(this, bytes, how);
    };
}
'''


def press(page, key, held=False, wait=1):
    page.js(KEY % (key, str(held).lower()))
    page.wait(wait)


def shown(page):
    return page.text(1, 50), page.js(LINE)


def opened(kind, url, profile):
    page = kind(profile)
    page.begin(url)
    page.js(ANSWERS)
    return page


def tried(kind):
    say = lambda what, holds, more='': check(kind, 'pasts', what, holds, more)
    url, profile = served(), room()
    page = opened(kind, url, profile)
    page.call('Edit.Open', 50)
    page.click(2, 1)
    for word in ('one ', 'two ', 'three '):
        page.type(word)
    page.quit()
    page = opened(kind, url, profile)
    for wanted in ('one two three', 'one two', 'one'):
        rows, line = shown(page)
        say(f'{wanted!r} stands there', wanted in rows, (rows[:3], line))
        press(page, 'z', True)
    say('and Ctrl-Z takes back what was typed before the page was opened', not any('one' in row for row in page.text(1, 50)), shown(page))
    for _ in range(3):
        press(page, 'y', True)
    say('Ctrl-Y does it again', 'one two three' in page.text(1, 50), shown(page))
    before = page.rows()
    press(page, 'p', True)
    say('Ctrl-P shows the past', page.js(IN_PAST) and 'moment' in page.js(LINE), page.js(LINE))
    press(page, 'Home')
    rows, line = shown(page)
    say('Home shows its first moment', not any('one' in row for row in rows) and line.startswith('moment'), (rows[:3], line))
    press(page, 'End')
    say('End shows the present', page.rows() == before and 'of' in page.js(LINE), shown(page))
    press(page, 'ArrowLeft', True)
    say('Ctrl-Left shows the moment before', page.js(IN_PAST), shown(page))
    for letter in '/three':
        press(page, letter)
    say('a word can be sought', page.js(LINE).endswith('screen: three'), page.js(LINE))
    press(page, 'Enter')
    page.until(f"!{LINE}.startsWith('seeking')")
    say('and is found, where it went from the screen', 'one two three' in page.text(1, 50), shown(page))
    page.count = page.js('tried.times.length')
    press(page, 'Escape')
    say('Escape leads back', page.rows() == before and not page.js(IN_PAST), shown(page))
    click_on(page, 'past')
    page.wait(1)
    for _ in range(30):
        if not any('three' in row for row in page.text(1, 50)):
            break
        press(page, 'ArrowLeft', True)
    say('the button too, and there is a moment before the last word', page.js(IN_PAST), shown(page))
    there = page.rows()
    press(page, 'Enter')
    say('Return turns back to it', not page.js(IN_PAST) and page.rows() == there, shown(page))
    press(page, 'p', True)
    press(page, 'ArrowLeft')
    say('and what was there before is kept', page.rows() == before, shown(page))
    for key in ('/', 'o', 'Escape', 'Escape'):
        press(page, key)
    say('Escape leaves a word that is asked for, and then the past', not page.js(IN_PAST) and page.rows() == there, shown(page))
    store, there = saved(page), page.rows()
    page.quit()
    page = opened(kind, url, room())
    page.js(OPEN % sectors_of(store))
    page.until("document.getElementById('note').textContent.includes('backup.disk')")
    say('a saved store opens', page.rows() == there, shown(page))
    page.count = page.js('tried.times.length')
    press(page, 'p', True)
    press(page, 'ArrowLeft')
    say('with its past', page.js(IN_PAST) and page.rows() != '', page.js(LINE))
    press(page, 'Escape')
    page.quit()
    shutil.rmtree(profile, ignore_errors=True)


def forgotten(kind):
    """A word that was deleted goes with the past, and what is shown stays."""
    say = lambda what, holds, more='': check(kind, 'pasts', what, holds, more)
    url, profile = served(), room()
    page = opened(kind, url, profile)
    page.call('Edit.Open', 50)
    page.click(2, 1)
    page.type('secret')
    for _ in 'secret':
        press(page, 'Backspace', wait=0.2)
    page.type('kept')
    there = page.rows()
    press(page, 'p', True)
    page.js('window.answerNo = true')
    click_on(page, 'forget')
    page.wait(1)
    say('the page asks before it forgets a past', 'Forget the past' in page.js('window.askedFor'), page.js('window.askedFor'))
    say('and forgets nothing where the answer is no', page.js(IN_PAST) and 'Nothing was forgotten' in page.note(), page.note())
    page.js('window.answerNo = false')
    click_on(page, 'forget')
    page.until("document.getElementById('note').textContent.includes('The past is forgotten')")
    say('what is forgotten leaves what the desktop shows', not page.js(IN_PAST) and page.rows() == there, shown(page))
    page.quit()
    page = opened(kind, url, profile)
    say('also over another start', 'kept' in page.text(1, 50), shown(page))
    press(page, 'p', True)
    press(page, 'Home')
    say('and no moment before it is there', page.js(IN_PAST) and 'kept' in page.text(1, 50), shown(page))
    press(page, 'Escape')
    page.quit()
    shutil.rmtree(profile, ignore_errors=True)


def without_room(kind):
    """A store that an earlier page made, on a medium that has room for it and for nothing behind it."""
    url = changed(FULL)
    page = opened(kind, url, room())
    page.call('Edit.Open', 50)
    page.click(2, 1)
    page.type('earlier')
    store = saved(page)
    page.quit()
    page = kind(room())
    page.go(url.replace('desk.html', 'empty.html'))
    page.js(PUT % sectors_of(store), wait=True)
    page.begin(url.replace('desk.html', 'changed.html'))
    check(kind, 'pasts', 'where there is no room for a past the store opens without one',
          'earlier' in page.text(1, 50) and 'No past is kept' in page.note(), page.note())
    page.click(8, 1)
    page.type(' on')
    check(kind, 'pasts', 'and takes what is typed', 'earlier on' in page.text(1, 50), shown(page))
    page.quit()


if __name__ == '__main__':
    kinds = browsers()
    if not kinds:
        sys.exit(print('no browser here: skipped'))
    for one in kinds:
        tried(one)
        forgotten(one)
        without_room(one)
    sys.exit(bool(WRONG))
