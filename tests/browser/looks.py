#!/usr/bin/env python3
"""looks.py [FOLDER]: what a visitor finds, dark surroundings, a phone with touch, the text that a screen reader is given, and
that the keyboard leaves the screen by Shift-Tab, in each browser, with pictures in the folder. In WebKit the first of these."""
import shutil
import sys
import time

from browsers import WebKit, browsers, room, served

PICTURES = sys.argv[1] if len(sys.argv) > 1 else None


def same(what, got, wanted):
    if got != wanted:
        sys.exit(f'{what}: {got!r}, and not {wanted!r}')
    print(f'  {what}: ok')


def tap(page, x, y):
    page.js(f"void (document.getElementById('view').scrollLeft = {0 if x < 50 else 999})")
    page.touch(x, y)
    page.wait(2)


def visits(page):
    """What a visitor finds: a text of five steps with the caret in it, commands by a double click, and the plug."""
    same('a text is open', any('Five steps' in row for row in page.text(0, 50)), True)
    page.count = page.js('tried.times.length')
    page.type('typed at once')
    same('with the caret in it', page.text(1, 50)[-1], 'typed at once')
    x, y = page.find('System.OpenLog', 50)
    page.move(x + 1, y)
    page.until('Boolean(document.getElementById("command"))')
    same('a command is underlined', page.js('Boolean(document.getElementById("command"))'), True)
    page.double(x + 1, y)
    page.wait(2)
    same('a double click calls it', any(row.startswith('System.Log') for row in page.text(50)), True)
    page.type(', on')
    same('and leaves the caret', 'typed at once, on' in page.text(1, 50), True)
    x, y = page.find('System.Directory', 1, 50)
    page.press(x + 1, y, 'left')
    page.release(x + 1, y, 'left')
    page.type('|')
    page.wait(2)
    same('one click sets it, before what is typed', any('S|ystem.Directory' in row for row in page.text(1, 50)), True)
    before = page.rows()
    page.js('document.getElementById("plug").click()')
    page.until('document.getElementById("note").textContent.includes("The plug was pulled")')
    same('after the plug was pulled', page.rows(), before)
    wheel = 'new WheelEvent("wheel", {deltaY: 100, ctrlKey: %s, bubbles: true, cancelable: true})'
    for held, taken in (('true', False), ('false', True)):
        page.js(f'void (window.wheel = {wheel % held}, document.getElementById("screen").dispatchEvent(wheel))')
        same(f'the wheel with Ctrl {held}', page.js('wheel.defaultPrevented'), taken)


SIZE = '(box => box.width * devicePixelRatio)(document.getElementById("screen").getBoundingClientRect())'
CARET = '''(box => 0 <= box.left && box.right <= innerWidth && 0 <= box.top && box.bottom <= innerHeight)(
    document.querySelector('#screen rect[width="2"]').getBoundingClientRect())'''


def zooms(page):
    """The browser's zoom makes the screen as many times as large, also after a new start, and the caret stays in sight."""
    page.zoomed(1)
    page.until('devicePixelRatio === 1')
    first = page.js(SIZE)
    for times in (1.5, 2, 0.75, 1, 1.5):
        page.zoomed(times)
        page.until(f'Math.abs(devicePixelRatio / {times} - 1) < 0.03')
        page.until(f'Math.abs({SIZE} / ({first} * devicePixelRatio) - 1) < 0.03')
    same('the screen is as large as the browser zooms it', True, True)
    page.type('\r' * 14 + 'far down')
    page.until(CARET)
    same('the caret stays in sight', page.js(CARET), True)
    if PICTURES:
        page.shot(f'{PICTURES}/{type(page).__name__}-zoom.png')
    page.js('void setTimeout(() => location.reload(), 100)')
    time.sleep(1)
    page.until(f'document.body.dataset.ready && Math.abs({SIZE} / ({first} * devicePixelRatio) - 1) < 0.03')
    same('also after a new start', True, True)
    page.zoomed(1)


def looks(page):
    kind, ground = type(page).__name__, 'getComputedStyle(document.body).backgroundColor'
    same('light surroundings', page.js(ground), 'rgb(233, 231, 225)')
    page.dark()
    page.until(f'{ground} !== "rgb(233, 231, 225)"')
    same('dark surroundings', page.js(ground), 'rgb(27, 28, 30)')
    same('and the sheet is dark too',
         page.js("getComputedStyle(document.getElementById('screen')).backgroundColor"), 'rgb(0, 0, 0)')
    if PICTURES:
        page.shot(f'{PICTURES}/{kind}-dark.png')
    same('what is focused', page.js('document.activeElement.id'), 'keys')
    page.shift_tab()
    same('after Shift-Tab', page.js('document.activeElement.id') != 'keys', True)
    page.js('document.getElementById("keys").focus()')
    page.until('document.getElementById("words").textContent.includes("Edit.Open A.Text")')
    same('a region a viewer', page.js('document.querySelector("#words section").getAttribute("aria-label")'), 'System.Tool')
    tree = page.told()
    same('in what the browser tells', 'Edit.Open A.Text' in tree and "'System.Tool'" in tree, True)
    page.sized(400, 800, 2, mobile=True)
    same('no row is wider than a phone', page.js('document.documentElement.scrollWidth <= innerWidth'), True)
    x, y = page.find('Edit.Open', 50)
    tap(page, x + 1, y)
    same('a tap on a command calls it', page.text(0, 50)[0].split(' |')[0], 'A.Text')
    tap(page, 5, 1)
    page.type('by hand')
    same('typed', page.text(1, 50)[0], 'by hand')
    page.control('z')
    page.until("document.getElementById('line').textContent.includes('undid')")
    same('the last word is taken back', page.text(1, 50)[0], 'by')
    if PICTURES:
        page.shot(f'{PICTURES}/{kind}-phone.png')


kinds = browsers()
if not kinds:
    sys.exit(print('no browser here: skipped'))
for one in kinds:
    print(one.__name__)
    profile = room()
    desk = one(profile)
    address = served()
    desk.begin(address, plain=False)
    visits(desk)
    if one is not WebKit:
        zooms(desk)
        desk.begin(address.replace('desk.html', 'desk.html?store=another'))
        looks(desk)
    desk.quit()
    shutil.rmtree(profile, ignore_errors=True)
print('done')
