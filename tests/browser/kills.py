#!/usr/bin/env python3
"""kills.py [ROUNDS [SEED]]: a browser is killed by signal 9 while a person types, again and again, and the page opened anew. What
was shown before the kill has to be there, and nothing but a front of what was sent. Where that isn't so, all three are printed."""
import os
import random
import shutil
import signal
import sys
import threading
import time

from browsers import FILE, browsers, room, served

ROUNDS = int(sys.argv[1]) if len(sys.argv) > 1 else 30
random.seed(int(sys.argv[2]) if len(sys.argv) > 2 else 1)
SHOWN = '''[...document.querySelectorAll('#screen text')].filter(t => +t.getAttribute('x') === 9 && +t.getAttribute('y') > 14)
    .map(t => t.textContent.trimEnd()).join('')'''


def rounds(kind, url):
    profile, sent, seen, lost = room(), '', '', 0
    for count in range(ROUNDS):
        page = kind(profile)
        ready = page.begin(url)
        if count == 0:
            page.call('Edit.Open', 50)
            page.click(2, 1)
        now = page.js(SHOWN)
        typed = sent.replace('\r', '')
        good = now.startswith(seen) and typed.startswith(now)
        lost += not good
        print(f'{kind.__name__} {ready}: shown before the kill {len(seen)}, sent {len(typed)}, there after it {len(now)}'
              + ('' if good else f': LOST\n  shown {seen}\n  there {now}\n  sent {typed}'), flush=True)
        # (whether Return came behind a full row isn't seen: it is sent again, so that no row passes the frame's 49 columns)
        sent = ''.join(c + ('\r' if i % 39 == 38 else '') for i, c in enumerate(now)).rstrip('\r')
        seen = now
        threading.Timer(random.uniform(0.1, 1.5), os.killpg, (page.process.pid, signal.SIGKILL)).start()
        try:
            while len(sent) < 1100:
                c = '\r' if len(sent) % 40 == 39 else random.choice('abcdefghij')
                sent += c
                page.type(c, wait=False)
                if random.random() < 0.5:
                    now = page.js(SHOWN)
                    if now is not None:
                        seen = now
            time.sleep(2)
        except (EOFError, OSError):
            pass
        page.process.wait()
        if len(sent) >= 1000:                    # the viewer is nearly full: a new store
            shutil.rmtree(profile)
            profile, sent, seen = room(), '', ''
            fresh = kind(profile)
            fresh.begin(url)
            fresh.call('Edit.Open', 50)
            fresh.click(2, 1)
            fresh.quit()
        time.sleep(0.3)
    shutil.rmtree(profile, ignore_errors=True)
    return lost


kinds = browsers()
if not kinds:
    sys.exit(print('no browser here: skipped'))
failed = 0
for one in kinds:
    for address in (served(), f'file://{FILE}'):
        failed += rounds(one, address)
print('lost', failed)
sys.exit(failed != 0)
