"""Chromium, Firefox and WebKit without a window, driven over a pipe and over sockets of this machine: no library but Python's
own."""
import base64
import functools
import glob
import http.server
import json
import os
import shutil
import signal
import socket
import subprocess
import tempfile
import threading
import time
import urllib.error
import urllib.request

TOP = os.path.dirname(os.path.dirname(os.path.dirname(os.path.realpath(__file__))))
BUTTONS = {'left': (0, 1), 'middle': (1, 4), 'right': (2, 2)}
SILENT = {'stdout': subprocess.DEVNULL, 'stderr': subprocess.DEVNULL, 'start_new_session': True}
ROWS = '''JSON.stringify([...document.querySelectorAll('#screen text')].map(t =>
    [t.getAttribute('x') / 9, Math.floor(t.getAttribute('y') / 19), t.textContent]))'''
# What counts the presses that a scene has answered, and how long each took: around what goes to the worker and comes from it.
HARNESS = '''(() => {
    if (window.tried) return;
    const tried = window.tried = { sent: [], times: [], said: [], worker: null }, post = Worker.prototype.postMessage;
    Worker.prototype.postMessage = function (...words) {
        if (this !== tried.worker) {
            tried.worker = this;
            tried.sent = [];
            this.addEventListener('message', ({ data }) => {
                if ('svg' in data && tried.sent.length) tried.times.push(performance.now() - tried.sent.shift());
            });
        }
        const said = words[0], press = said.press || said.words?.press;
        if (press) tried.said.push(String.fromCharCode(...press));
        if (press || said.bring || ['bring', 'forget', 'past'].includes(said.ask)) tried.sent.push(performance.now());
        return post.apply(this, words);
    };
})()'''
READY = 'document.body && (document.body.dataset.ready || document.body.dataset.failed)'
IS_SET = "document.body && ['file', 'table', 'memory'].includes(document.body.dataset.ready) || document.body.dataset.failed"
KEYS = {'\r': ('Enter', '\ue007'), '\x1b': ('Escape', '\ue00c')}


class Page:
    """What both browsers have in common: a page of the desktop, and what it shows."""

    def until(self, code, seconds=60):
        end = time.time() + seconds
        while time.time() < end:
            value = self.js(code)
            if value:
                return value
            time.sleep(0.02)
        raise TimeoutError(f'{code}; {self.js("JSON.stringify(document.body.dataset)")}; {self.note()}')

    def ended(self):
        """Waits for the end. A page with a desktop in memory asks first: then it is killed."""
        try:
            self.process.wait(8)
        except subprocess.TimeoutExpired:
            os.killpg(self.process.pid, signal.SIGKILL)
            self.process.wait()

    def note(self):
        """What the line says of how the desktop is kept, and of what was asked for last."""
        return self.js('document.getElementById("note").textContent')

    def begin(self, url, plain=True):
        """Opens the page. The text that a new desktop opens with is closed again, if it isn't wanted."""
        self.go(url)
        self.until(IS_SET)
        self.js(HARNESS)
        self.count = self.js('tried.times.length')
        kept = self.js('document.body.dataset.ready || "failed: " + document.body.dataset.failed')
        if plain and not kept.startswith('failed'):
            self.plain()
        return kept

    def plain(self):
        """Closes the text that a new desktop opens with. It isn't stored, so the desktop asks: the second press closes it."""
        if self.js('document.title') == 'Nealtsjom' and any('Five steps' in row for row in self.text(0, 50)):
            self.call('System.Close', 0, 50)
            if any('Five steps' in row for row in self.text(0, 50)):
                self.call('System.Close', 0, 50)

    def wait(self, more):
        """Until so many more presses have been answered by a scene."""
        self.count += more
        self.until(f'tried.times.length >= {self.count}')

    def rows(self):
        """The texts of the screen, with their places in cells."""
        return self.js(ROWS)

    def text(self, low=0, high=80):
        """The text between two columns, row by row from the top."""
        lines = {}
        for x, y, part in json.loads(self.rows()):
            if low <= x < high:
                lines.setdefault(y, []).append((x, part.rstrip()))
        return [' '.join(part for _, part in sorted(lines[y])).rstrip() for y in sorted(lines)]

    def cell(self, x, y):
        """The point in the middle of a cell."""
        return self.js(f'(box => [box.left + ({x} + 0.5) * box.width / 80, box.top + ({y} + 0.5) * box.height / 32])'
                       '(document.getElementById("screen").getBoundingClientRect())')

    def find(self, word, low=0, high=80):
        """The cell of the first character of a word that is shown."""
        for x, y, part in json.loads(self.rows()):
            if word in part and low <= x < high:
                return int(x) + part.index(word), y
        raise LookupError(word)

    def call(self, word, low=0, high=80):
        x, y = self.find(word, low, high)
        self.click(x + 1, y, 'middle')


class Chromium(Page):
    def __init__(self, profile, *flags):
        commands, to = os.pipe()
        back, answers = os.pipe()

        def set_up():
            os.dup2(commands, 1000)
            os.dup2(answers, 1001)
            os.dup2(1000, 3)
            os.dup2(1001, 4)

        words = ['chromium', '--headless', '--no-sandbox', '--disable-gpu', '--no-first-run', f'--user-data-dir={profile}',
                 '--remote-debugging-pipe', '--window-size=900,900', *flags, 'about:blank']
        self.process = subprocess.Popen(words, preexec_fn=set_up, close_fds=False, **SILENT)
        os.close(commands)
        os.close(answers)
        self.to, self.back, self.number, self.left, self.session, self.events, self.count = to, back, 0, b'', None, [], 0

    def ask(self, method, **params):
        self.number += 1
        message = {'id': self.number, 'method': method, 'params': params, **({'sessionId': self.session} if self.session else {})}
        os.write(self.to, json.dumps(message).encode() + b'\0')
        while True:
            got = json.loads(self.line())
            if got.get('id') == self.number:
                if 'error' in got:
                    raise RuntimeError(got['error'])
                return got['result']
            self.events.append(got)

    def line(self):
        parts = [self.left]
        while b'\0' not in parts[-1]:
            parts.append(os.read(self.back, 1 << 20))
            if not parts[-1]:
                raise EOFError
        one, self.left = b''.join(parts).split(b'\0', 1)
        return one

    def go(self, url):
        self.session = None
        self.target = self.ask('Target.createTarget', url='about:blank')['targetId']
        self.session = self.ask('Target.attachToTarget', targetId=self.target, flatten=True)['sessionId']
        self.ask('Page.enable')
        self.ask('Runtime.enable')
        self.ask('Page.navigate', url=url)
        time.sleep(0.1)

    def js(self, code, wait=False):
        answer = self.ask('Runtime.evaluate', expression=code, returnByValue=True, awaitPromise=wait)
        if 'exceptionDetails' in answer:
            if 'is not defined' in str(answer) or 'null' in str(answer):
                return None
            raise RuntimeError(answer['exceptionDetails'])
        return answer['result'].get('value')

    def mouse(self, kind, x, y, name, held=None):
        button, mask = BUTTONS[name]
        at = self.cell(x, y)
        down = {'mousePressed': mask, 'mouseReleased': 0}[kind] if held is None else held
        self.ask('Input.dispatchMouseEvent', type=kind, x=at[0], y=at[1], button=name, buttons=down, clickCount=1)

    def press(self, x, y, name, held=None):
        self.mouse('mousePressed', x, y, name, held)

    def release(self, x, y, name, held=None):
        self.mouse('mouseReleased', x, y, name, held)

    def click(self, x, y, name='left'):
        self.press(x, y, name)
        self.release(x, y, name)
        self.wait(2)

    def type(self, words, wait=True):
        for c in words:
            key = KEYS.get(c, (c,))[0]
            self.ask('Input.dispatchKeyEvent', type='keyDown', key=key, text=c)
            self.ask('Input.dispatchKeyEvent', type='keyUp', key=key)
        if wait:
            self.wait(len(words))

    def control(self, letter):
        for kind in ('keyDown', 'keyUp'):
            self.ask('Input.dispatchKeyEvent', type=kind, key=letter, code=f'Key{letter.upper()}',
                     windowsVirtualKeyCode=ord(letter.upper()), modifiers=2)
        self.wait(1)

    def move(self, x, y):
        at = self.cell(x, y)
        self.ask('Input.dispatchMouseEvent', type='mouseMoved', x=at[0], y=at[1])

    def double(self, x, y):
        at = self.cell(x, y)
        for count in (1, 2):
            for what in ('mousePressed', 'mouseReleased'):
                self.ask('Input.dispatchMouseEvent', type=what, x=at[0], y=at[1], button='left', clickCount=count)

    def touch(self, x, y):
        at = self.cell(x, y)
        self.ask('Input.dispatchTouchEvent', type='touchStart', touchPoints=[{'x': at[0], 'y': at[1]}])
        self.ask('Input.dispatchTouchEvent', type='touchEnd', touchPoints=[])

    def shift_tab(self):
        self.tab(8)

    def tab(self, held=0):
        for kind in ('rawKeyDown', 'keyUp'):
            self.ask('Input.dispatchKeyEvent', type=kind, key='Tab', code='Tab', windowsVirtualKeyCode=9, modifiers=held)

    def dark(self):
        self.ask('Emulation.setEmulatedMedia', features=[{'name': 'prefers-color-scheme', 'value': 'dark'}])

    def sized(self, width, height, scale=1, mobile=False):
        """The window has this size in pixels of the page; on a phone it takes touches."""
        self.ask('Emulation.setDeviceMetricsOverride', width=width, height=height, deviceScaleFactor=scale, mobile=mobile)
        self.ask('Emulation.setTouchEmulationEnabled', enabled=mobile)

    def zoomed(self, times):
        """A window of 1366 by 633 whose page is zoomed: so many of its pixels are one of the page's."""
        self.sized(round(1366 / times), round(633 / times), times)

    def clear(self, url):
        """Clears the data of the site, as a person may."""
        self.ask('Storage.clearDataForOrigin', origin=url.rsplit('/', 1)[0], storageTypes='all')

    def told(self):
        """What the browser tells a screen reader, as text."""
        return str(self.ask('Accessibility.getFullAXTree'))

    def shot(self, path):
        with open(path, 'wb') as file:
            file.write(base64.b64decode(self.ask('Page.captureScreenshot')['data']))

    def end(self, sure):
        os.killpg(self.process.pid, signal.SIGKILL if sure else signal.SIGTERM)
        self.process.wait(30)
        os.close(self.to)
        os.close(self.back)

    def kill(self):
        self.end(True)

    def quit(self):
        try:
            self.session = None
            self.ask('Browser.close')
        except (EOFError, OSError):
            pass
        self.ended()
        os.close(self.to)
        os.close(self.back)


class Firefox(Page):
    def __init__(self, profile, *prefs):
        with socket.socket() as free:
            free.bind(('127.0.0.1', 0))
            port = free.getsockname()[1]
        os.makedirs(profile, exist_ok=True)
        with open(f'{profile}/user.js', 'w', encoding='ascii') as file:
            said = (f'"marionette.port", {port}', '"browser.shell.checkDefaultBrowser", false', *prefs)
            file.write(''.join(f'user_pref({pref});\n' for pref in said))
        words = ['firefox-esr', '--headless', '--marionette', '--profile', profile, '--no-remote', '--remote-allow-system-access',
                 '--width', '900', '--height', '980']
        self.process = subprocess.Popen(words, **SILENT)
        for _ in range(600):
            try:
                self.socket = socket.create_connection(('127.0.0.1', port))
                break
            except OSError:
                time.sleep(0.1)
        self.left, self.number, self.count = b'', 0, 0
        self.read()
        self.ask('WebDriver:NewSession', capabilities={})
        self.ask('WebDriver:SetTimeouts', script=600000)

    def read(self):
        while b':' not in self.left:
            self.left += self.more()
        size, rest = self.left.split(b':', 1)
        while len(rest) < int(size):
            rest += self.more()
        self.left = rest[int(size):]
        return json.loads(rest[:int(size)])

    def more(self):
        got = self.socket.recv(1 << 20)
        if not got:
            raise EOFError
        return got

    def ask(self, name, **params):
        self.number += 1
        message = json.dumps([0, self.number, name, params]).encode()
        self.socket.sendall(b'%d:' % len(message) + message)
        answer = self.read()
        if answer[2]:
            raise RuntimeError(answer[2])
        return answer[3]

    def go(self, url):
        self.ask('WebDriver:Navigate', url=url)

    def js(self, code, wait=False):
        script = 'return eval(arguments[0])'              # not window.eval, which the page's own policy forbids
        if wait:
            script = 'const done = arguments[1]; Promise.resolve(eval(arguments[0])).then(done)'
        how = 'WebDriver:ExecuteAsyncScript' if wait else 'WebDriver:ExecuteScript'
        return self.ask(how, script=script, args=[code], sandbox=None)['value']

    def pointer(self, *acts):
        mouse = {'type': 'pointer', 'id': 'mouse', 'parameters': {'pointerType': 'mouse'}, 'actions': list(acts)}
        self.ask('WebDriver:PerformActions', actions=[mouse])

    def to(self, x, y):
        at = self.cell(x, y)
        return {'type': 'pointerMove', 'x': int(at[0]), 'y': int(at[1]), 'duration': 0}

    def press(self, x, y, name, held=None):
        self.pointer(self.to(x, y), {'type': 'pointerDown', 'button': BUTTONS[name][0]})

    def release(self, x, y, name, held=None):
        self.pointer(self.to(x, y), {'type': 'pointerUp', 'button': BUTTONS[name][0]})

    def click(self, x, y, name='left'):
        button = BUTTONS[name][0]
        self.pointer(self.to(x, y), {'type': 'pointerDown', 'button': button}, {'type': 'pointerUp', 'button': button})
        self.wait(2)

    def type(self, words, wait=True):
        acts = []
        for c in words:
            key = KEYS.get(c, (c, c))[1]
            acts += [{'type': 'keyDown', 'value': key}, {'type': 'keyUp', 'value': key}]
        self.ask('WebDriver:PerformActions', actions=[{'type': 'key', 'id': 'keys', 'actions': acts}])
        if wait:
            self.wait(len(words))

    def control(self, letter):
        acts = [{'type': kind, 'value': key} for kind, key in
                (('keyDown', '\ue009'), ('keyDown', letter), ('keyUp', letter), ('keyUp', '\ue009'))]
        self.ask('WebDriver:PerformActions', actions=[{'type': 'key', 'id': 'keys', 'actions': acts}])
        self.wait(1)

    def move(self, x, y):
        self.pointer(self.to(x, y))

    def double(self, x, y):
        acts = [{'type': kind, 'button': 0} for kind in ('pointerDown', 'pointerUp', 'pointerDown', 'pointerUp')]
        self.pointer(self.to(x, y), *acts)

    def touch(self, x, y):
        acts = [self.to(x, y), {'type': 'pointerDown', 'button': 0}, {'type': 'pointerUp', 'button': 0}]
        finger = {'type': 'pointer', 'id': 'finger', 'parameters': {'pointerType': 'touch'}, 'actions': acts}
        self.ask('WebDriver:PerformActions', actions=[finger])

    def shift_tab(self):
        self.keys(('keyDown', '\ue008'), ('keyDown', '\ue004'), ('keyUp', '\ue004'), ('keyUp', '\ue008'))

    def tab(self):
        self.keys(('keyDown', '\ue004'), ('keyUp', '\ue004'))

    def keys(self, *acts):
        acts = [{'type': kind, 'value': key} for kind, key in acts]
        self.ask('WebDriver:PerformActions', actions=[{'type': 'key', 'id': 'keys', 'actions': acts}])

    def dark(self):
        self.ask('Marionette:SetContext', value='chrome')
        self.ask('WebDriver:ExecuteScript', args=[], sandbox='system',
                 script='Services.prefs.setIntPref("layout.css.prefers-color-scheme.content-override", 0)')
        self.ask('Marionette:SetContext', value='content')

    def sized(self, width, height, scale=1, mobile=False):
        """The window has about this size: Firefox has a least width, and counts its frame."""
        self.ask('WebDriver:SetWindowRect', width=width, height=height)

    def zoomed(self, times):
        """A window of 1366 by 760 whose page is zoomed: so many of its pixels are one of the page's."""
        self.sized(1366, 760)
        self.ask('Marionette:SetContext', value='chrome')
        self.ask('WebDriver:ExecuteScript', args=[times], sandbox='system',
                 script='Services.wm.getMostRecentWindow("navigator:browser").ZoomManager.zoom = arguments[0]')
        self.ask('Marionette:SetContext', value='content')

    def clear(self, url):
        """Clears the data of the site, as a person may."""
        self.ask('Marionette:SetContext', value='chrome')
        self.ask('WebDriver:ExecuteAsyncScript', args=[url.split('/')[2].split(':')[0]], sandbox='system', script="""
            const [host, done] = arguments;
            Services.clearData.deleteDataFromHost(host, true, Ci.nsIClearDataService.CLEAR_DOM_QUOTA, done);""")
        self.ask('Marionette:SetContext', value='content')

    def told(self):
        """Roles and names that the browser tells a screen reader of each part of the text, and their texts."""
        found = self.ask('WebDriver:FindElements', using='css selector', value='#words, #words section')
        said = []
        for element in found:
            which = {'id': next(iter(element.values()))}
            said.append((self.ask('WebDriver:GetComputedRole', **which)['value'],
                         self.ask('WebDriver:GetComputedLabel', **which)['value']))
        return str(said) + self.js('document.getElementById("words").textContent')

    def shot(self, path):
        with open(path, 'wb') as file:
            file.write(base64.b64decode(self.ask('WebDriver:TakeScreenshot', full=False, hash=False)['value']))

    def kill(self):
        os.killpg(self.process.pid, signal.SIGKILL)
        self.process.wait()

    def quit(self):
        try:
            self.ask('Marionette:Quit', flags=['eForceQuit'])
        except (EOFError, OSError, RuntimeError):
            pass
        self.ended()


class WebKit(Firefox):
    """What Safari is built on, in its form for GTK (webkit2gtk-driver and xvfb of Debian). It keeps a store in a table, until
    it ends."""

    def __init__(self, profile, *_):
        with socket.socket() as free:
            free.bind(('127.0.0.1', 0))
            port = free.getsockname()[1]
        where = {'HOME': profile, **{f'XDG_{it}_HOME': f'{profile}/{it}' for it in ('DATA', 'CACHE', 'CONFIG')}}
        words = ['xvfb-run', '-a', '-s', '-screen 0 1920x1200x24', 'WebKitWebDriver', f'--port={port}']
        safe = {'WEBKIT_DISABLE_SANDBOX_THIS_IS_DANGEROUS': '1', 'WEBKIT_DISABLE_COMPOSITING_MODE': '1'}
        self.process = subprocess.Popen(words, env={**os.environ, **where, **safe}, **SILENT)
        self.address, self.count = f'http://127.0.0.1:{port}', 0
        for _ in range(600):
            try:
                self.over_http('GET', '/status')
                break
            except OSError:
                time.sleep(0.1)
        program = glob.glob('/usr/lib/*/webkit2gtk-4.*/MiniBrowser')[0]
        wanted = {'webkitgtk:browserOptions': {'binary': program, 'args': ['--automation']}}
        made = self.over_http('POST', '/session', {'capabilities': {'alwaysMatch': wanted}})
        self.address += f'/session/{made["sessionId"]}'
        self.over_http('POST', '/timeouts', {'script': 600000})

    def over_http(self, method, path, body=None):
        data = None if body is None else json.dumps(body).encode()
        asked = urllib.request.Request(self.address + path, data, {'Content-Type': 'application/json'}, method=method)
        try:
            with urllib.request.urlopen(asked, timeout=600) as answer:
                return json.load(answer)['value']
        except urllib.error.HTTPError as error:
            raise RuntimeError(error.read()) from None

    def ask(self, name, **params):
        path = {'WebDriver:PerformActions': '/actions', 'WebDriver:SetWindowRect': '/window/rect'}[name]
        return self.over_http('POST', path, params)

    def go(self, url):
        self.over_http('POST', '/url', {'url': url})

    def js(self, code, wait=False):
        """The value of an expression (the page's own policy forbids what is evaluated)."""
        if wait:
            script = f'const done = arguments[0]; Promise.resolve({code}).then(done)'
            return self.over_http('POST', '/execute/async', {'script': script, 'args': []})
        try:
            return self.over_http('POST', '/execute/sync', {'script': f'return ({code.strip().rstrip(";")}\n)', 'args': []})
        except RuntimeError as error:
            if 'find variable' in str(error) or 'null' in str(error):
                return None
            raise

    def shot(self, path):
        with open(path, 'wb') as file:
            file.write(base64.b64decode(self.over_http('GET', '/screenshot')))

    def quit(self):
        try:
            self.over_http('DELETE', '')
        except (OSError, RuntimeError):
            pass
        os.killpg(self.process.pid, signal.SIGTERM)
        self.process.wait()


def browsers():
    """Chromium and Firefox, where they are on this machine, or the one that BROWSER in the environment names, WebKit too."""
    there = {Chromium: 'chromium', Firefox: 'firefox-esr', WebKit: 'WebKitWebDriver'}
    asked = os.environ.get('BROWSER', 'Chromium Firefox').split()
    return [one for one, program in there.items() if one.__name__ in asked and shutil.which(program)]


# The file that is tried: that of docs, or the one that PAGE in the environment names.
FILE = os.environ.get('PAGE', f'{TOP}/docs/desk.html')


def copied(into, name='desk.html', change=lambda text: text):
    """A copy of the file in a folder, changed."""
    with open(FILE, encoding='utf-8', newline='') as file:
        text = file.read()
    with open(f'{into}/{name}', 'w', encoding='utf-8', newline='') as file:
        file.write(change(text))


def served(folder=None):
    """The address of the page, served from this machine."""
    if not folder:
        folder = room()
        copied(folder)

    return f'{site(folder)}/desk.html'


def site(folder, asked=None):
    """The address of a folder, served from this machine. Each path that begins with /leak goes to the list."""
    class Quiet(http.server.SimpleHTTPRequestHandler):
        def log_message(self, *words):
            if asked is not None and self.path.startswith('/leak'):
                asked.append(self.path)

    server = http.server.ThreadingHTTPServer(('127.0.0.1', 0), functools.partial(Quiet, directory=folder))
    threading.Thread(target=server.serve_forever, daemon=True).start()
    return f'http://127.0.0.1:{server.server_port}'


def leaks(worker=''):
    """The address of the page, and a list of what is asked for beside it. Its worker begins with these words, in which %s is
    the address of the site."""
    folder, asked = room(), []
    address, head = site(folder, asked), '<script type="text/plain" id="worker">\n'
    copied(folder, change=lambda text: text.replace(head, head + worker.replace('%s', address)))
    return f'{address}/desk.html', asked


def room():
    return tempfile.mkdtemp(prefix='desk-page-')
