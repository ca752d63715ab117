"""How sittings begin and end: the terminal is as it was before, what was seen is in the store, and where something is
wrong one sentence says why."""
import filecmp
import multiprocessing
import os
import random
import re
import shutil
import signal
import subprocess
import tempfile
import termios
import time

from model import GREETING, KEYS, NO_CARET, NO_KEY, ONE_SIDE, ROWS, TOO_NARROW, UNREAD, UNSTORED, Screen, within
from sitting import Ended, Sitting

LETTERS = 'abcdefghijklmnopqrstuvwxyz'
AT_A_TIME = 3
OVER_TWINS = 'killed over two files'
STORE = b'\x1b[<1;48;1M\x1b[<1;48;1m'  # a middle click on Edit.Store in the menu of A.Text
TESTS = os.path.dirname(os.path.dirname(os.path.dirname(os.path.realpath(__file__))))
MARKED = f'A.Text{UNSTORED}'
FORGETTING = 'Leaving loses what you took back: Ctrl-Q leaves, Ctrl-Y does it again.'
NOTHING_BACK = 'There is nothing to take back.'
NO_FURTHER = 'Undo reaches no further back.'
PAST_BEGINS = 'All you do is kept from now on: Ctrl-P shows it, desk forget deletes it.'
NO_PAST = 'No past is kept in this sitting: it can\'t be written (is the disk full?).'
BEGIN = ['file System.Tool Edit.Open A.Text%0d', 'point m 60 31 60 31', 'point m 52 30 52 30', 'point l 1 30 1 30']


def click_at(column, row):
    return b'\x1b[<0;%d;%dM\x1b[<0;%d;%dm' % (column, row, column, row)


def text_of(rows):
    """The characters of the document in the user track, without the ends of its lines."""
    return ''.join(row[1:50].rstrip() for row in rows[1:ROWS])


def shown(cells):
    return [''.join(character for character, _ in row) for row in cells]


def is_there(process):
    """Whether the process runs; one that has ended may wait for somebody to ask how."""
    try:
        with open(f'/proc/{process}/stat', encoding='ascii') as stat:
            return stat.read().rsplit(')', 1)[1].split()[0] not in 'ZX'
    except OSError:
        return False


class Trial:
    """What one trial works with: a folder of its own, and what was wrong."""

    def __init__(self, desk, oberon, chance):
        self.desk, self.oberon, self.chance = desk, oberon, chance
        self.folder = tempfile.mkdtemp()
        self.path = f'{self.folder}/my.disk'
        self.sittings = []
        self.wrong = []

    def stop(self):
        """Nothing is left of it."""
        for sitting in self.sittings:
            sitting.stop()
        shutil.rmtree(self.folder)

    def check(self, is_so, text):
        if not is_so:
            self.wrong.append(text)

    def oberon_says(self, *words, lines=()):
        script = ''.join(line + '\n' for line in lines).encode()
        return subprocess.run([self.oberon, *words], input=script, stdout=subprocess.PIPE, check=True).stdout.decode()

    def desk_says(self, *words):
        return subprocess.run([self.desk, *words], stdout=subprocess.PIPE, check=True).stdout.decode()

    def store(self):
        """A store with an empty document in a viewer, which has the caret."""
        self.store_at(self.path, 0)

    def store_at(self, path, checkpoints):
        """The same under another path, with so many checkpoints after it."""
        self.oberon_says('format', path)
        self.oberon_says('play', path, lines=BEGIN + ['checkpoint'] * checkpoints)

    def begin(self, *words, rows, columns):
        self.sittings.append(Sitting(words, rows, columns, self.folder, {'TMPDIR': self.folder}))
        return self.sittings[-1]

    def sit(self, *words, rows=33, columns=80, before=()):
        sitting = self.begin(*before, self.desk, *words, rows=rows, columns=columns)
        sitting.wait(lambda: sitting.terminal.scenes > 0)
        return sitting

    def sit_anew(self, *options, before=()):
        """A sitting over a store of its own."""
        self.store()
        return self.sit(*options, self.path, before=before)

    def leaves(self, sitting, keys=b'\x11', forgets=False):
        """The keys, of which one leaves, end it well. Where what was taken back can be done again they ask first."""
        sitting.press(keys)
        if forgets:
            self.tells(sitting, FORGETTING)
            sitting.press(keys)
        self.check(sitting.end() == 0 and sitting.is_put_back, f'status {sitting.status}')

    def tells(self, sitting, line):
        """The line below says this."""
        row = min(sitting.terminal.rows - 1, ROWS)
        self.check(sitting.wait(lambda: sitting.terminal.line(row) == line), f'{sitting.terminal.line(row)!r}, wanted {line!r}')

    def typing(self, sitting):
        """Types as fast as it is taken, for a random time, and returns what was to be typed."""
        text = ''.join(self.chance.choice(LETTERS) for _ in range(800))
        data = '\r'.join(text[at:at + 40] for at in range(0, len(text), 40)).encode()
        stop = time.monotonic() + self.chance.random() * 0.3
        while data and time.monotonic() < stop:
            sitting.press(data[:7])
            data = data[7:]
            sitting.read(0.001)
        return text

    def text(self, path=None):
        """The characters of the document in a store."""
        return text_of(Screen(self.oberon_says('screen', path or self.path).splitlines()[:-1]).rows)

    def kept(self, text, seen):
        """What was typed is kept as far as it was seen, and nothing else is."""
        kept = self.text()
        self.check(kept.startswith(seen), f'{seen!r} was seen and {kept!r} is kept')
        self.check(text.startswith(kept), f'{kept!r} is kept of {text!r}')

    def refused(self, status, *words, rows=33, columns=80, says=()):
        """The desk doesn't begin, says why in one line, and leaves the terminal as it was."""
        sitting = self.begin(self.desk, *words, rows=rows, columns=columns)
        self.check(sitting.end() == status, f'status {sitting.status}')
        self.check(sitting.is_put_back, 'the terminal was not put back')
        said = [line for line in sitting.terminal.lines() if line]
        self.check(len(said) in (1, 2) and said[0].startswith('desk: '), f'it says {said}')
        self.check(all(word in ''.join(said) for word in says), f'it says {said}')


    def stored(self, sitting):
        """Has the document in the user track stored, leaves, and returns the document's text."""
        sitting.press(STORE)
        self.check(sitting.look_anew(), 'no scene')
        sitting.press(b'\x11')
        self.check(sitting.end() == 0, f'status {sitting.status}')
        words = [self.desk, 'export', self.path, 'A.Text']
        return subprocess.run(words, stdout=subprocess.PIPE, check=True).stdout


# ---- ends


def amid_typing(trial, before=()):
    """A sitting in which something was typed: the sitting, what was typed, and the program's number."""
    sitting = trial.sit_anew(before=before)
    text = trial.typing(sitting)
    return sitting, text, sitting.program()


def killed(number, at_program, status):
    """A signal amid typing."""
    def run(trial):
        sitting, text, program = amid_typing(trial)
        os.kill(program if at_program else sitting.process, number)
        trial.check(sitting.end() == status, f'status {sitting.status} and not {status}')
        trial.check(sitting.is_put_back, 'the terminal was not put back')
        trial.check(not sitting.terminal.mistakes, f'unknown to the terminal: {sitting.terminal.mistakes[:3]}')
        trial.check(not is_there(program), 'the program is still there')
        trial.kept(text, text_of(shown(sitting.terminal.left)))
    return run


def killed_over_twins(trial):
    """Signal 9 at the program amid typing over two files. When either of them is gone the other one opens, and has all that
    was seen; before that one of them opens together with the other, and both are equal then."""
    trial.store()
    twin = f'{trial.folder}/twin'
    sitting = trial.sit(trial.path, '--twin', twin)
    text = trial.typing(sitting)
    os.kill(sitting.program(), signal.SIGKILL)
    trial.check(sitting.end() == 137 and sitting.is_put_back, f'status {sitting.status}')
    seen, both = text_of(shown(sitting.terminal.left)), (trial.path, twin)
    for number, it in enumerate(both):
        shutil.copyfile(it, f'{trial.folder}/kept{number}')
    for number in range(len(both)):
        os.remove(both[1 - number])
        trial.path = both[number]
        trial.kept(text, seen)
        trial.leaves(trial.sit(trial.path))
        trial.kept(text, seen)
        for again, it in enumerate(both):
            shutil.copyfile(f'{trial.folder}/kept{again}', it)
    trial.path = both[0]
    trial.leaves(trial.sit(trial.path, '--twin', twin))
    trial.check(filecmp.cmp(*both, shallow=False), 'the files are not equal again')
    trial.kept(text, seen)


def killed_with_a_past(trial):
    """Signal 9 at the program, three times, at a desk that keeps its past from the first time on. Each letter is listed, also
    those that a Ctrl-Z took back, and a store that is gone back to shows the letters up to there. Ctrl-Y does it again."""
    trial.store()
    typed = ''
    for turn in range(3):
        sitting = trial.sit(trial.path)
        for _place in range(150):
            letter = trial.chance.choice(LETTERS)
            typed += letter
            trial.check(sitting.hear(letter.encode() + b'\r' * (len(typed) % 40 == 0)), 'no scene')
        if turn == 2:
            trial.check(sitting.hear(b'\x1a'), 'no scene')
        os.kill(sitting.program(), signal.SIGKILL)
        trial.check(sitting.end() == 137 and sitting.is_put_back, f'status {sitting.status}')
    kept = trial.text()
    trial.check(400 < len(kept) < 450 and typed.startswith(kept), f'{kept!r} is kept of {typed!r}')
    history = trial.desk_says('history', trial.path, '--all')
    trial.check(history.splitlines()[0].endswith('turn back to an earlier moment'), history.splitlines()[0])
    listed = re.findall('typed "(.)"', history)
    trial.check(''.join(reversed(listed)) == typed, f'{len(listed)} letters are listed of {len(typed)}')
    for back in (1, 171, 401):
        now = trial.desk_says('earlier', trial.path, str(back), f'{trial.folder}/then{back}')
        was = trial.text(f'{trial.folder}/then{back}')
        trial.check(typed.startswith(was) and 0 <= back - 1 - (len(typed) - len(was)) <= 25, f'{back} back: {was!r}, {now}')
    sitting = trial.sit(trial.path)
    trial.check(sitting.hear(b'\x19'), 'no scene')
    trial.leaves(sitting)
    trial.check(trial.text() == typed, f'{trial.text()!r} is done again of {typed!r}')


def undone_to_the_beginning(trial):
    """A letter is taken back to the beginning at a desk that keeps its past, further than two journals reach, the program is
    killed, and all of it is done again."""
    trial.store()
    sitting = trial.sit(trial.path)
    before = shown(sitting.terminal.cells)
    words = [''.join(trial.chance.choice(LETTERS) for _ in range(trial.chance.randrange(1, 12))) for _ in range(110)]
    for place, word in enumerate(words):
        sitting.press(word.encode() + (b'\r' if place % 9 == 8 else b' '))
    trial.check(sitting.look_anew(), 'no scene')
    written = text_of(shown(sitting.terminal.cells))
    for _ in range(400):
        trial.check(sitting.hear(b'\x1a'), 'no scene')
        if re.search('nothing to take back|no further back', sitting.terminal.line(ROWS)):
            break
    trial.check(text_of(shown(sitting.terminal.cells)) == text_of(before), f'it goes back to {shown(sitting.terminal.cells)}')
    os.kill(sitting.program(), signal.SIGKILL)
    sitting.end()
    sitting = trial.sit(trial.path)
    for _ in range(400):
        trial.check(sitting.hear(b'\x19'), 'no scene')
        if 'nothing to do again' in sitting.terminal.line(ROWS):
            break
    trial.check(text_of(shown(sitting.terminal.cells)) == written, f'it is done again as {shown(sitting.terminal.cells)}')
    trial.leaves(sitting)


def script_killed(trial):
    """Where the script is ended by signal 9 the program goes too, and the terminal is as it is."""
    sitting, text, program = amid_typing(trial)
    os.kill(sitting.process, signal.SIGKILL)
    sitting.end()
    end = time.monotonic() + 60
    while is_there(program) and time.monotonic() < end:
        time.sleep(0.01)
    trial.check(not is_there(program), 'the program is still there')
    trial.kept(text, text_of(shown(sitting.terminal.cells)))


def hung_up(before):
    """The terminal goes away, and the script hears of it or not."""
    def run(trial):
        sitting, text, program = amid_typing(trial, before)
        trial.check(sitting.hang_up() is not None, 'the script does not end')
        trial.check(not is_there(program), 'the program is still there')
        trial.kept(text, text_of(shown(sitting.terminal.cells)))
    return run


def control_c(trial):
    """What is a signal elsewhere is a key. (What Ctrl-Z takes back, the click before the sitting, Ctrl-Y does again.)"""
    sitting = trial.sit_anew()
    for key in (b'\x03', b'\x1a', b'\x19', b'\x1c', b'\x04', b'\x13'):
        sitting.press(key)
    sitting.press(b'stillhere')
    trial.check(sitting.look_anew(), 'no scene')
    trial.leaves(sitting)
    trial.kept('stillhere', 'stillhere')


def left_amid(trial):
    """What is typed before the key that leaves is kept, and what comes after it isn't."""
    sitting = trial.sit_anew()
    trial.leaves(sitting, b'before\x11after')
    trial.kept('before', 'before')


def escape(trial):
    """The key Escape alone is heard after a while: the caret goes."""
    sitting = trial.sit_anew()
    trial.check(25 in sitting.terminal.modes, 'there is no caret')
    sitting.press(b'\x1b')
    trial.check(sitting.wait(lambda: 25 not in sitting.terminal.modes), 'the caret stays')
    trial.leaves(sitting)


# ---- a host that refuses


def refusing(trial, call, number):
    """Words before a program: the host refuses this one of its calls of that name (tests/c/fail_calls.c)."""
    library = f'{trial.folder}/calls.so'
    subprocess.run(['cc', '-shared', '-fPIC', '-o', library, f'{TESTS}/c/fail_calls.c'], check=True)
    return ['env', f'FAIL={call}', f'AT={number}', f'LD_PRELOAD={library}']


def disk_fails(trial):
    """Where a write or a sync of the store fails the sitting ends, and says so; what was seen is kept."""
    for call in ('pwrite', 'fdatasync'):
        sitting = trial.sit_anew('--no-past', before=refusing(trial, call, 60))
        text = ''.join(trial.chance.choice(LETTERS) for _ in range(100))
        try:
            for letter in text:
                sitting.press(letter.encode())
                sitting.read(0.02)
        except Ended:
            pass
        trial.check(sitting.end() == 4 and sitting.is_put_back, f'status {sitting.status} after a {call} that fails')
        said = ''.join(sitting.terminal.lines())
        wanted = f'reading or writing "{trial.path}" failed'
        trial.check(wanted.replace(' ', '') in said.replace(' ', ''), f'it says {said!r}')  # (a line may end at a blank)
        trial.kept(text, text_of(shown(sitting.terminal.left)))
        os.remove(trial.path)


def past_begins(trial):
    """A store that was there before is told once that a past begins, unless none is to, and a new store isn't. Where the host
    refuses a write of it the line below says so, and the sitting goes on without one."""
    for refused in (0, 3, 9):
        sitting = trial.sit_anew(before=refusing(trial, 'pwrite', refused))
        trial.tells(sitting, NO_PAST)
        text = ''.join(trial.chance.choice(LETTERS) for _ in range(40))
        sitting.press(text.encode())
        trial.check(sitting.look_anew(), 'no scene')
        trial.leaves(sitting)
        trial.kept(text, text)
        os.remove(trial.path)
    trial.store()
    for options, begins in ((['--no-past'], False), ([], True), ([], False), (['--no-past'], False)):
        sitting = trial.sit(*options, trial.path)
        line = sitting.terminal.line(ROWS)
        trial.check((line == PAST_BEGINS) == begins and line != NO_PAST, f'with {options} it says {line!r}')
        trial.leaves(sitting)
    sitting = trial.sit(f'{trial.folder}/new')
    trial.check(sitting.terminal.line(ROWS).startswith('Help: '), f'a new store says {sitting.terminal.line(ROWS)!r}')
    trial.leaves(sitting)
    for path in (trial.path, f'{trial.folder}/new'):
        blocks = os.stat(path).st_blocks * 512
        trial.check(blocks < 40_000_000, f'{path} has {blocks} bytes')


def folder_not_synced(trial):
    """Where the folder of a new store can't be synced that is told, and the store stays."""
    sitting = trial.begin(*refusing(trial, 'fsync', 0), trial.desk, trial.path, rows=33, columns=80)
    trial.check(sitting.end() == 4 and sitting.is_put_back, f'status {sitting.status}')
    said = ''.join(sitting.terminal.lines())
    trial.check('its folder could not be synced' in said, f'it says {said!r}')
    trial.check(trial.oberon_says('check', trial.path).startswith('ok'), 'there is no store')


# ---- texts


def lines_of(count):
    """A text of so many characters in lines."""
    return ('a line of some words\n' * (count // 21 + 1))[:count].encode()


def pasted(trial):
    """Pastes of as many bytes as an event has, one more, and a lot more."""
    for count in (900, 901, 5000):
        trial.store()
        sitting = trial.sit(trial.path)
        text = lines_of(count)
        sitting.press(b'\x1b[200~' + text + b'\x1b[201~')
        kept = trial.stored(sitting)
        trial.check(kept == text, f'{len(kept)} of {count} bytes are kept of a paste')


def killed_amid_paste(trial):
    """Signal 9 amid a paste."""
    sitting = trial.sit_anew()
    text = ''.join(trial.chance.choice(LETTERS) for _ in range(2400))
    data = '\r'.join(text[at:at + 40] for at in range(0, len(text), 40)).encode()
    sitting.press(b'\x1b[200~' + data[:trial.chance.randrange(len(data))])
    sitting.rest(0.02)
    os.kill(sitting.program(), signal.SIGKILL)
    trial.check(sitting.end() == 137 and sitting.is_put_back, f'status {sitting.status}')
    seen = text_of(shown(sitting.terminal.left))
    lines = trial.oberon_says('screen', trial.path).splitlines()
    kept = text_of(Screen(lines[:-1]).rows)
    trial.check(kept in text, f'{kept!r} is kept')
    trial.check(text.find(seen) + len(seen) <= text.find(kept) + len(kept), f'{seen!r} was seen and {kept!r} is kept')


def host_file(trial):
    """Files of the host are typed at the caret."""
    for count in (0, 1, 900, 901, 20_000):
        trial.store()
        text = lines_of(count)
        with open(f'{trial.folder}/a text', 'wb') as file:
            file.write(text)
        sitting = trial.sit(trial.path)
        sitting.press(b'\x0fa text\r')
        trial.check(sitting.look_anew(), 'no scene')
        kept = trial.stored(sitting)
        trial.check(kept == text, f'{len(kept)} of {count} bytes are kept of a file')


def no_host_file(trial):
    """A name of no file, of a folder, of a pipe, of a file that is too long: a sentence says which, and all goes on."""
    trial.store()
    os.mkfifo(f'{trial.folder}/pipe')
    with open(f'{trial.folder}/long', 'wb') as file:
        file.write(bytes(262_145))
    sitting = trial.sit(trial.path)
    none, special = UNREAD['none.txt'], UNREAD['pipe']
    for name, cause in (('none', none), ('.', UNREAD['.']), ('pipe', special), ('/dev/zero', special),
                        ('long', 'It has more than 262,144 bytes: nothing was typed.'), ('x' * 255, none)):
        bells = sitting.terminal.bells
        sitting.press(b'\x0f' + name.encode() + b'\r')
        trial.check(sitting.wait(lambda: sitting.terminal.bells > bells), f'{name[:9]}: no bell')
        # (of a name that is too long keys ring before Return, and the sentence comes after that)
        trial.check(sitting.wait(lambda: cause in sitting.terminal.line(ROWS)), f'{name[:9]}: {sitting.terminal.line(ROWS)!r}')
        sitting.press(b'a')
        trial.check(sitting.look_anew(), 'no scene')
    trial.leaves(sitting)
    trial.kept('aaaaaa', 'aaaaaa')


def named(trial, name, text):
    """A file of the host's in the folder where the desk runs."""
    with open(f'{trial.folder}/{name}', 'wb') as file:
        file.write(text)


def typed_by(trial, keys, wanted, said=None, then=b''):
    """The keys, pressed at one time, make this the text of a new document, and the line below says that. Others come
    then."""
    trial.store()
    sitting = trial.sit('--no-fill', trial.path)  # (some lines are longer than what is seen of them)
    sitting.press(keys)
    trial.check(sitting.look_anew(), 'no scene')
    sitting.rest(0.1)
    line = sitting.terminal.line(ROWS)
    trial.check(said is None or said in line, f'the line below is {line!r} after {keys[:40]!r}')
    sitting.press(then)
    kept = trial.stored(sitting)
    trial.check(kept == wanted, f'{kept[:80]!r} is kept of {keys[:40]!r}, and not {wanted[:80]!r}')


def pasted_name(trial):
    """What is pasted at the question is the name, of 255 bytes at most, and nothing of it is a key."""
    named(trial, 'a text', b'typed')
    named(trial, 'n' * 255, b'long')
    paste = b'\x1b[200~%s\x1b[201~'
    typed_by(trial, b'\x0f' + paste % b'a text' + b'\r', b'typed')
    typed_by(trial, b'\x0f' + paste % b'a text\r\n\x18\x11\x1b' + b'\r', b'typed')
    typed_by(trial, b'\x0f' + paste % b'a text\rrm -r x\x11\r', b'', 'Type which file? a textrm -r x', b'\x1b')
    typed_by(trial, b'\x0f' + paste % (b'n' * 300) + b'\r', b'long')


def behind_a_name(trial):
    """What is heard together with the end of a file's name comes after the file: a report of the mouse and a paste, cut
    anywhere, and a second file."""
    named(trial, 'a text', b'typed ')
    named(trial, 'b text', b'too')
    click = b'\x1b[<0;3;30M\x1b[<0;3;30m'
    for count in range(44, 56, 2):
        typed_by(trial, b'\x0fa text\r' + b'y' * count + click + b'.', b'typed ' + b'y' * count + b'.')
        typed_by(trial, b'\x0fa text\r' + b'y' * (count - 40) + b'\x1b[200~' + b'z' * 60 + b'\x1b[201~',
                 b'typed ' + b'y' * (count - 40) + b'z' * 60)
    typed_by(trial, b'\x0fa text\r\x0fb text\r!', b'typed too!')
    typed_by(trial, b'\x0fnone\r\x0fb text\r!', b'too!')


def names_and_sizes(trial):
    """Files by names of 13, 100 and 255 bytes; one whose reading fails; and one that is longer than there is room."""
    for count in (13, 100, 255):
        named(trial, 'n' * count, b'%d' % count)
        typed_by(trial, b'\x0f' + b'n' * count + b'\r', b'%d' % count)
    typed_by(trial, b'\x0f/proc/self/mem\r', b'', "can't be read to its end")
    named(trial, 'long', b'x' * 262_144)
    sitting = trial.sit_anew()
    sitting.press(b'\x0flong\r')
    wanted = '261900 characters typed, the rest dropped: no room'
    trial.check(sitting.wait(lambda: sitting.terminal.line(ROWS).startswith(wanted), 300), sitting.terminal.line(ROWS))
    trial.leaves(sitting)


def room_for(trial, count):
    """Fills a store, so that there is room for so many characters more."""
    trial.store()
    full = 261_993 - count
    lines = ['type ' + 'x' * 900] * (full // 900) + ['type ' + 'x' * (full % 900)]
    trial.oberon_says('play', trial.path, lines=lines)


def hole(trial):
    """Where a piece of a paste or of a file is refused, the rest of it is dropped, and the line below says how far it
    came, and why."""
    named(trial, 'a text', b'z' * 1971)
    paste = b'\x1b[200~' + b'z' * 1971 + b'\x1b[201~'
    for keys in (paste, b'\x0fa text\r'):
        room_for(trial, 1080)
        sitting = trial.sit(trial.path)
        sitting.press(keys)
        wanted = '900 characters typed, the rest dropped: no room'
        trial.check(sitting.wait(lambda: sitting.terminal.line(ROWS) == wanted), sitting.terminal.line(ROWS))
        sitting.press(b'\x7f')
        trial.check(sitting.wait(lambda: sitting.terminal.line(ROWS) == MARKED), sitting.terminal.line(ROWS))
        trial.leaves(sitting)
        answers = trial.oberon_says('play', trial.path, lines=['type ' + 'x' * 181, 'type x']).split()
        trial.check(answers == ['ok', 'no', '6'], f'there is another room: {answers}')
    room_for(trial, 100)
    sitting = trial.sit(trial.path)
    sitting.press(paste + b'b')
    trial.check(sitting.wait(lambda: sitting.terminal.line(ROWS) == MARKED), sitting.terminal.line(ROWS))
    trial.leaves(sitting)
    answers = trial.oberon_says('play', trial.path, lines=['type ' + 'x' * 99, 'type x']).split()
    trial.check(answers == ['ok', 'no', '6'], f'there is another room: {answers}')


# ---- keys and buttons


def given_up(trial):
    """Alt with O or [ swallows nothing that is typed later."""
    for keys in (b'\x1bO', b'\x1b['):
        trial.store()
        sitting = trial.sit(trial.path)
        sitting.press(keys)
        sitting.rest(0.3)
        sitting.press(b'Axyz')
        kept = trial.stored(sitting)
        trial.check(kept == b'Axyz', f'{kept!r} is kept after {keys!r}')


def along_a_row(trial):
    """Home and End lead to the ends of the row, and Ctrl with an arrow a word further."""
    home, end, right, left = b'\x1b[H', b'\x1b[F', b'\x1b[1;5C', b'\x1b[1;5D'
    typed_by(trial, b'ab cd  ef' + home + b'X' + end + b'Y', b'Xab cd  efY')
    typed_by(trial, b'ab cd  ef' + left + b'X' + 2 * left + b'Y' + 9 * left + b'Z', b'Zab Ycd  Xef')
    typed_by(trial, b'ab cd  ef' + home + right + b'X' + right + b'Y' + 2 * right + b'Z', b'ab Xcd  YefZ')


def alt_z(trial):
    """Alt-Z is Ctrl-Y, and what is typed behind it comes behind it."""
    typed_by(trial, b'a\x1a\x1bzb', b'ab')


def steps_of_undo(trial):
    """Ctrl-Z takes a word back with the blanks behind it, and what has only moved since then; so it does at a new start."""
    wheel, arrows, select = b'\x1b[<65;5;5M', b'\x1b[D', b'\x1b[<2;2;2M\x1b[<2;4;2m'

    def undone(sitting, line, text):
        sitting.press(b'\x1a')
        seen = sitting.terminal
        trial.check(sitting.wait(lambda: seen.line(ROWS) == line), f'{seen.line(ROWS)!r}, wanted {line!r}')
        trial.check(seen.line(1)[:40].rstrip() == '|' + text, f'{seen.line(1)!r} after {line!r}')

    sitting = trial.sit_anew()
    sitting.press(b'two words')
    sitting.press(20 * wheel + 40 * arrows + select)
    undone(sitting, 'undid: typed 5 characters', 'two')
    sitting.press(b'lines  \x1b[Dmore')
    undone(sitting, 'undid: typed 4 characters', 'two lines')
    undone(sitting, 'undid: typed 7 characters', 'two')
    sitting.press(b'three ' + arrows + b'word' + 9 * wheel)
    sitting.rest(0.3)
    trial.leaves(sitting)
    sitting = trial.sit(trial.path)
    undone(sitting, 'undid: typed 4 characters', 'two three')
    undone(sitting, 'undid: typed 6 characters', 'two')
    undone(sitting, 'undid: typed 4 characters', '')
    trial.leaves(sitting)


def words_at_the_edge(trial):
    """Of a command that Ctrl-E has called undo tells the word, and of one that goes up to the edge as much as stands before that."""
    for blanks, word in ((20, 'System.Directory'), (40, 'System.Di..')):
        sitting = trial.sit_anew()
        sitting.press(b'\x17' + b' ' * blanks + b'System.Directory\x05\x1a')
        trial.tells(sitting, f'undid: {word}')
        trial.leaves(sitting)
        os.remove(trial.path)


def forgetting(trial):
    """Leaving asks while what was taken back can be done again, and the second key leaves. Nothing is asked where something else
    was done since, without questions, where the terminal goes away, and where a past has it: then the next sitting does it
    again."""
    sitting = trial.sit_anew('--no-past')
    sitting.press(b'two words\x1a\x11')
    trial.tells(sitting, FORGETTING)
    sitting.press(b'\x19')
    trial.tells(sitting, 'did again: typed 5 characters')
    trial.leaves(sitting)
    trial.kept('two words', 'two words')
    sitting = trial.sit('--no-past', trial.path)
    trial.leaves(sitting)
    sitting = trial.sit('--no-past', trial.path)
    sitting.press(b'\x1a')
    trial.tells(sitting, 'undid: typed 5 characters')
    for keys in (b'\x11', b'\x04\x1b[21~'):  # (another key answers no)
        sitting.press(keys)
        trial.tells(sitting, FORGETTING)
    sitting.press(b'\x1b[21~')
    trial.check(sitting.end() == 0 and sitting.is_put_back, f'status {sitting.status}')
    trial.kept('two ', 'two')
    sitting = trial.sit('--no-past', trial.path)
    sitting.press(b'three\x1afour')
    trial.leaves(sitting)
    sitting = trial.sit('--no-past', '--no-questions', trial.path)
    sitting.press(b'five\x1a')
    trial.tells(sitting, 'undid: typed 8 characters')
    trial.leaves(sitting)
    sitting = trial.sit('--no-past', trial.path)
    sitting.press(b'six\x1a')
    trial.tells(sitting, 'undid: typed 3 characters')
    trial.check(sitting.hang_up() is not None, 'the script does not end')
    trial.store()
    for keys, line in ((b'seven words\x1a', 'undid: typed 5 characters'), (b'\x19', 'did again: typed 5 characters'),
                       (b'\x1a\x1a', 'undid: typed 6 characters'), (b'\x19', 'did again: typed 6 characters')):
        sitting = trial.sit(trial.path)
        sitting.press(keys)
        trial.tells(sitting, line)
        trial.leaves(sitting)


def refused_presses(trial):
    """What was refused is never said to be taken back: it goes with the press before it, and where there is none nothing is
    taken back. Nor does it take away what can be done again."""
    for options, line in ((['--no-past'], NOTHING_BACK), ([], NO_FURTHER)):
        sitting = trial.sit(*options, trial.path)
        sitting.press(b'x')
        trial.tells(sitting, NO_CARET)
        sitting.press(b'yz\x1a')
        trial.tells(sitting, line)
        if options:
            sitting.press(b'\x1a')
            trial.tells(sitting, line)
        trial.leaves(sitting)
        os.remove(trial.path)
    sitting = trial.sit_anew('--no-past')
    sitting.press(b'word\x1b')
    sitting.rest(0.3)
    sitting.press(b'x')
    trial.tells(sitting, NO_CARET)
    for line in ('undid: Escape', 'undid: typed 4 characters'):
        sitting.press(b'\x1a')
        trial.tells(sitting, line)
    trial.leaves(sitting, forgets=True)
    trial.oberon_says('format', trial.path + '.none')
    sitting = trial.sit('--no-past', trial.path + '.none')
    sitting.press(b'x\x1bOP' + click_at(5, 5) + b'\x1a')
    trial.tells(sitting, 'undid: the marker')
    sitting.press(b'\x1a')
    trial.tells(sitting, NOTHING_BACK)
    sitting.press(b'\x19')
    trial.tells(sitting, 'did again: the marker')
    trial.leaves(sitting)


def reach_of_undo(trial):
    """At the beginning there is nothing to take back. Behind a checkpoint from before which nothing is taken back, and behind an
    import, undo reaches no further."""
    sitting = trial.sit('--no-past', trial.path)
    sitting.press(b'\x1a')
    trial.tells(sitting, NOTHING_BACK)
    trial.leaves(sitting)
    with open(f'{trial.folder}/Letter.Text', 'w', encoding='ascii') as file:
        file.write('a letter\n')
    trial.desk_says('import', trial.path, f'{trial.folder}/Letter.Text')
    sitting = trial.sit(trial.path)
    sitting.press(b'\x1a')
    trial.tells(sitting, NO_FURTHER)
    trial.leaves(sitting)
    trial.store_at(f'{trial.folder}/later', 3)
    sitting = trial.sit('--no-past', f'{trial.folder}/later')
    sitting.press(b'a\x1a')
    trial.tells(sitting, 'undid: typed 1 character')
    sitting.press(b'\x1a')
    trial.tells(sitting, NO_FURTHER)
    trial.leaves(sitting, forgets=True)


def outside(trial):
    """A click that begins outside the display, or on the line below, does nothing, and what a function key has said
    stays in force."""
    trial.store()
    shutil.copy(trial.path, trial.path + '.before')
    sitting = trial.sit('--no-past', trial.path, rows=40, columns=100)
    for place in (b'95;1', b'81;2', b'10;33', b'60;40'):
        sitting.press(b'\x1b[<1;%bM\x1b[<1;%bm' % (place, place))
        sitting.press(b'\x1bOP\x1b[<0;%bM\x1b[<0;%bm' % (place, place))
        trial.check(sitting.look_anew(), 'no scene')
        trial.check('marker' in sitting.terminal.line(ROWS), f'the line below is {sitting.terminal.line(ROWS)!r}')
    trial.leaves(sitting)
    trial.check(filecmp.cmp(trial.path, trial.path + '.before', shallow=False), 'something was posted')


def ringing(trial):
    """A ring has its reason on the line below, and no older one."""
    sitting = trial.sit_anew()
    sitting.press(b'\x18')
    trial.check(sitting.wait(lambda: 'Nothing is selected' in sitting.terminal.line(ROWS)), 'nothing was refused')
    sitting.press(b'\x04')
    trial.check(sitting.wait(lambda: sitting.terminal.line(ROWS) == NO_KEY), sitting.terminal.line(ROWS))
    trial.leaves(sitting)


def under_the_marker(trial):
    """The marker on the caret doesn't stop the arrows."""
    trial.store()
    trial.oberon_says('play', trial.path, lines=['type ab', 'mark 3 30'])
    sitting = trial.sit(trial.path)
    sitting.press(b'\x1b[DX')
    kept = trial.stored(sitting)
    trial.check(kept == b'aXb', f'{kept!r} is kept')


# ---- windows


def resized_amid_paste(trial):
    """The size that a terminal tells amid a paste counts."""
    sitting = trial.sit_anew()
    sitting.press(b'\x1b[200~abc')
    sitting.resize(24, 80)
    sitting.terminal.scenes = 0
    trial.check(sitting.wait(lambda: sitting.terminal.scenes > 0), 'no scene')
    sitting.press(b'def\x1b[201~')
    trial.check(sitting.look_anew(), 'no scene')
    trial.check(sitting.wait(lambda: sitting.terminal.line(23) == MARKED), sitting.terminal.line(23))
    trial.check(sitting.terminal.line(22) != '', 'the display has other rows')
    trial.leaves(sitting)
    trial.kept('abcdef', 'abcdef')


def narrow(trial):
    """A window that is made narrower than 45 columns is told as too small."""
    sitting = trial.sit_anew()
    sitting.resize(33, 44)
    trial.check(sitting.wait(lambda: sitting.terminal.line(ROWS) == within(44, TOO_NARROW)), 'it is not told')
    sitting.resize(33, 80)
    trial.check(sitting.wait(lambda: sitting.terminal.line(ROWS) == KEYS), sitting.terminal.line(ROWS))
    trial.leaves(sitting)


def resized(trial):
    """The window gets another size, and what fits is shown, with the line below."""
    trial.store()
    wanted = Screen(trial.oberon_says('screen', trial.path).splitlines()[:-1]).rows
    sitting = trial.sit(trial.path)
    for rows, columns in ((24, 80), (12, 90), (50, 132), (33, 80)):
        sitting.resize(rows, columns)
        count = min(rows - 1, ROWS)
        scene = [*wanted[:count], PAST_BEGINS] + [''] * (rows - count - 1)
        trial.check(sitting.wait(lambda: sitting.terminal.lines() == scene), f'another screen in {rows} rows')
        trial.check(sitting.look_anew() and sitting.wait(lambda: sitting.terminal.lines() == scene),
                    f'another one in {rows} rows when it is painted anew')
    trial.leaves(sitting)


def resized_by_the_caret(trial):
    """In a window of fewer rows the caret is in sight still; where the size is told once more the rows in sight stay."""
    sitting = trial.sit_anew()
    terminal = sitting.terminal
    sitting.press(b'\r'.join(b'row %d' % row for row in range(28)))

    def has_caret():
        is_shown = terminal.line(terminal.rows - 1) == MARKED and 25 in terminal.modes
        return is_shown and terminal.line(terminal.row).startswith('|row 27')

    for rows in (14, 12, 33, 20):
        sitting.resize(rows, 80)
        trial.check(sitting.wait(has_caret), f'in {rows} rows')
    sitting.press(b'\x1b[5;3~')
    trial.check(sitting.wait(lambda: 25 not in terminal.modes), 'the rows above are not in sight')
    trial.check(sitting.look_anew() and sitting.look_anew() and 25 not in terminal.modes, 'the rows in sight follow the caret')
    trial.leaves(sitting)


def stock(trial):
    """A terminal that tells its size only by the place of its cursor, as a stock xterm does, is followed all the same."""
    trial.store()
    wanted = Screen(trial.oberon_says('screen', trial.path).splitlines()[:-1]).rows
    sitting = trial.sit(trial.path)
    sitting.terminal.tells_size = False
    for rows, columns in ((24, 80), (12, 90), (50, 132), (33, 80)):
        sitting.resize(rows, columns)
        count = min(rows - 1, ROWS)
        scene = [*wanted[:count], PAST_BEGINS] + [''] * (rows - count - 1)
        trial.check(sitting.wait(lambda: sitting.terminal.lines() == scene), f'another screen in {rows} rows')
    trial.leaves(sitting)


def paused(trial):
    """TSTP at the script: the terminal is as it was before, and when the script goes on all is painted again."""
    sitting = trial.sit_anew()
    sitting.press(b'before')
    trial.check(sitting.look_anew(), 'no scene')
    shown_before = sitting.terminal.lines()
    os.kill(sitting.process, signal.SIGTSTP)
    trial.check(sitting.wait(lambda: 1049 not in sitting.terminal.modes), 'the screen is the desk\'s still')
    trial.check(sitting.wait(lambda: stopped(sitting.process)), 'it is not stopped')
    trial.check(termios.tcgetattr(sitting.file) == sitting.before, 'the keys are the desk\'s still')
    scenes = sitting.terminal.scenes
    os.kill(sitting.process, signal.SIGCONT)
    trial.check(sitting.wait(lambda: sitting.terminal.scenes > scenes), 'nothing is painted again')
    trial.check(sitting.wait(lambda: sitting.terminal.lines() == shown_before), 'something else is painted')
    sitting.press(b'after')
    trial.check(sitting.look_anew(), 'no scene')
    trial.leaves(sitting)
    trial.kept('beforeafter', 'beforeafter')


def paused_by_a_key(trial):
    """Ctrl-] stops the script as Ctrl-Z does elsewhere, and what comes behind it waits until that goes on."""
    sitting = trial.sit_anew()
    sitting.press(b'before')
    trial.check(sitting.look_anew(), 'no scene')
    sitting.press(b'\x1d')
    trial.check(sitting.wait(lambda: 1049 not in sitting.terminal.modes), 'the screen is the desk\'s still')
    trial.check(sitting.wait(lambda: stopped(sitting.process)), 'it is not stopped')
    trial.check(termios.tcgetattr(sitting.file) == sitting.before, 'the keys are the desk\'s still')
    scenes = sitting.terminal.scenes
    os.kill(sitting.process, signal.SIGCONT)
    trial.check(sitting.wait(lambda: sitting.terminal.scenes > scenes), 'nothing is painted again')
    sitting.press(b'after')
    trial.check(sitting.look_anew(), 'no scene')
    trial.leaves(sitting)
    trial.kept('beforeafter', 'beforeafter')


def stopped(process):
    with open(f'/proc/{process}/stat', encoding='ascii') as stat:
        return stat.read().rsplit(')', 1)[1].split()[0] == 'T'


def removed(trial):
    """The file of the store is removed, or renamed, while the desk is open: it is said when it leaves."""
    sitting = trial.sit_anew()
    sitting.press(b'text')
    trial.check(sitting.look_anew(), 'no scene')
    os.rename(trial.path, trial.path + '.other')
    sitting.press(b'\x11')
    trial.check(sitting.end() == 4, f'status {sitting.status}')
    said = ' '.join(''.join(sitting.terminal.lines()).split())
    trial.check('my.disk' in said and 'was removed' in said, f'it says {said!r}')


def deleting(trial):
    """System.DeleteFiles asks, and names what goes, also where the button goes up beside the text; what is behind a name that goes
    on oddly stays; and so does Edit.Open ask where a name goes on oddly."""
    sitting = trial.sit_anew()
    terminal = sitting.terminal
    middle = b'\x1b[<1;4;%dM\x1b[<1;4;%dm'

    def press_at(row):
        sitting.press(middle % (row, row))

    def told(text):
        trial.check(sitting.wait(lambda: terminal.line(ROWS) == text), f'{terminal.line(ROWS)!r}, wanted {text!r}')

    sitting.press(b'System.DeleteFiles A.Text B.Text ~\rSystem.DeleteFiles A.Text-old ~\rEdit.Open B-Notes.Text\r'
                  b'Edit.Open A.Text, then\r' + STORE)
    press_at(3)
    told('Press again to delete: A.Text')
    sitting.press(b'\x1b[<1;4;2M\x1b[<1;1;1m')  # (it goes up beside the text, nearest to its first cell)
    told('Press again to delete: A.Text B.Text')
    sitting.press(b'x')
    press_at(4)
    told('B-Notes.Text is no name: press again for B')
    press_at(4)
    trial.check(sitting.wait(lambda: any(terminal.line(row).startswith('B | System') for row in range(ROWS))), 'B does not open')
    sitting.press(b'\x1a')
    press_at(2)
    told('Press again to delete: A.Text B.Text')
    sitting.press(b'\x1b')
    press_at(3)
    told('Press again to delete: A.Text')
    press_at(3)
    trial.check(sitting.wait(lambda: 'System.DeleteFiles' in terminal.line(ROWS)), terminal.line(ROWS))
    trial.leaves(sitting)
    ran = subprocess.run([trial.desk, 'list', trial.path], capture_output=True, check=False)
    # (what is open and not stored has a line of other words)
    trial.check(not any(line.split()[-1:] == [b'A.Text'] for line in ran.stdout.splitlines()), 'the document is there still')


def first_scene(trial):
    """The first scene has the rows of the window, with the caret among them, also where the terminal doesn't tell how many
    these are."""
    trial.store()
    trial.oberon_says('play', trial.path, lines=['type ' + '%0d' * 25 + 'last'])
    for rows, greeting in ((24, PAST_BEGINS), (12, GREETING)):
        sitting = trial.begin(trial.desk, trial.path, rows=rows, columns=80)
        sitting.answers = False
        sitting.wait(lambda: sitting.terminal.scenes > 0)
        lines = sitting.terminal.lines()
        trial.check(lines[-1] == greeting and any('last' in line for line in lines[:-1]), f'in {rows} rows: {lines}')
        trial.leaves(sitting)


def sides(trial):
    """A window of 60 columns shows the right side first, by a key the left one, and at a key that types the caret's."""
    sitting = trial.begin(trial.desk, trial.path, rows=33, columns=60)
    terminal = sitting.terminal
    sitting.wait(lambda: terminal.scenes > 0)
    trial.check(terminal.line(0).startswith('System.Tool'), f'at the beginning {terminal.line(0)!r}')
    trial.check(terminal.line(ROWS) == within(60, ONE_SIDE), terminal.line(ROWS))
    sitting.press(b'\x1b[1;3D')
    trial.check(sitting.wait(lambda: 'System.Tool' not in terminal.line(0)), terminal.line(0))
    sitting.press(b'\x1b[<0;31;3M\x1b[<0;31;3m\x1b[1;3C')
    trial.check(sitting.wait(lambda: terminal.line(0).startswith('System.Tool')), terminal.line(0))
    sitting.press(b'\x1b[<0;4;3M\x1b[<0;4;3m')
    trial.check(sitting.wait(lambda: 25 in terminal.modes), 'the click set no caret')
    sitting.press(b'\x1b[1;3D')
    trial.check(sitting.wait(lambda: 25 not in terminal.modes), 'the caret is to be seen on the other side')
    sitting.press(b'x')
    trial.check(sitting.wait(lambda: 25 in terminal.modes), 'the side of the caret is not in sight')
    sitting.resize(33, 80)
    trial.check(sitting.wait(lambda: terminal.line(0)[50:].startswith('System.Tool')), terminal.line(0))
    trial.check(not terminal.mistakes, terminal.mistakes)
    trial.leaves(sitting)


def too_small(trial):
    for rows, columns in ((11, 80), (33, 44), (11, 44), (0, 0)):
        trial.refused(2, trial.path, rows=rows, columns=columns, says=[f' {columns} and {rows}'] if rows else ())
    trial.check(not os.path.exists(trial.path), 'a store was made')


def no_terminal(trial):
    ran = subprocess.run([trial.desk, trial.path], stdin=subprocess.DEVNULL, capture_output=True, check=False)
    trial.check(ran.returncode == 2 and not ran.stdout, f'status {ran.returncode}')
    trial.check(ran.stderr.startswith(b'desk: ') and ran.stderr.count(b'\n') == 1, f'it says {ran.stderr}')
    ran = subprocess.run([trial.desk, trial.path], stdin=subprocess.DEVNULL, capture_output=True, check=False,
                         env={**os.environ, 'TERM': 'dumb'})
    trial.check(ran.returncode == 2 and b'dumb' in ran.stderr, f'status {ran.returncode}, it says {ran.stderr}')
    trial.check(not os.path.exists(trial.path), 'a store was made')


# ---- stores


def new_store(trial):
    """Where there is no file a store is made, whose first screen has words to click."""
    sitting = trial.sit(trial.path)
    trial.check('System.Tool' in sitting.terminal.line(0), 'no tool text is shown')
    trial.refused(4, trial.path, says=['my.disk', 'another program'])
    sitting.press(b'\x1a')  # there is nothing to take back
    trial.check(sitting.wait(lambda: sitting.terminal.bells > 0), 'no bell')
    trial.check(sitting.look_anew() and 'System.Tool' in sitting.terminal.line(0), 'the tool text was taken back')
    trial.leaves(sitting)
    trial.check(os.listdir(trial.folder) == ['my.disk'], f'there are {os.listdir(trial.folder)}')
    again = trial.sit(trial.path)
    first = [''.join(c for c, _ in row) for row in sitting.terminal.left[:ROWS]]
    trial.check([''.join(c for c, _ in row) for row in again.terminal.cells[:ROWS]] == first, 'another screen')
    again.press(b'\x1b[21~')
    trial.check(again.end() == 0, f'status {again.status}')


def not_taken(trial):
    """What a person has under the name with which a store begins stays, whatever it is, and the store is made."""
    new = trial.path + '.new'
    letter = f'{trial.folder}/letter'

    def made():
        sitting = trial.sit(trial.path)
        trial.check('System.Tool' in sitting.terminal.line(0), 'no tool text is shown')
        trial.leaves(sitting)
        os.remove(trial.path)
    named(trial, 'my.disk.new', b'a letter')
    made()
    with open(new, 'rb') as file:
        trial.check(file.read() == b'a letter', 'the file was changed')
    os.remove(new)
    named(trial, 'letter', b'a letter')
    os.symlink(letter, new)
    made()
    with open(letter, 'rb') as file:
        trial.check(os.path.islink(new) and file.read() == b'a letter', 'the linked file was changed')
    os.remove(letter)
    made()
    trial.check(os.path.islink(new) and not os.path.exists(letter), 'a file was made through a link')
    os.remove(new)
    os.mkdir(new)
    made()
    for number in range(2, 10):
        named(trial, f'my.disk.new{number}', b'')
    trial.refused(4, trial.path, says=['my.disk', 'taken'])
    trial.check(not os.path.exists(trial.path) and len(os.listdir(trial.folder)) == 9, 'something was made')


def dangling(trial):
    """Where the path is a link to nothing, nothing is made."""
    os.symlink(f'{trial.folder}/none', trial.path)
    trial.refused(4, trial.path, says=['my.disk'])
    trial.check(os.listdir(trial.folder) == ['my.disk'], f'there are {os.listdir(trial.folder)}')


def appears(trial):
    """A file that gets the store's name while that is made stays."""
    for _ in range(20):
        sitting = trial.begin(trial.desk, trial.path, rows=33, columns=80)
        end = time.monotonic() + 60
        while not os.path.exists(trial.path + '.new') and not os.path.exists(trial.path) and time.monotonic() < end:
            pass
        try:
            with open(trial.path, 'xb') as file:
                file.write(b'a letter')
        except FileExistsError:
            sitting.wait(lambda: sitting.terminal.scenes > 0)
            trial.leaves(sitting)
            os.remove(trial.path)
            continue
        trial.check(sitting.end() == 4, f'status {sitting.status}')
        trial.check('just made' in ''.join(sitting.terminal.lines()), f'it says {sitting.terminal.lines()}')
        with open(trial.path, 'rb') as file:
            trial.check(file.read() == b'a letter', 'the file was changed')
        trial.check(os.listdir(trial.folder) == ['my.disk'], f'there are {os.listdir(trial.folder)}')
        return
    trial.check(False, 'the store was always made first')


def killed_amid_making(trial):
    """Where the program is killed while it makes a store, or as soon as that has its name, it is whole or not there."""
    for turn in range(8):
        sitting = trial.begin(trial.desk, trial.path, rows=33, columns=80)
        end = time.monotonic() + 60
        first = trial.path + '.new' if turn % 2 else trial.path
        while not os.path.exists(first) and not os.path.exists(trial.path) and time.monotonic() < end:
            pass
        time.sleep(trial.chance.random() * 0.03 if turn % 2 else 0)
        os.kill(sitting.program(), signal.SIGKILL)
        sitting.end()
        trial.check(turn % 2 or os.path.exists(trial.path), 'no store was made')
        if os.path.exists(trial.path):
            trial.check(trial.oberon_says('check', trial.path).startswith('ok'), 'it is no whole store')
        for name in os.listdir(trial.folder):
            os.remove(f'{trial.folder}/{name}')


def two_makers(trial):
    """Of two desks that begin at once over a store that isn't there one makes it, and the other one leaves it alone."""
    both = [trial.begin(trial.desk, trial.path, rows=33, columns=80) for _ in range(2)]
    statuses = []
    for sitting in both:
        try:
            sitting.wait(lambda: sitting.terminal.scenes > 0)
            sitting.press(b'one\x11')
        except Ended:
            pass
    for sitting in both:
        statuses.append(sitting.end())
    trial.check(sorted(statuses) in ([0, 4], [0, 0]), f'statuses {statuses}')
    trial.check(os.listdir(trial.folder) == ['my.disk'], f'there are {os.listdir(trial.folder)}')
    trial.check(trial.oberon_says('check', trial.path).startswith('ok'), 'no store')


def first_words(trial):
    """Each word of the first text is a command's, or a parameter of one: a middle click on it does what it does in a
    script, and no command's word is told as another word (4)."""
    trial.leaves(trial.sit(trial.path))
    rows = Screen(trial.oberon_says('screen', trial.path).splitlines()[:-1]).rows
    new = trial.path + '.copy'
    words = [(51 + found.start(), ROWS - 1 - row, found[0]) for row, text in enumerate(rows) if row
             for found in re.finditer(r'[A-Z][a-z]+\.[A-Z][A-Za-z]+', text[51:])]
    trial.check(len(words) > 20, f'there are {len(words)} words')
    for x, y, word in words:
        shutil.copy(trial.path, new)
        answer = trial.oberon_says('play', new, lines=[f'point m {x} {y} {x} {y}']).strip()
        is_command = word.split('.')[0] in ('Edit', 'System') and word != 'System.Tool'
        trial.check(answer in ('ok', *(f'no {code}' for code in (1, 2, 3, 5, 7, 10))) or not is_command, f'{word}: {answer}')
        trial.check(trial.oberon_says('check', new).startswith('ok'), f'{word}: {trial.oberon_says("check", new)}')


def in_memory(trial):
    """Without a path the desktop stands in memory, and the line below says so."""
    sitting = trial.sit()
    trial.check('System.Tool' in sitting.terminal.line(0), 'no tool text is shown')
    trial.check('memory' in sitting.terminal.line(ROWS), f'the line below is {sitting.terminal.line(ROWS)!r}')
    sitting.press(b'\x11')
    trial.check(sitting.wait(lambda: 'press Ctrl-Q again' in sitting.terminal.line(ROWS)), 'nothing is asked')
    sitting.press(b'\x04\x11')
    trial.check(sitting.wait(lambda: 'press Ctrl-Q again' in sitting.terminal.line(ROWS)), 'another key answers')
    sitting.press(b'\x11')
    trial.check(sitting.end() == 0 and not os.listdir(trial.folder), f'status {sitting.status}')


def closing(trial):
    """Closing a viewer whose text no document has is asked about, and the same press right after that does it. A text that
    is stored, is empty, or that another viewer shows closes at once, and so does any without questions."""
    sitting = trial.sit_anew()
    terminal, asked = sitting.terminal, "A.Text isn't stored: press again to close it"

    def at(word, with_f2=False):
        sitting.wait(lambda: word in terminal.line(0))
        column = terminal.line(0).index(word) + 2
        return (b'\x1bOQ\x1b[<0;%d;1M\x1b[<0;%d;1m' if with_f2 else b'\x1b[<1;%d;1M\x1b[<1;%d;1m') % (column, column)

    def told(wanted, text):
        trial.check(sitting.wait(lambda: (asked in terminal.line(ROWS)) == wanted), text)

    def gone(wanted, text):
        trial.check(sitting.wait(lambda: terminal.line(0).startswith('A.Text') != wanted), text)

    sitting.press(b'Hello')
    for with_f2 in (False, True):
        for again in ('x', 'y'):
            sitting.press(at('System.Close', with_f2))
            told(True, f'nothing is asked ({with_f2})')
            gone(False, 'a question closes')
            sitting.press(again.encode())
            told(False, f'another key answers ({with_f2})')
        sitting.press(at('System.Close', with_f2))
        told(True, f'nothing is asked anew ({with_f2})')
        sitting.press(at('System.Close', with_f2))
        gone(True, f'it is asked for ever ({with_f2})')
        sitting.press(b'\x1a')
        gone(False, 'Ctrl-Z doesn\'t take a Close back')
    sitting.press(b'\rEdit.ChangeColor 3\r' + STORE)
    sitting.press(b'\x1b[<2;2;2M\x1b[<2;4;2m\x1b[<1;3;3M\x1b[<1;3;3m' + at('System.Close'))
    told(True, 'a look is lost unasked')
    sitting.press(b'\x1a' + at('System.Close'))
    gone(True, 'a stored text does not close')
    sitting.press(b'\x1a')
    gone(False, 'Ctrl-Z does not take the second Close back')
    sitting.press(b'q' + at('System.Copy'))
    told(False, 'a copy is asked about')
    sitting.press(at('System.Close'))
    told(False, 'a text that another viewer shows is asked about')
    sitting.press(b'\x1a\x1a' + STORE + at('System.Close'))
    gone(True, f'a stored text does not close: {terminal.line(ROWS)!r}')
    trial.leaves(sitting)
    sitting = trial.sit('--no-questions', trial.path)
    terminal = sitting.terminal
    sitting.press(b'\x1a')
    gone(False, 'Ctrl-Z does not go back')
    sitting.press(b'z' + at('System.Close'))
    gone(True, 'it is asked without questions')
    trial.leaves(sitting)


def no_store(trial):
    """A file that is no store stays as it is."""
    for text in (b'', b'a text\n', bytes(16_000_000)):
        with open(trial.path, 'wb') as file:
            file.write(text)
        trial.refused(3, trial.path, says=['my.disk', 'no store'])
        with open(trial.path, 'rb') as file:
            trial.check(file.read() == text, 'the file was changed')


def in_use(trial):
    """A store that another program has open is left alone."""
    sitting = trial.sit_anew()
    shutil.copy(trial.path, trial.path + '.before')
    trial.refused(4, trial.path, says=['my.disk', 'another program'])
    for words in (['picture', trial.path], ['export', trial.path, 'A.Text']):
        ran = subprocess.run([trial.desk, *words], capture_output=True, check=False)
        trial.check(ran.returncode == 4 and not ran.stdout and b'another program' in ran.stderr, f'{words[0]}: {ran}')
    trial.check(filecmp.cmp(trial.path, trial.path + '.before', shallow=False), 'the store was changed')
    trial.leaves(sitting)


def no_file(trial):
    """Where no store can be made the reason is said."""
    trial.refused(4, trial.folder, says=[trial.folder])
    trial.refused(4, f'{trial.folder}/none/my.disk', says=['none'])
    trial.check(not os.listdir(trial.folder), 'something was made')


TRIALS = {
    'signal 9 at the program': killed(signal.SIGKILL, True, 137),
    'signal 9 at the program, with a past': killed_with_a_past,
    'undone to the beginning': undone_to_the_beginning,
    'TERM at the program': killed(signal.SIGTERM, True, 143),
    'TERM at the script': killed(signal.SIGTERM, False, 143),
    'HUP at the script': killed(signal.SIGHUP, False, 129),
    'INT at the script': killed(signal.SIGINT, False, 130),
    'USR1 at the script': killed(signal.SIGUSR1, False, 138),
    'PIPE at the script': killed(signal.SIGPIPE, False, 141),
    'TSTP at the script': paused,
    'Ctrl-]': paused_by_a_key,
    'signal 9 at the script': script_killed,
    'a hang-up': hung_up([]),
    'a hang-up that nobody is told of': hung_up(['sh', '-c', 'trap "" HUP; "$@"', 'sh']),
    'Ctrl-C': control_c,
    'keys after the one that leaves': left_amid,
    'Escape': escape,
    'a disk that fails': disk_fails,
    'a past that begins': past_begins,
    'a folder that is not synced': folder_not_synced,
    'pastes': pasted,
    'signal 9 amid a paste': killed_amid_paste,
    'files of the host': host_file,
    'no files of the host': no_host_file,
    'names that are pasted': pasted_name,
    'keys behind a name': behind_a_name,
    'names and sizes of files': names_and_sizes,
    'a paste with a hole': hole,
    'Alt with O and [': given_up,
    'keys along a row': along_a_row,
    'Alt-Z': alt_z,
    'steps of undo': steps_of_undo,
    'words at the edge': words_at_the_edge,
    'what is forgotten': forgetting,
    'presses that are refused': refused_presses,
    'the reach of undo': reach_of_undo,
    'clicks outside': outside,
    'a ring': ringing,
    'the marker on the caret': under_the_marker,
    'another size amid a paste': resized_amid_paste,
    'a narrow window': narrow,
    'another size of the window': resized,
    'another size around the caret': resized_by_the_caret,
    'a terminal that tells no size': stock,
    'a first scene': first_scene,
    'the sides of a narrow window': sides,
    'a small window': too_small,
    'no terminal': no_terminal,
    'no file': new_store,
    'names that are taken': not_taken,
    'a link to nothing': dangling,
    'a file that appears': appears,
    'signal 9 amid the making of a store': killed_amid_making,
    'two at once': two_makers,
    'words of the first text': first_words,
    'no path': in_memory,
    'closing': closing,
    'deleting': deleting,
    'a store that is removed': removed,
    'no store': no_store,
    'a store in use': in_use,
    'a path where no file can be': no_file,
}


class Idle:
    """A sitting in which nothing is pressed for two minutes: nothing is sent meanwhile, and then it goes on."""

    def __init__(self, desk, oberon):
        self.trial = Trial(desk, oberon, random.Random(0))
        self.sitting = self.trial.sit_anew()
        self.sitting.rest(0.5)
        self.scenes, self.begun = self.sitting.terminal.scenes, time.monotonic()

    def end(self):
        trial, sitting = self.trial, self.sitting
        try:
            sitting.rest(max(0, 120 - (time.monotonic() - self.begun)))
            trial.check(sitting.terminal.scenes == self.scenes, 'something was shown')
            sitting.press(b'stillhere')
            trial.check(sitting.look_anew(), 'no scene')
            trial.leaves(sitting)
            trial.kept('stillhere', 'stillhere')
        except (Ended, OSError) as error:
            trial.wrong.append(repr(error))
        trial.stop()
        if trial.wrong:
            print('two minutes without a key: ' + '; '.join(trial.wrong))
        return bool(trial.wrong)


def attempt(turn, name, desk, oberon):
    """What is wrong with a trial, in words."""
    trial = Trial(desk, oberon, random.Random(turn))
    try:
        {**TRIALS, OVER_TWINS: killed_over_twins}[name](trial)
    except (Ended, OSError, TypeError, subprocess.CalledProcessError) as error:
        trial.wrong.append(repr(error))
    trial.stop()
    return trial.wrong


def failed_of(pool, turns, desk, oberon):
    """Each of these trials, by its number and its name, some at a time. Returns how many failed."""
    failed, under_way = 0, [pool.apply_async(attempt, (turn, name, desk, oberon)) for turn, name in turns]
    for (turn, name), one in zip(turns, under_way):
        wrong = one.get()
        if wrong:
            failed += 1
            print(f'{name}, {turn}: ' + '; '.join(wrong), flush=True)
    return failed


def kill_all(desk, oberon, kills, first):
    """Sittings over two files that are killed, of these numbers. Returns how many failed."""
    with multiprocessing.get_context('fork').Pool(AT_A_TIME) as pool:
        failed = failed_of(pool, [(turn, OVER_TWINS) for turn in range(first, first + kills)], desk, oberon)
    print(f'{kills} killed over two files, {failed} differ')
    return failed


def run_all(desk, oberon, kills):
    """Each trial once, and that with signal 9 so many times, while another sitting is left alone. Returns how many failed."""
    turns = list(enumerate(['signal 9 at the program'] * (kills - 1) + list(TRIALS)))
    with multiprocessing.get_context('fork').Pool(AT_A_TIME) as pool:
        idle = Idle(desk, oberon)
        failed = failed_of(pool, turns, desk, oberon)
    failed += idle.end()
    print(f'{len(turns) + 1} beginnings and ends, {failed} differ')
    return failed
