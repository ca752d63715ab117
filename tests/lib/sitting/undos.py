"""Sittings in which events are taken back and done again, and scripts with the same. `tests/random/undos` says what is tried."""
import os
import random
import shutil
import signal
import subprocess
import sys
import tempfile

from main import begin, beginning, characters
from model import Model, is_draw, word_told
from presses import FILES, drag, press
from scrolling import copied
from sitting import MODES, Ended, Sitting, TooSlow

PRESSES = 100
MOST_AGAIN = 512  # presses that can be done again
MOST_DONE = 512  # presses of which it is known what they did
JOURNAL = 256  # events of a journal
FIRST_EPOCH = 3  # of a new store of the desk
ROWS = 33  # of the window, which shows the whole display
KEYS = {'back': 'a Backspace', 'copy': 'a copy', 'paste': 'a paste', 'cut': 'a cut', 'escape': 'Escape'}
CLICKS = {'l': 'the caret, or a viewer that was dragged', 'm': 'a command', 'r': 'a selection',
          'lm': 'a copy to the caret', 'lr': 'a look', 'rl': 'what was deleted', 'rm': 'what was copied',
          'ml': 'a click', 'mr': 'a click'}
PART = "a part of it, and the rest can't be"


class Deed:
    """What a press did whose first event is this line."""

    def __init__(self, line):
        word, *rest = line.split(' ', 2)
        self.typed, self.cell = None, None
        if word == 'file':
            self.words = 'a file'
        elif word == 'type':
            self.typed = self.length(line)
        elif word == 'key':
            self.words = KEYS[rest[0]]
        elif word == 'mark':
            self.words = 'the marker'
        else:
            self.words = CLICKS[rest[0]]
            if rest[0] == 'm':
                self.cell = tuple(int(number) for number in rest[1].split(' ')[:2])

    @classmethod
    def named(cls, words):
        """What is said in these words."""
        deed = cls('mark')
        deed.words = words
        if words.startswith('typed '):
            deed.typed = int(words.split()[1])
        return deed

    @staticmethod
    def length(line):
        text = line[len('type '):]
        return len(text) - 2 * text.count('%')

    def add(self, line):
        """Its press has an event more."""
        if self.typed is not None and line.startswith('type '):
            self.typed += self.length(line)

    def told(self, screen=None):
        """In the words of the line below. The screen as it was before the press shows the word that it called."""
        if self.typed is not None:
            return f'typed {self.typed} character' + ('s' if self.typed != 1 else '')
        return screen and self.cell and word_told(screen, *self.cell) or self.words


WORD, GAP, MOVES, SELECTS, ALONE = range(5)  # what a press was
BARS = ('0', '50')  # the columns of scroll bars


def kind_of(line, pastes=False):
    """What an event was: a letter, a blank, what only moves something, or anything else."""
    word, *rest = line.split(' ')
    if word == 'type' and not pastes and Deed.length(line) == 1:
        return GAP if line in ('type  ', 'type %20', 'type %09', 'type %0d') else WORD
    if word == 'point' and not pastes:
        keys, x0, y0, _, y1 = rest
        if is_draw(line):
            return SELECTS
        if keys == 'r' or keys == 'l' and y0 == y1 or keys == 'm' and x0 in BARS:
            return MOVES
    return ALONE


def goes_on(kind, following):
    return (kind, following) in ((WORD, WORD), (WORD, GAP), (GAP, GAP))


def kind_with(kind, following):
    """What a press of that kind is that posts an event more."""
    if kind in (MOVES, SELECTS):
        return following
    if goes_on(kind, following) or (kind, following) == (GAP, WORD):
        return following
    return GAP if kind == GAP and following in (MOVES, SELECTS) else ALONE


class History:
    """The events that a store can take back: those of its journal, and of the one before it. An event that is refused
    stands there too."""

    def __init__(self, lines):
        self.before, self.journal, self.epoch = [], list(lines), 1

    def add(self, line):
        if len(self.journal) == JOURNAL:
            self.checkpoint()
        self.journal.append(line)

    def checkpoint(self):
        self.before, self.journal, self.epoch = self.journal, [], self.epoch + 1

    def take_back(self, count):
        """So many of the last events, or all: those of the journal before too, where this one has too few."""
        whole = self.before + self.journal
        at = max(0, len(whole) - count)
        if at < len(self.before):
            self.before, self.journal, self.epoch = [], self.before[:at], self.epoch - 1
        else:
            self.journal = whole[len(self.before):at]
        return whole[at:]

    def __len__(self):
        return len(self.before) + len(self.journal)


class Undoing(Model):
    """The desktop of the events that stand: where some are taken back, all the others are played to a new store. What the
    presses did is known as far as they changed something: how many events each has, its deed, and what it was. An event
    that is refused goes with the press before it, and so does a press that only moves something. Where there is none, what was
    refused is never said to be taken back. A letter goes on with the word before it."""

    def __init__(self, oberon, store, window, folder, lines):
        self.base, self.folder, self.count = f'{folder}/nothing', folder, 0
        subprocess.run([oberon, 'format', self.base], check=True, stdout=subprocess.DEVNULL)
        self.history, self.undone, self.stands = History(lines), [], list(lines)
        self.presses, self.refused, self.joins, self.pastes, self.goes_on = [], 0, False, False, False
        self.patterns = [(0, b'')]  # (behind how many events the pattern became which one)
        for line in lines:
            self.add(line)
        self.at_first = len(self.presses)
        super().__init__(oberon, store, window)
        self.oberon = oberon

    def copied(self):
        self.count += 1
        name = f'{self.folder}/model.{self.count}'
        copied(self.base, name)
        return name

    def take(self, meaning):
        self.begin_press()
        self.pastes = meaning[0] in ('paste', 'file')
        super().take(meaning)
        self.pastes = False
        self.note_pattern()

    def note_pattern(self):
        """The pattern of the desktop is one of its events, and goes back with them."""
        if self.pattern != self.patterns[-1][1]:
            self.patterns.append((len(self.stands), self.pattern))

    def begin_press(self):
        self.joins = False

    def post(self, line):
        self.undone = []
        return self.posted(line)

    def posted(self, line):
        self.history.add(line)
        self.stands.append(line)
        done = super().post(line)
        if not done and not self.presses:
            self.refused += 1
        elif not done:
            self.presses[-1][0] += 1
        else:
            self.add(line)
            self.joins = True
        return done

    def add(self, line):
        """An event was done."""
        kind = kind_of(line, self.pastes)
        is_next = bool(self.presses) and goes_on(self.presses[-1][2], kind)
        if not self.joins:
            self.goes_on = is_next
        if self.joins or is_next:
            self.presses[-1][0] += 1
            self.presses[-1][1].add(line)
            self.presses[-1][2] = kind_with(self.presses[-1][2], kind)
        else:
            self.gather()
            self.presses = [*self.presses, [1, Deed(line), kind]][-MOST_DONE:]

    def selects(self):
        return bool(self.presses) and self.presses[-1][2] == SELECTS

    def gather(self):
        """What only moved something goes with the press before it."""
        if len(self.presses) > 1 and self.presses[-1][2] in (MOVES, SELECTS):
            moves = self.presses.pop()
            self.presses[-1][0] += moves[0]
            self.presses[-1][2] = MOVES if self.presses[-1][2] in (MOVES, SELECTS) else ALONE

    def name_press(self, words):
        if self.joins and not self.goes_on:
            self.presses[-1][1] = Deed.named(words)

    def undo(self):
        """The last press is taken back, of this sitting, with what only moved behind it."""
        self.replacing.typed = None
        self.gather()
        pattern = self.pattern
        lines = self.history.take_back(self.presses[-1][0] if self.presses else self.refused + 1)
        if lines:
            self.play_without(lines)
        if not self.presses and len(lines) <= self.refused:
            self.refused -= len(lines)
            is_first = self.history.epoch <= FIRST_EPOCH
            self.saying = 'There is nothing to take back.' if is_first else 'Undo reaches no further back.'
            return
        deed = self.deed_of(lines)
        self.undone = [*self.undone, (lines, deed, pattern)][-MOST_AGAIN:]
        self.follows = True
        self.saying = 'undid: ' + (deed.told(self.screen()) if deed else PART)

    def play_without(self, lines):
        """The events that stand without these, the last ones, are played to a new store."""
        self.stands = self.stands[:-len(lines)]
        while self.patterns[-1][0] > len(self.stands):
            self.patterns.pop()
        self.pattern = self.patterns[-1][1]
        self.end()
        self.store = self.copied()
        self.play = subprocess.Popen([self.oberon, 'play', self.store], stdin=subprocess.PIPE, stdout=subprocess.PIPE)
        for line in self.stands:
            self.ask(line)

    def deed_of(self, lines):
        """What these events did, which were taken back; None where they are a part of a press."""
        if not self.presses:
            self.refused = max(0, self.refused - len(lines))
            return Deed(lines[0])
        press = self.presses[-1]
        if press[0] > len(lines):
            press[0] -= len(lines)
            return None
        self.presses.pop()
        return press[1]

    def redo(self):
        self.replacing.typed = None
        if not self.undone:
            self.saying = 'There is nothing to do again.'
            return
        lines, deed, self.pattern = self.undone.pop()
        self.joins = False
        for line in lines:
            self.posted(line)
        if self.joins and not self.goes_on:
            self.presses[-1][1] = deed or Deed.named(PART)
        self.note_pattern()
        self.saying = 'did again: ' + (deed.told() if deed else PART)


def presses_of(chance, model):
    """One press, or a run of Ctrl-Z or Ctrl-Y. Of these the bytes come alone."""
    kind = chance.randrange(12)
    if kind < 2:
        for _ in range(min(chance.choice([1, 1, 2, 3, 5, 12, 40]), len(model.presses) - model.at_first)):
            yield b'\x1a', model.undo
    elif kind == 2:
        for _ in range(chance.choice([1, 1, 2, 3, 40])):
            yield b'\x19', model.redo
    else:
        data, meanings = press(chance, ROWS, True)
        if any(meaning[0] == 'fit' for meaning in meanings):
            return
        yield data, lambda: [model.take(meaning) for meaning in meanings]


def sit(seed, desk, oberon, folder, tool):
    """One sitting. Returns what is wrong, in words."""
    chance = random.Random(seed)
    theirs, ours = f'{folder}/theirs', f'{folder}/ours'
    begin(oberon, theirs, tool)
    copied(theirs, ours)
    for name, data in FILES.items():
        with open(f'{folder}/{name}', 'wb') as file:
            file.write(data)
    os.mkfifo(f'{folder}/pipe')
    sitting, model = Sitting([desk, '--no-questions', '--no-past', theirs], ROWS, 80, folder), Undoing(oberon, ours, ROWS, folder, beginning(tool))
    terminal = sitting.terminal
    try:
        if not sitting.wait(lambda: terminal.scenes > 0 and MODES <= terminal.modes):
            return ['no scene came']
        model.saying = terminal.line(model.rows)
        for turn in range(PRESSES):
            for data, does in presses_of(chance, model):
                sitting.press(data)
                does()
            if not sitting.hear_long(b''):
                return [f'no scene came after turn {turn}']
            wanted = model.in_sight()
            if not sitting.wait(lambda: characters(terminal.cells, model.rows) == wanted):
                seen = characters(terminal.cells, model.rows)
                return [f'another screen after turn {turn}: ' + repr([(g, w) for g, w in zip(seen, wanted) if g != w][:3])]
            if not model.is_below(terminal.line(model.rows)):
                return [f'the line below after turn {turn} is {terminal.line(model.rows)!r} and not {model.saying!r}']
        sitting.press(b'\x11')
        wrong = [] if sitting.end() == 0 else [f'status {sitting.status}']
    finally:
        sitting.stop()
    if played(oberon, theirs, ['list']) != model.lines('list') + ['end']:
        wrong.append('another list')
    model.end()
    return wrong


def played(oberon, store, lines):
    done = subprocess.run([oberon, 'play', store], input=''.join(line + '\n' for line in lines).encode(), check=True,
                          stdout=subprocess.PIPE)
    return done.stdout.decode().split('\n')[:-1]


# ---- after a kill

def click(key, column, row):
    return drag(random.Random(0), key, (column, row), (column, row))


# What a person does, and whether an undo begins with it: opens a document, goes to its text, types words, pastes, deletes a
# paragraph (the right button is drawn over it, and the left one pressed meanwhile), has the document stored (the marker, and
# then the command, once more since another viewer has the name), closes the viewer and deletes the document (once more, since
# that is asked).
DEEDS = [(click('m', 52, 2), True), (click('l', 2, 2), False), *((b'A letter\r'[k:k + 1], k in (0, 2)) for k in range(9)),
         (b'\x1b[200~a paragraph to go\ranother one\r\x1b[201~', True), (drag(random.Random(0), 'rl', (2, 3), (19, 3)), True),
         (b'\x1bOP' + click('l', 5, 5), True), (click('m', 52, 27) * 2, True), (b'\x03', True), (click('m', 15, 1), True),
         (click('m', 52, 8) * 2, True)]


def kills(seed, desk, oberon, folder, tool):
    """The program is killed by signal 9 after these deeds; at a new start each Ctrl-Z shows what was seen before its step."""
    store = f'{folder}/store'
    begin(oberon, store, tool)
    words = [desk, store]
    had = played(oberon, store, ['list'])
    sitting = Sitting(words, ROWS, 80, folder)
    seen, wrong = [], []
    try:
        if not sitting.wait(lambda: sitting.terminal.scenes > 0):
            return ['no scene came']
        seen.append(characters(sitting.terminal.cells, ROWS - 1))
        for data, _ in DEEDS:
            sitting.press(data)
            sitting.hear_long(b'')
            seen.append(characters(sitting.terminal.cells, ROWS - 1))
        os.kill(sitting.program(), signal.SIGKILL)
        sitting.end()
    finally:
        sitting.stop()
    sitting = Sitting(words, ROWS, 80, folder)
    try:
        if not sitting.wait(lambda: sitting.terminal.scenes > 0):
            return ['no scene came after the kill']
        for at in [len(DEEDS), *(at for at in range(len(DEEDS) - 1, -1, -1) if DEEDS[at][1])]:
            if at < len(DEEDS):
                sitting.press(b'\x1a')
                sitting.hear_long(b'')
            if characters(sitting.terminal.cells, ROWS - 1) != seen[at]:
                wrong.append(f'another screen than that after {at} deeds')
        sitting.press(b'\x11\x11')  # (what was taken back is asked about)
        sitting.end()
    finally:
        sitting.stop()
    return wrong if played(oberon, store, ['list']) == had else [*wrong, 'another list']


# ---- imports

NAMES = ['Plan', 'A.Text', 'Letter.Text', 'Notes']
STEPS = 40  # presses, kills and imports


class Walk:
    """A store that keeps a past, and somebody at it: what was shown and kept behind each step, and where among them it is. A
    step is a word that was typed, or an import between two sittings."""

    def __init__(self, chance, desk, oberon, folder, tool):
        self.chance, self.desk, self.oberon, self.folder, self.store = chance, desk, oberon, folder, f'{folder}/store'
        begin(oberon, self.store, tool)
        self.wrong, self.at = [], 0
        documents = self.documents()
        self.begin()
        self.steps = [(self.screen(), documents, '')]

    def begin(self):
        self.sitting = Sitting([self.desk, '--no-questions', self.store], ROWS, 80, self.folder)
        if not self.sitting.wait(lambda: self.sitting.terminal.scenes > 0):
            raise TooSlow

    def documents(self):
        """The documents that there are, with their sizes, and what those of these names are."""
        listed = [line for line in played(self.oberon, self.store, ['list']) if line.startswith('file ')]
        return listed + played(self.oberon, self.store, [f'show {name}' for name in NAMES])

    def screen(self):
        return characters(self.sitting.terminal.cells, ROWS - 1)

    def press(self, data):
        self.sitting.press(data)
        self.sitting.hear_long(b'')

    def go(self, key, to, words):
        """A step back or forth, to what was shown then."""
        self.press(key)
        line = self.sitting.terminal.line(ROWS - 1)
        if line != words:
            self.wrong.append(f'the line below is {line!r} and not {words!r}')
        self.at = to
        self.compare('screen', self.screen(), 0)

    def compare(self, word, seen, part):
        if seen != self.steps[self.at][part]:
            self.wrong.append(f'another {word} at step {self.at} of {len(self.steps) - 1}')

    def add(self, documents, words):
        """A step was done, behind which no other is."""
        self.at += 1
        self.steps[self.at:] = [(self.screen(), documents, words)]

    def type(self):
        word = ''.join(self.chance.choice('abcde') for _ in range(self.chance.randrange(1, 4))) + ' '
        self.press(word.encode())
        self.add(self.steps[self.at][1], f'typed {len(word)} characters')

    def leave(self):
        self.sitting.press(b'\x11')
        self.sitting.end()
        self.compare('document', self.documents(), 1)

    def bring(self):
        """Leaves, and imports files, over other documents or not."""
        self.leave()
        names = self.chance.sample(NAMES, self.chance.randrange(1, 4))
        for name in names:
            with open(f'{self.folder}/{name}', 'w', encoding='ascii') as file:
                file.write(f'{name} of {self.chance.random()}\n' * self.chance.choice([1, 30]))
        subprocess.run([self.desk, 'import', self.store, '--replace', *(f'{self.folder}/{name}' for name in names)], check=True,
                       stdout=subprocess.DEVNULL)
        documents = self.documents()
        self.begin()
        self.add(documents, f'imported {len(names)} document' + 's' * (len(names) > 1))

    def kill(self):
        os.kill(self.sitting.program(), signal.SIGKILL)
        self.sitting.end()
        self.begin()
        self.compare('screen', self.screen(), 0)

    def turn(self):
        kind = self.chance.randrange(20)
        if kind < 7 and self.at:
            self.go(b'\x1a', self.at - 1, 'undid: ' + self.steps[self.at][2])
        elif kind < 12 and self.at < len(self.steps) - 1:
            self.go(b'\x19', self.at + 1, 'did again: ' + self.steps[self.at + 1][2])
        elif kind == 12 and self.at == len(self.steps) - 1:
            self.go(b'\x19', self.at, 'There is nothing to do again.')
        elif kind < 16:
            self.kill()
        elif kind < 18 or self.chance.random() < 0.5:
            self.type()
        else:
            self.bring()


def walks(seed, desk, oberon, folder, tool):
    """Words and imports at a desk that keeps its past, and steps back and forth over them, also after a kill."""
    walk = Walk(random.Random(seed), desk, oberon, folder, tool)
    try:
        for _ in range(3):
            walk.type()
            walk.bring()
        for _ in range(STEPS):
            walk.turn()
        walk.leave()
    finally:
        walk.sitting.stop()
    return walk.wrong[:3]


# ---- scripts


def line(chance):
    """An event, or a checkpoint. The words of the tool text are called too, `System.Collect` among them."""
    kind = chance.randrange(16)
    if kind < 5:
        return 'type ' + chance.choice(['a', 'hello ', '%0d', 'Edit.Open B.Text ', 'x' * 300])
    if kind < 7:
        return 'key ' + chance.choice(list(KEYS))
    if kind == 7:
        return 'mark %d %d' % (chance.randrange(80), chance.randrange(32))
    if kind == 8:
        return 'file %s.Text %s' % (chance.choice('ABC'), chance.choice(['', 'short', 'a longer text%0d' * 40]))
    if kind == 9:
        return 'checkpoint'
    x, y = chance.choice([(1, 30), (52, 30), (52, chance.randrange(32)), (chance.randrange(80), chance.randrange(32))])
    if kind < 13:
        return f'point {chance.choice("lmm")} {x} {y} {x} {y}'
    return 'point %s %d %d %d %d' % (chance.choice(list(CLICKS)), x, y, chance.randrange(80), chance.randrange(32))


def plays(seed, desk, oberon, folder, tool):
    """A script with undos between its lines. Returns what is wrong, in words."""
    chance = random.Random(seed)
    theirs, ours, copy = f'{folder}/theirs', f'{folder}/ours', f'{folder}/copy'
    begin(oberon, theirs, tool)
    shutil.copy(theirs, ours)
    history, stands = History(['', '', '', '']), []
    for _ in range(chance.randrange(2, 7)):
        lines = [line(chance) for _ in range(chance.choice([1, 3, 10, 40]))]
        if chance.random() < 0.15:
            lines += ['key escape'] * chance.randrange(200, 260)
        played(oberon, theirs, lines)
        for each in lines:
            if each == 'checkpoint':
                history.checkpoint()
            else:
                history.add(each)
                stands.append(each)
        count = min(chance.choice([0, 1, 1, 2, 5, 30, 100, 300]), len(history), len(stands))
        if count:
            subprocess.run([desk, 'earlier', theirs, str(count), copy], check=True, stdout=subprocess.DEVNULL)
            os.replace(copy, theirs)
            history.take_back(count)
            stands = stands[:-count]
    played(oberon, ours, stands)
    looks = ['screen', 'list', *(f'show {name}.Text' for name in 'ABC'), 'show System.Tool']
    if played(oberon, theirs, looks) != played(oberon, ours, looks):
        return ['another desktop']
    told = subprocess.run([desk, 'history', theirs], check=True, stdout=subprocess.PIPE).stdout.decode().split('\n')[:-1]
    return [] if len(told) == len(history) else [f'{len(told)} events in the history, and not {len(history)}']


def tried(does, seed, *others):
    """The same, once more where the machine had no time for it."""
    for _ in range(5):
        folder = tempfile.mkdtemp()
        try:
            return does(seed, *others[:2], folder, others[2])
        except TooSlow:
            continue
        except Ended:
            return ['the program ended by itself']
        finally:
            shutil.rmtree(folder)
    return ['the machine is too slow for it']


def main():
    desk, oberon, tool_path, sittings, scripts, first = sys.argv[1:7]
    with open(tool_path, encoding='ascii') as text:
        tool = text.read()
    faults = 0
    for does, runs, words in ((sit, int(sittings), 'sittings with Ctrl-Z and Ctrl-Y'), (kills, 1, 'desks killed amid them'),
                              (walks, int(sittings), 'walks over imports'), (plays, int(scripts), 'scripts with undos')):
        differ = 0
        for seed in range(int(first), int(first) + runs):
            wrong = tried(does, seed, desk, oberon, tool)
            if wrong:
                differ += 1
                print(f'{words}, {seed}: ' + '; '.join(wrong), flush=True)
        print(f'{runs} {words}, {differ} differ', flush=True)
        faults += differ
    sys.exit(1 if faults else 0)


if __name__ == '__main__':
    main()
