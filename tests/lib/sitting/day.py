"""A day of work at a desk that keeps its past: letters, commands, documents, imports and kills. Every hundredth moment comes
back as it was shown then. `tests/random/day` says what is tried."""
import os
import random
import signal
import subprocess
import sys
import tempfile
import time

from model import ROWS, Screen
from pasts import is_shown, now_of
from person import BUTTONS, Person

EVERY = 100
LETTERS = 'etaoinshrdlucmfwypvbgk'
STORES = 4  # how often a document is stored
OTHERS = ['System.Directory *', 'System.Collect', 'System.SetColor 3', 'Edit.ChangeColor 5', 'System.OpenLog']
LEFT = 50  # columns of the left track


class Day:
    """One store, and the person who works at it."""

    def __init__(self, desk, oberon, folder, chance):
        self.desk, self.oberon, self.folder, self.chance = desk, oberon, folder, chance
        self.path, self.seen, self.letters, self.commands, self.noted = f'{folder}/my.disk', {}, 0, 0, -1
        self.person = None

    def sit(self, *words):
        self.person = Person([self.desk, *words, '--no-questions', self.path], 33, 80, self.folder, True)

    def note(self):
        """What is shown, if it is another hundred events later. What was taken back is no moment any more."""
        now = now_of(self.path)
        self.seen = {moment: rows for moment, rows in self.seen.items() if moment < now}
        self.noted = min(self.noted, now // EVERY)
        if now // EVERY > self.noted:
            self.noted = now // EVERY
            self.seen[now] = self.person.terminal.lines()[:ROWS]

    def type(self, text):
        self.person.send(text.encode())
        self.letters += len(text)
        self.note()

    def key(self, *names):
        self.person.key(*names)
        self.note()

    def words(self, count):
        """So many letters, in words."""
        end = self.letters + count
        while self.letters < end:
            words = (''.join(self.chance.choice(LETTERS) for _ in range(self.chance.randrange(1, 10))) for _ in range(4))
            self.type(self.chance.choice(' \r') + ' '.join(words))  # (its last letter is seen, and so is a moment too early)

    def call(self, line):
        """The command of a line of its own, which is typed."""
        self.type(f'\r{line} ')  # (the caret may be amid a line)
        self.key('Ctrl-E')
        self.commands += 1

    def store(self, name):
        """The text with the caret becomes a document."""
        self.key('Ctrl-S')
        self.commands += 1
        if not self.person.below().startswith(f'Edit.Store {name} '):
            raise ValueError(f'{name} is not stored: {self.person.below()}')

    def click(self, button, column, row):
        """A press and a release at a cell."""
        self.person.send(b''.join(b'\x1b[<%d;%d;%d%c' % (BUTTONS[button], column + 1, row + 1, end) for end in (b'M', b'm')))
        self.note()

    def viewers(self):
        """Where the word that closes a viewer on the left stands, and where its text begins."""
        rows = [self.person.row(row)[:LEFT] for row in range(ROWS)]
        return [(row.find('System.Close'), at) for at, row in enumerate(rows) if 'System.Close' in row and '|' in row[:40]]

    def close(self):
        """The uppermost viewer on the left goes, and the caret is set into the lowest one."""
        self.click('middle', *self.viewers()[0])
        self.commands += 1
        self.click('left', 2, self.viewers()[-1][1] + 1)

    def correct(self):
        """What a person does amid a text."""
        for _ in range(self.chance.randrange(2, 8)):
            self.key(self.chance.choice(['Up', 'Left', 'Right', 'Home', 'End', 'Down']))
        self.key(*['Backspace'] * self.chance.randrange(4))
        self.type(self.chance.choice(LETTERS) * 2)
        if self.chance.random() < 0.5:
            self.key(*['Ctrl-Z'] * self.chance.randrange(1, 4))
            self.key(*['Ctrl-Y'] * self.chance.randrange(3))

    def leave(self):
        self.person.sitting.press(b'\x11')
        if self.person.sitting.end() != 0:
            raise ValueError(f'status {self.person.sitting.status}')

    def bring(self, number):
        """Leaves, and has a file imported."""
        self.leave()
        name = f'{self.folder}/In{number}.Text'
        with open(name, 'w', encoding='ascii') as file:
            file.writelines(f'line {k} of import {number}\n' for k in range(200))
        subprocess.run([self.desk, 'import', self.path, '--replace', name], check=True, stdout=subprocess.DEVNULL)
        self.sit()

    def kill(self):
        os.kill(self.person.sitting.program(), signal.SIGKILL)
        self.person.sitting.end()
        self.sit()

    def begin(self):
        """A past begins, and a first viewer opens."""
        self.sit('--past')
        column, row = self.person.find('Edit.Open')
        self.click('middle', column, row)
        self.commands += 1

    def document(self, number, letters):
        """What is done with one document."""
        self.call(f'Edit.Open D{number}.Text')
        self.words(letters)
        for _ in range(STORES):
            self.words(20)
            self.store(f'D{number}.Text')
        self.correct()
        self.call(self.chance.choice(OTHERS))
        if number % 7 == 2:
            self.call(f'System.DeleteFiles D{number // 2}.Text ~')
        if len(self.viewers()) > 1:
            self.close()

    def work(self, documents, letters):
        self.begin()
        for number in range(documents):
            self.document(number, letters)
            if number % 6 == 1:
                self.bring(number)
            if number % 10 == 2:
                self.kill()
        self.leave()


def shown_at(day, now, moment):
    """The screen of a moment, as the desk itself hands it out."""
    copy = f'{day.folder}/then.disk'
    if os.path.exists(copy):
        os.remove(copy)
    begun = time.monotonic()
    subprocess.run([day.desk, 'earlier', day.path, str(now - moment), copy], check=True, stdout=subprocess.DEVNULL)
    took = time.monotonic() - begun
    told = subprocess.run([day.oberon, 'screen', copy], check=True, stdout=subprocess.PIPE).stdout.decode()
    return Screen(told.splitlines()[:-1]).rows, took


def main():
    desk, oberon, documents, letters, seed = sys.argv[1:6]
    with tempfile.TemporaryDirectory() as folder:
        day = Day(desk, oberon, folder, random.Random(int(seed)))
        day.work(int(documents), int(letters))
        now, failed, times = now_of(day.path), 0, []
        for moment, rows in sorted(day.seen.items()):
            if moment == now:
                continue
            found, took = shown_at(day, now, moment)
            times.append(took)
            if not is_shown(found, rows):
                failed += 1
                print(f'another screen at moment {moment}', flush=True)
        print(f'{now} events, {day.letters} letters, {day.commands} commands; slowest moment {max(times):.2f} s', file=sys.stderr)
        print(f'{len(times)} moments of a day, {failed} differ', flush=True)
    sys.exit(1 if failed or not times else 0)


if __name__ == '__main__':
    main()
