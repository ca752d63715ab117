"""A person who sees the screen and presses keys: what is pressed is a name or a word that is in sight, and after each press the
person waits until it is heard and shown."""
import re

from sitting import Sitting

KEYS = {'Return': b'\r', 'Tab': b'\t', 'Backspace': b'\x7f', 'Escape': b'\x1b\x00', 'Delete': b'\x1b[3~', 'PageUp': b'\x1b[5~',
        'PageDown': b'\x1b[6~', 'Alt-PageUp': b'\x1b[5;3~', 'Alt-PageDown': b'\x1b[6;3~', 'Alt-Left': b'\x1b[1;3D', 'Alt-Right': b'\x1b[1;3C', 'Ctrl-Home': b'\x1b[1;5H', 'Ctrl-End': b'\x1b[1;5F',
        'F1': b'\x1bOP', 'F2': b'\x1bOQ', 'F3': b'\x1bOR', 'F11': b'\x1b[23~',
        **{f'Ctrl-{letter}': bytes([ord(letter) - 64]) for letter in 'ABCEFKRSTUVWXYZ'}, 'Alt-F': b'\x1bf',
        **{f'{held}{word}': b'\x1b[' + number + letter for held, number in (('', b''), ('Shift-', b'1;2'))
           for word, letter in (('Up', b'A'), ('Down', b'B'), ('Right', b'C'), ('Left', b'D'), ('Home', b'H'), ('End', b'F'))}}
BUTTONS = {'left': 0, 'middle': 1, 'right': 2}
WHEEL = {'up': 64, 'down': 65}


class Person:
    """Who has no mouse has the pointer that keys move. `presses` counts keys and clicks."""

    def __init__(self, words, rows, columns, folder, has_mouse):
        self.sitting = Sitting(words, rows, columns, folder)
        self.terminal, self.has_mouse, self.presses = self.sitting.terminal, has_mouse, 0
        self.rows, self.columns = min(rows - 1, 32), columns
        if not self.sitting.wait(lambda: self.terminal.scenes > 0):
            raise TimeoutError('no scene came')

    def send(self, data):
        self.presses += 1
        self.sitting.press(data)
        if not self.sitting.hear_long(b'') or not self.sitting.wait(lambda: 2026 not in self.terminal.modes):
            raise TimeoutError('nothing is shown')

    def key(self, *names):
        for name in names:
            self.send(KEYS[name])

    def type(self, text):
        """The text, a few words at a time. Returns how often what was typed last, or the caret, isn't in sight then."""
        hidden = 0
        for words in re.findall(r'(?:\S+ +){1,5}|\S+|\n+', text):
            self.send(words.replace('\n', '\r').encode())
            column, row = self.caret() or (0, 0)
            seen = f'{self.row(row - 1)[1:50].rstrip()} ' * (row > 1) + self.row(row)[1:column]
            hidden += not self.caret() or words.strip().split(' ')[-1] not in seen
        return hidden

    # ---- what is seen

    def row(self, row):
        return self.terminal.line(row)

    def below(self):
        return self.row(self.rows)

    def caret(self):
        """Where the cursor is; None where it is hidden."""
        return (self.terminal.column, self.terminal.row) if 25 in self.terminal.modes else None

    def find(self, word, first=0, last=80):
        """The first place of a word between two columns, from the top on; None where it isn't in sight."""
        for row in range(self.rows):
            column = self.row(row)[:last].find(word, first)
            if column >= 0:
                return column, row
        return None

    # ---- what is pressed at a place

    def point(self, word, at):
        """Moves the pointer that keys move to a character of a word. What is in sight follows it."""
        for turn in range(100):
            place, (column, row) = self.find(word), self.caret()
            across, down = (place[0] + at - column, place[1] - row) if place else (0, -5 if turn < 6 else 5)
            if across:
                self.key(('Shift-' if abs(across) > 4 else '') + ('Right' if across > 0 else 'Left'))
            elif down:
                self.key(('Shift-' if abs(down) > 4 else '') + ('Down' if down > 0 else 'Up'))
            else:
                return
        raise TimeoutError(f'the pointer does not come to {word}')

    def click(self, button, word, at=0):
        self.draw(button, word, at, word, at)

    def draw(self, button, word, at, to_word, to):
        """A press at a character of a word that is in sight, and a release at one of another word."""
        if self.has_mouse:
            ends = [(self.find(word), at, b'M'), (self.find(to_word), to, b'm')]
            self.send(b''.join(b'\x1b[<%d;%d;%d%c' % (BUTTONS[button], place[0] + offset + 1, place[1] + 1, last)
                               for place, offset, last in ends))
            return
        self.key('F11')
        self.point(word, at)
        self.key(*{'left': [], 'middle': ['F2'], 'right': ['F3']}[button])
        self.point(to_word, to)
        pointer = self.caret()
        self.key('Return')
        if self.caret() == pointer:  # (where a viewer opened it is put away)
            self.key('F11')

    def bring(self, word, way='down'):
        """Scrolls until a word of the text on the left is in sight, and returns its place. In a low window a page may have rows
        that are only seen after Alt with a page key."""
        keys = 'Alt-PageDown', 'Alt-PageUp', 'PageUp' if way == 'up' else 'PageDown'
        for turn in range(150):
            place = self.find(word, 1, 50)
            if place:
                return place
            if self.has_mouse:
                self.send(b'\x1b[<%d;5;5M' % WHEEL[way])
            else:
                self.key(keys[turn % 3])
        raise LookupError(f'{word} does not come into sight')
