"""A terminal: a grid of cells that does what it is sent. It knows what the desk and its script send, and no more: what
else comes is noted in `mistakes`, and so is a byte that would pass the right edge.

`before` is what was shown before the screen was wiped the last time, and `left` what the alternate screen showed when
it was left. What it is to answer stands in `answers`, and `asked` is how often it was asked."""
import base64
import re

CLIP = re.compile(rb'\x1b\]52;c;([A-Za-z0-9+/]*=*)\x07')
SEQUENCE = re.compile(rb'\x1b\[([?]?)([0-9;]*)( ?[A-Za-z])')
# (an ink, a paper, the numbers of the styles)
PLAIN = (None, None, frozenset())
STYLES = (1, 2, 3, 4, 53)


class Terminal:
    def __init__(self, rows, columns):
        self.modes = {25}
        self.pen = PLAIN
        self.row = self.column = 0
        self.kept = 0, 0
        self.bells = self.scenes = self.wipes = self.wiped_in = self.asked = 0
        self.answers = []
        self.clips = []  # what the clipboard was given
        self.tells_size = True
        self.mistakes = []
        self.rest = b''
        self.before = self.left = None
        self.cells = self.main = []
        self.resize(rows, columns)

    def resize(self, rows, columns):
        """Has another size. What is shown stays where it was, as far as there is room."""
        self.rows, self.columns = rows, columns
        self.cells, self.main = self.fitted(self.cells), self.fitted(self.main)

    def fitted(self, cells):
        old = [row[:self.columns] + [(' ', PLAIN)] * (self.columns - len(row)) for row in cells[:self.rows]]
        return old + [[(' ', PLAIN)] * self.columns for _ in range(self.rows - len(old))]

    def blank(self):
        return [[(' ', self.pen)] * self.columns for _ in range(self.rows)]

    def take(self, data):
        """Does what the bytes say. A sequence that isn't whole yet waits for the rest."""
        data = self.rest + data
        at = 0
        while at < len(data):
            if data[at:at + 2] in (b'\x1b7', b'\x1b8'):
                self.keep_cursor(data[at + 1] == 55)
                at += 2
            elif data[at:at + 2] == b'\x1b]':
                found = CLIP.match(data, at)
                if not found and b'\x07' not in data[at:]:
                    break
                if found:
                    self.clips.append(base64.b64decode(found[1], validate=True))
                else:
                    self.mistakes.append(data[at:at + 12])
                at = found.end() if found else at + 2
            elif data[at] == 27:
                found = SEQUENCE.match(data, at)
                if not found and len(data) - at < 48 and re.fullmatch(rb'\x1b(\[[?]?[0-9;]* ?)?', data[at:]):
                    break
                if found:
                    self.sequence(found)
                else:
                    self.mistakes.append(data[at:at + 12])
                at = found.end() if found else at + 1
            else:
                self.byte(data[at])
                at += 1
        self.rest = data[at:]

    def byte(self, byte):
        if byte == 7:
            self.bells += 1
        elif not 32 <= byte < 127:
            self.plain_byte(byte)
        elif self.column >= self.columns and 1049 in self.modes:
            self.mistakes.append('a byte past the right edge')
        else:
            if self.column >= self.columns:
                self.row, self.column = min(self.row + 1, self.rows - 1), 0
            self.cells[self.row][self.column] = (chr(byte), self.pen)
            self.column += 1

    def keep_cursor(self, keeps):
        if keeps:
            self.kept = self.row, self.column
        else:
            self.row, self.column = self.kept

    def plain_byte(self, byte):
        """The ends of lines that a shell's messages have."""
        if byte == 13:
            self.column = 0
        elif byte == 10:
            self.row = min(self.row + 1, self.rows - 1)
        else:
            self.mistakes.append(bytes([byte]))

    def sequence(self, found):
        numbers = [int(n or 0) for n in found[2].split(b';')] if found[2] else []
        last = found[3].decode()
        if found[1] and last in 'hl':
            self.mode(numbers, last == 'h')
        elif last == 'H':
            row, column = (numbers + [1, 1])[:2]
            self.row, self.column = min(max(row, 1), self.rows) - 1, min(max(column, 1), self.columns) - 1
        elif last == 'J' and numbers == [2]:
            self.before = [list(row) for row in self.cells]
            self.cells = self.blank()
            self.wipes += 1
            self.wiped_in = self.scenes
        elif last == 'K' and not numbers and self.column < self.columns:
            self.cells[self.row][self.column:] = [(' ', self.pen)] * (self.columns - self.column)
        elif last == 'm':
            self.take_pen(numbers)
        elif last == 't' and numbers == [18]:
            self.asked += 1
            if self.tells_size:
                self.answers.append(b'\x1b[8;%d;%dt' % (self.rows, self.columns))
        elif last == 'n' and numbers == [6]:
            self.answers.append(b'\x1b[%d;%dR' % (self.row + 1, self.column + 1))
        elif last != ' q':
            self.mistakes.append(found[0])

    def mode(self, numbers, is_on):
        for number in numbers:
            (self.modes.add if is_on else self.modes.discard)(number)
            if number == 2026 and not is_on:
                self.scenes += 1
            elif number == 1049 and is_on:
                self.main, self.cells = self.cells, self.blank()
            elif number == 1049:
                self.left, self.cells = self.cells, self.main

    def take_pen(self, numbers):
        ink, paper, styles = self.pen
        rest = list(numbers or [0])
        while rest:
            number = rest.pop(0)
            if number == 0:
                ink, paper, styles = PLAIN
            elif number in (38, 48) and rest[:1] == [5] and len(rest) > 1:
                ink, paper = (rest[1], paper) if number == 38 else (ink, rest[1])
                del rest[:2]
            elif number in STYLES:
                styles = styles | {number}
            elif number not in (22, 23, 24, 55):
                self.mistakes.append('pen %d' % number)
        self.pen = (ink, paper, styles)

    def line(self, row):
        return ''.join(character for character, _ in self.cells[row]).rstrip()

    def lines(self):
        return [self.line(row) for row in range(self.rows)]
