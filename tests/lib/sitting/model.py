"""What presses come to, by another program: their events go as lines of a script to `oberon`. The rest of a sitting,
which rows are in sight and what the line below says, is here once more (crates/desk_sitting/specs)."""
import itertools
import re
import subprocess
from urllib.parse import unquote

import leading
import scrolling
from presses import FILES, marks_of, spelled, told

COLUMNS, ROWS = 80, 32
WIDTHS = {0: 50, 50: 30}  # of the tracks, by their left columns
GREETING = 'Help: F2, then click Edit.Open Help. F11 no mouse, Ctrl-S stores, Ctrl-Q leaves'
# Why a file of the host's isn't typed.
UNREAD = {'none.txt': 'There is no such file: nothing was typed.', '.': 'That is a folder, and no file: nothing was typed.',
          'pipe': 'That is a pipe or a device: nothing was typed.'}
# What the line below says where nothing else is to be said.
KEYS = 'Ctrl-Q leaves, F2 calls, F11 no mouse, F3 selects, Ctrl-S stores, Ctrl-Z undo'
UNSTORED = " isn't stored: Ctrl-S stores, Ctrl-Q leaves, F2 calls, F11 no mouse"
NO_KEY = 'That key means nothing here.'
NO_CARET = 'No caret is set: click into a text, or F11 without a mouse.'
NOTHING_AFTER = 'No character after the caret is in sight.'
NO_LINE = 'There is no line to cut.'
IS_FILLED = 'This paragraph is filled already.'
MOST_PLANS = 321
PART_HIDDEN = 'An end of it is out of sight: make the viewer taller, or take less of the text.'
NO_SCROLL = 'Nothing moves there: no viewer, no caret, or too few rows of a text.'
NO_WORD = 'No such word is in sight: System.Tool shows the commands.'
NO_COMMAND = "No command's whole word is in sight: System.Tool shows the commands."
NO_FIND = 'Press Ctrl-F first: Ctrl-R puts what you typed after the last Ctrl-F'
NO_REPLACEMENT = 'Nothing was typed after the last Ctrl-F'
WENT_ROUND = 'Found round the end of the text: none was on that side.'
NOT_THERE = "These words aren't in this text."
NO_WORDS = 'Nothing was sought yet: type the words first.'
BEYOND_EDGE = "Found right of the edge, out of sight: the caret is in that line's last column."
MOST_SOUGHT = 31  # bytes of words that are sought
FILLS = 'Lines are broken while you type: at the last blank before the edge.'
FILLS_NOT = "Lines aren't broken while you type, and may pass the edge."
# What ends the menu of a viewer that opens, the words that open one, and those of all commands.
MENU = ' | System.Close System.Copy Edit.Search Edit.Store'
OPENING = ('Edit.Open', 'System.Open', 'System.OpenLog', 'System.Recall', 'System.Copy', 'System.Grow')
COMMANDS = {*OPENING, 'System.Close', 'System.Clear', 'System.Directory', 'System.Collect', 'System.DeleteFiles', 'System.SetFont',
            'System.SetColor', 'System.SetOffset', 'Edit.ChangeFont', 'Edit.ChangeColor', 'Edit.ChangeOffset', 'Edit.Store',
            'Edit.Search', 'Edit.Recall'}
MOST_KEPT = 64  # Backspaces, or bytes, of a replacement
TOO_LOW = 'This window is too low: it has fewer than 12 rows.'
TOO_NARROW = 'This window is too narrow: it has fewer than 45 columns.'
ONE_SIDE = 'Alt-Left/Right: the other side. F11 no mouse, Ctrl-Q leaves, Ctrl-S stores'
NAME = frozenset('ABCDEFGHIJKLMNOPQRSTUVWXYZabcdefghijklmnopqrstuvwxyz0123456789.')
# What it says of a refusal, by its code.
REASONS = {
    1: NO_CARET,
    2: 'Nothing is selected: drag over a text with the right button, or with F3.',
    3: 'A name or number is missing behind that word.',
    4: "That word isn't a command: System.Tool shows all of them.",
    5: 'There is no document of that name, or it is named twice.',
    6: 'There is no room: close or delete something, or call System.Collect.',
    7: 'No viewer has the marker, or none was closed: F1 and a click set the marker.',
    8: 'There are 256 documents already: System.DeleteFiles makes room.',
    9: 'That lies outside the desktop.',
    10: 'Not found from the caret on: Ctrl-F again goes to the beginning of the text.',
    11: 'Fonts are 0 to 4, colours 0 to 15, and offsets -64 to 63.',
    13: "A viewer of one row can't be parted.",
}


def within(width, line):
    """A line in so many columns: whole, or up to its last part that fits, or else its last word."""
    if len(line) <= width:
        return line.rstrip()
    parts = [at for at in range(1, width + 1) if re.match('[,:;.] ', line[at:])]
    words = [at for at in range(1, width + 1) if line[at] == ' ']
    return line[:max(parts or words or [width])].rstrip()


def poured(text, at, width):
    """A text with the ends of lines that come into it, of which the first character stands in column at of a width."""
    typed = ''
    for part in re.findall('[^ \t\r]+|[ \t\r]', text):
        if typed and part not in ' \t\r' and at > 0 and at + len(part) >= width:
            typed, at = typed + '\r', 0
        typed += part
        at = 0 if part == '\r' else min(at // 4 * 4 + 4 if part == '\t' else at + len(part), width)
    return typed + '\r' * (typed[-1] in ' \t' and at >= width)


def is_draw(line):
    """Whether an event selects something."""
    return line.startswith('point r ') and int(line.split(' ')[2]) not in WIDTHS


def is_in_word(character):
    return character.isascii() and character.isalnum() or character == '.'


def nearest(number, least, most):
    """The nearest number from the least to the most one."""
    return max(least, min(number, most))


def called_word(screen, x, y):
    """The letters, digits and periods around a cell, in its track."""
    row = screen.rows[ROWS - 1 - y].ljust(COLUMNS)
    left = 0 if x < 50 else 50
    start, end = x, x
    while start > left and is_in_word(row[start - 1]):
        start -= 1
    while end < left + WIDTHS[left] and is_in_word(row[end]):
        end += 1
    return row[start:end][:31]


def word_told(screen, x, y):
    """The same, and two periods where it goes up to the edge of its track, and may go on beyond it."""
    row = screen.rows[ROWS - 1 - y].ljust(COLUMNS)
    edge = 50 if x < 50 else COLUMNS
    is_cut = all(is_in_word(character) for character in row[x:edge])
    return called_word(screen, x, y) + '..' * is_cut


def opens_document(word):
    """Whether the word that was called opens a document by its name, also one that is called System.Log."""
    return word == 'System.Open' or bool(word) and 'Edit.Open'.startswith(word)


def command_columns(row):
    """Where in a row the words of commands begin that are seen whole."""
    for x in range(COLUMNS):
        if is_in_word(row[x]) and (x in WIDTHS or not is_in_word(row[x - 1])):
            end = next((end for end in range(x, COLUMNS) if not is_in_word(row[end])), COLUMNS)
            if row[x:end] in COMMANDS and end < (50 if x < 50 else COLUMNS):
                yield x


class Screen:
    """What `screen` prints: the characters, and the marks that it tells of, from the top row down."""

    def __init__(self, lines):
        at = lines.index('marks')
        self.rows = [line[3:] for line in lines[:at]]
        self.marks = ['' for _ in self.rows]
        for line in lines[at + 1:]:
            self.marks[ROWS - 1 - int(line[:2])] = line[3:]

    def mark(self, x, y):
        marks = self.marks[ROWS - 1 - y]
        return marks[x] if x < len(marks) else '.'

    def place(self, mark):
        """The lowest row that has a mark, and its first column there, as (column, row); None where there is none."""
        for y in range(ROWS):
            if mark in self.marks[ROWS - 1 - y]:
                return self.marks[ROWS - 1 - y].index(mark), y
        return None

    def caret(self):
        return self.place('c')


class Replacing:
    """What was typed since the last Ctrl-F, so many Backspaces and then bytes, where nothing else was done; and what Ctrl-R
    types, which is what was typed the time before."""

    def __init__(self):
        self.typed, self.kept = None, None

    def note(self, meaning, is_done):
        """A press was done, or refused."""
        kind, *rest = meaning
        is_search = kind in ('search', 'find')
        if is_search and self.typed and self.typed != (0, ''):
            self.kept = self.typed
        if not is_done:
            self.typed = None
        elif is_search:
            self.typed = (0, '')
        elif kind == 'replace':
            self.typed = self.kept
        elif self.typed:
            self.typed = self.grown(kind, rest)

    def is_again(self):
        """Whether the same was typed as the time before."""
        return self.typed not in (None, (0, '')) and self.typed == self.kept

    def grown(self, kind, rest):
        back, text = self.typed
        if kind == 'type':
            text += rest[0]
        elif kind in ('paste', 'file'):
            text += ''.join(rest[0] if kind == 'paste' else told(FILES[rest[0]]))
        elif (kind, *rest) == ('key', 'back'):
            back, text = (back, text[:-1]) if text else (back + 1, text)
        else:
            return None
        return (back, text) if max(back, len(text)) <= MOST_KEPT else None


class Listing:
    """What `list` prints: how long each document is, the tracks of each column, each a list of its viewers, and how many
    characters count as written."""

    def __init__(self, lines):
        self.files, self.tracks, self.written = {}, {left: [[]] for left in WIDTHS}, 0
        for line in lines:
            kind, *words = line.split(' ')
            if kind == 'file':
                self.files[words[0]] = int(words[1])
            elif kind == 'over':
                self.tracks[int(words[0])].append([])
            elif kind == 'viewer':
                left, bottom, top, name, _ = words
                self.tracks[int(left)][-1].append((int(left), int(bottom), int(top), name))
            elif kind == 'written':
                self.written = int(words[0])

    def opened_since(self, before):
        """The viewer that stands now and not before, by the places; None where there is none."""
        for left, tracks in self.tracks.items():
            if len(tracks) > len(before.tracks[left]):
                return tracks[-1][0]
            if len(tracks) == len(before.tracks[left]) and len(tracks[-1]) > len(before.tracks[left][-1]):
                return next(viewer for viewer in tracks[-1] if viewer[:3] not in [old[:3] for old in before.tracks[left][-1]])
        return None


class Model:
    """A desktop, the part of it that is in sight in a window of so many rows and columns, and what the line below says."""

    def __init__(self, oberon, store, window, columns=COLUMNS):
        self.oberon, self.store = oberon, store
        self.pointer, self.put_away, self.points, self.has_entered = None, None, False, False
        self.replacing, self.drew, self.typed = Replacing(), False, 0
        self.clicked, self.missed = None, False
        self.asked, self.sought, self.pattern = None, b'', b''
        self.play = subprocess.Popen([oberon, 'play', store], stdin=subprocess.PIPE, stdout=subprocess.PIPE)
        self.top, self.rows = ROWS - 1, ROWS
        self.side = 50
        self.follows = self.fills = True
        self.saying = GREETING if columns >= COLUMNS else ONE_SIDE
        self.fit(window, columns)
        self.look()

    def ask(self, line):
        self.play.stdin.write(line.encode() + b'\n')
        self.play.stdin.flush()
        return self.play.stdout.readline().decode().rstrip('\n')

    def lines(self, line):
        """All lines of an answer, without its end."""
        found = [self.ask(line)]
        while found[-1] != 'end':
            found.append(self.play.stdout.readline().decode().rstrip('\n'))
        return found[:-1]

    def screen(self):
        return Screen(self.lines('screen'))

    def in_sight(self):
        """The rows in sight, from the top, as far as their columns are."""
        first, left = ROWS - 1 - self.top, self.left()
        rows = self.drawn()[first:first + self.rows]
        return [row[left:left + self.columns()].rstrip() for row in rows]

    def drawn(self):
        """The rows of the screen as they are drawn: where the line of a text goes on beyond its viewer's edge, `>` is in the
        last column."""
        rows = [list(row.ljust(COLUMNS)) for row in self.screen().rows]
        for left, bottom, top, name in self.viewers_seen():
            if top - bottom < 2:
                continue
            text, org = scrolling.text_shown(self.oberon, self.store, (left, bottom, top, name))
            for y, line in zip(range(top - 2, bottom - 1, -1), text[org:].split(b'\r')):
                if leading.column(line, len(line)) >= WIDTHS[left]:
                    rows[ROWS - 1 - y][left + WIDTHS[left] - 1] = '>'
        return [''.join(row) for row in rows]

    def viewers_seen(self):
        """The viewers of the track that is seen in each column: leftmost column, first row, row after the last, name."""
        tracks = Listing(self.lines('list')).tracks
        return [viewer for left in WIDTHS for viewer in tracks[left][-1]]

    def left(self):
        """The column of the display in the window's first column."""
        return 0 if self.width == COLUMNS else self.side

    def columns(self):
        """How many columns of the display are in sight."""
        return COLUMNS if self.width == COLUMNS else min(self.width, WIDTHS[self.side])

    def line(self):
        """What is seen of the line below, where it doesn't say that a text isn't stored."""
        return within(self.width, self.saying)

    def is_below(self, seen):
        """Whether that may stand on the line below. Where nothing else is to be said it says whether the text with the caret isn't
        stored; which it is can't be told here where its document is as long, and where its menu is another one or cut."""
        if self.saying != KEYS:
            return seen == self.line()
        name, unstored = self.caret_text()
        marks = [within(self.width, some + within(80 - len(some), UNSTORED))
                 for some in [name] * bool(name) or re.findall('^[A-Za-z0-9.]+', seen)]
        return unstored is not True and seen == self.line() or unstored is not False and seen in marks

    def caret_text(self):
        """The name in the menu of the viewer with the caret, and whether its text isn't stored; None where that isn't known."""
        screen = self.screen()
        place = screen.caret()
        viewer = place and self.viewer_at(*place)
        if not viewer:
            return None, None
        left, _, top, name = viewer
        if not screen.rows[ROWS - top][left:left + WIDTHS[left]].startswith(f'{name}{MENU[:15]}'):
            return None, None
        lines = [line.split(' ') for line in self.lines('list')]
        lengths = [int(line[5]) for line in lines if line[0] == 'viewer' and line[4] == name]
        stored = [int(line[2]) for line in lines if line[0] == 'file' and line[1] == name]
        if len(lengths) != 1 or name == 'System.Log':
            return name, None
        return name, bool(lengths[0]) and (True if lengths != stored else None)

    def end(self):
        self.play.stdin.close()
        return self.play.wait()

    # ---- the window

    def fit(self, window, columns):
        self.width = max(1, min(columns, COLUMNS))
        self.rows = max(1, min(window - 1, ROWS))
        self.top = max(self.top, self.rows - 1)

    def move(self, word):
        self.follows = False
        if word in ('left', 'right'):
            self.side = 0 if word == 'left' else 50
        elif word == 'up':
            self.top = min(self.top + self.rows, ROWS - 1)
        else:
            self.top = max(self.top - self.rows, self.rows - 1)

    def look(self):
        """The screen is shown: where an event was done since the last time the rows in sight follow the caret."""
        place = self.screen().caret() if self.follows else None
        self.follows = False
        if place:
            self.follow(*place)

    def follow(self, x, y):
        """As few rows as bring a cell into sight, and its side."""
        self.top = max(y, min(self.top, y + self.rows - 1))
        self.side = 0 if x < 50 else 50

    def spot(self, column, row):
        return self.left() + min(max(column - 1, 0), self.columns() - 1), self.top - min(max(row - 1, 0), self.rows - 1)

    def shown(self, column, row):
        """The cell that is shown there; None outside the display."""
        return self.spot(column, row) if column <= self.columns() and row <= self.rows else None

    # ---- presses

    def post(self, line):
        """Whether the event isn't refused."""
        reply = self.ask(line)
        if reply == 'ok':
            self.drew = is_draw(line)
            self.typed += len(unquote(line[len('type '):])) if line.startswith('type ') else 0
            self.follows = True
            self.saying = KEYS
            return True
        code = int(reply.removeprefix('no '))
        self.missed = code == 10
        self.saying = REASONS[code]
        if code == 5 and line.startswith('point m '):
            name = self.parameter(*map(int, line.split(' ')[2:4]))
            if name:
                self.saying = f'From {name[:31]} on: no such document, or named twice'
        return False

    def parameter(self, x, y):
        """The word behind the one at a cell, in the same row of a text; no character where there is none."""
        screen = self.screen()
        row, last, at = screen.rows[ROWS - 1 - y].ljust(COLUMNS), x, x
        while last + 1 < COLUMNS and (screen.mark(last + 1, y) == 'c' or self.is_text(screen, last + 1, y)):
            last += 1
        while at < COLUMNS and row[at] in NAME:
            at += 1
        while at < COLUMNS and row[at] == ' ':
            at += 1
        if at > last:
            return ''
        return ''.join(itertools.takewhile(lambda character: character in NAME, row[at:]))

    def paste(self, texts, marks, looks=False):
        """The pieces of a paste, or of a file, up to one that is refused. No store is so full here that one is refused
        after others. A paste of nothing does nothing: what is selected stays. It is told how many characters became question
        marks."""
        if not texts:
            return True
        if self.cut_selected():
            self.name_press('typed 0 characters')
        self.typed = 0
        for text in texts:
            if looks:
                self.look()
            if not (self.pour(text) if self.fills else self.post('type ' + spelled(text))):
                return False
        if marks:
            self.saying = f'{marks} character{"s" * (marks != 1)} became ?'
        return True

    def pour(self, text):
        """A part of a paste is typed where lines are filled: an end of line comes before each word for which its line has no room."""
        typed = self.typed
        while True:
            self.name_press(f'typed {typed} characters')
            if self.break_line(min(len(re.match('[^ \t\r]*', text).group()), 255)) is False:
                return False
            self.name_press(f'typed {typed} characters')
            viewer = self.viewer_of_caret()
            if not viewer:
                return self.post('type ' + spelled(text))
            shown, org, position = self.seen_by(viewer)
            if leading.org_for(shown, viewer[2] - viewer[1] - 1, org, position) == org:
                break
            if not self.post('type ' + spelled(text[0])):
                return False
            if not text[1:]:
                return True
            text, typed = text[1:], typed + 1
        width = WIDTHS[viewer[0]] - 1
        text = poured(text, min(leading.column(shown, position, org), width - 1), width)
        return self.post_all(['type ' + spelled(part) for part in (text[:900], text[900:]) if part])

    def take(self, meaning):
        """A press, and what is noted of it for Ctrl-R, but where it posts nothing by itself. Or the screen is shown."""
        if meaning == ('look',):
            self.look()
            return
        if self.asked:
            meaning = self.answered(*meaning)
            if not meaning:
                return
        meaning = self.meant(meaning)
        is_done = self.taken(meaning)
        if is_done is not None:
            self.replacing.note(meaning, is_done)

    def answered(self, kind, *rest):
        """What a press means while words are asked for, if they are whole by it."""
        words, before = self.asked
        if kind == 'search' or (kind, *rest) == ('type', '\r'):
            self.asked = None
            return 'find', words, rest[0] if kind == 'search' else before
        if kind == 'type' and ' ' <= rest[0] <= '~' and len(words) < MOST_SOUGHT:
            self.asked = words + rest[0].encode(), before
        elif (kind, *rest) == ('key', 'back') and words:
            self.asked = words[:-1], before
        elif kind == 'called off':
            self.asked = None
        else:
            self.saying, self.clicked, self.missed = KEYS, None, False
        return None

    def meant(self, meaning):
        """What a press means by the one before it: a search behind one that found nothing goes to the beginning of the text. Where a
        press comes to nothing that stays in force."""
        kind, *rest = meaning
        if kind in ('pointer', 'keyed', 'fit') or kind == 'wheel' and not self.shown(*rest[1:]):
            return meaning
        if kind in ('point', 'extend') and not self.shown(*rest[-4:-2]):
            return meaning
        missed, self.missed = self.missed, False
        if kind != 'point':
            self.clicked = None
        if meaning == ('search', False) and (missed or self.replacing.is_again()):
            return ('text end', 'first') if missed else ('find', b'', False)
        return meaning

    def taken(self, meaning):
        """Whether it was done; None where it posts nothing by itself."""
        kind, *rest = meaning
        self.has_entered = self.has_entered and kind == 'pointer'
        if kind == 'type':
            if self.cut_selected():
                self.name_press('typed 0 characters')
            return self.type(rest[0])
        if kind == 'call':
            return self.call(rest[0])
        if kind == 'search':
            return self.search(*rest)
        if kind == 'find':
            return self.find(*rest)
        if kind == 'called off':
            return self.post('key escape')
        if kind == 'replace':
            return self.replace()
        if kind == 'paste':
            return self.paste(rest[0], rest[1])
        if kind == 'key' and rest[0] == 'back' and self.cut_selected():
            self.name_press('a Backspace')
            return True
        if kind == 'key':
            return self.post('key ' + rest[0])
        if kind == 'mark':
            return self.click('mark', None, self.spot(*rest))
        if kind == 'point':
            return self.point(rest[0], self.spot(*rest[1:3]), self.spot(*rest[3:])) if self.shown(*rest[1:3]) else None
        if kind == 'extend':
            return self.extend(self.spot(*rest[:2]), self.spot(*rest[2:])) if self.shown(*rest[:2]) else None
        if kind == 'wheel':
            self.pointer = self.shown(*rest[1:])
            return self.scroll(self.viewer_at(*self.pointer), ('wheel', rest[0])) if self.pointer else None
        if kind == 'text page':
            return self.page(rest[0])
        if kind == 'line':
            return self.go(('number', max(rest[0] - 1, 0)))
        if kind in ('arrow', 'text end', 'delete'):
            (self.delete if kind == 'delete' else self.step)(*rest)
            return True
        if kind in ('select', 'select all', 'cut line', 'refill'):
            return {'select': self.select, 'select all': self.select_all, 'cut line': self.cut_line, 'refill': self.refill}[kind](*rest)
        if kind == 'keyed':
            return self.keyed(rest[0])
        if kind == 'at caret':
            return self.call_line() if rest[0] == 'm' else self.mark_caret()
        if kind == 'file':
            return self.bring(rest[0])
        self.look_otherwise(kind, rest)
        return None

    def look_otherwise(self, kind, rest):
        """What a press does to the window, the line below and what is noted of the mouse."""
        if kind == 'fill':
            self.fills = not self.fills
            self.saying = FILLS if self.fills else FILLS_NOT
        elif kind == 'pointer':
            self.pointer = None if self.has_entered else self.shown(*rest)
        elif kind == 'fit':
            size = self.width, self.rows
            self.fit(*rest)
            self.follows = self.follows or size != (self.width, self.rows)
            if rest[1] < 45:
                self.saying = TOO_NARROW
            elif rest[0] < 12 or self.saying in (TOO_LOW, TOO_NARROW):
                self.saying = TOO_LOW if rest[0] < 12 else KEYS
        elif kind == 'ring':
            self.saying = NO_KEY
        elif kind == 'ring at a name':
            self.saying = KEYS
        else:
            self.saying = KEYS
            self.move(rest[0])

    def click(self, keys, start, end):
        if keys == 'mark':
            self.clicked = None
            return self.post(f'mark {end[0]} {self.middle(*end)}')
        return self.point(keys, start, end)

    def point(self, keys, start, end):
        """A press of these buttons. Where the middle one is done the caret goes into a viewer that opened, or the line below
        says the last line of the log, if that has more, or the caret comes back where a change of looks took it away. A second left
        click at a cell picks the word there."""
        event = 'point %s %d %d %d %d' % (keys, *start, *end)
        is_again, self.clicked = keys == 'l' and start == end == self.clicked, start if keys == 'l' and start == end else None
        if is_again:
            self.clicked = None
            return self.pick(start)
        if keys != 'm':
            return self.post(event)
        before, screen = Listing(self.lines('list')), self.screen()
        seen, had, place = screen.caret(), self.viewer_of_caret(), self.place_called(start, end)
        if not self.post(event):
            return False
        after, word = Listing(self.lines('list')), called_word(screen, *place) if place else ''
        viewer = after.opened_since(before) or self.replaced(before, after, screen, word)
        if viewer:
            return self.enter(viewer, viewer[3] == 'System.Log' and not opens_document(word))
        line = place and self.logged(before, after, place, word)
        if line:
            self.saying = line[:80]
        elif seen and had and self.stays(had, before, after) and self.has_no_caret():
            return self.post('point l %d %d %d %d' % (*seen, *seen))
        return True

    def place_called(self, start, end):
        """The cell whose word is called where the middle button goes down at one cell and up at another: of the menu, or of the
        text, in which it went down the one that is nearest to where it went up. None in a scroll bar, and where no viewer is."""
        viewer = self.viewer_at(*start)
        if not viewer:
            return None
        left, bottom, top, _ = viewer
        if start[1] == top - 1:
            return nearest(end[0], left, left + WIDTHS[left] - 1), top - 1
        if start[0] == left:
            return None
        return nearest(end[0], left + 1, left + WIDTHS[left] - 1), nearest(end[1], bottom, top - 2)

    @staticmethod
    def stays(viewer, before, after):
        """Whether a viewer is shown still."""
        tracks = after.tracks[viewer[0]]
        return viewer in tracks[-1] and len(tracks) == len(before.tracks[viewer[0]])

    def has_no_caret(self):
        return scrolling.played(self.oberon, self.store, ['type x'])[0] == 'no 1'

    def pick(self, place):
        """The word of a text at a cell is selected, and the caret goes before it; where there is none it goes to the cell."""
        (x, y), screen = place, self.screen()
        row, left = screen.rows[ROWS - 1 - y].ljust(COLUMNS), 0 if x < 50 else 50
        end = next((at for at in range(x, left + WIDTHS[left]) if row[at] not in NAME), left + WIDTHS[left])
        first = next((at + 1 for at in range(x - 1, left - 1, -1) if row[at] not in NAME), left)
        while end > x and row[end - 1] == '.':
            end -= 1
        if end == x or not (screen.mark(x, y) == 'c' or self.is_text(screen, x, y)):
            return self.post(f'point l {x} {y} {x} {y}')
        is_done = self.post_all([f'point l {first} {y} {first} {y}', f'point r {first} {y} {end - 1} {y}'])
        self.name_press('a selection')
        return is_done

    def extend(self, start, end):
        """What is selected in the text in which a click begins is drawn anew from its farther end to where the click ends. Where
        nothing is seen selected there, it is a draw."""
        screen, viewer, kept = self.screen(), self.viewer_at(*start), start
        if viewer and viewer[0] < start[0] and start[1] < viewer[2] - 1:
            rows = range(viewer[2] - 2, viewer[1] - 1, -1)
            marks = [(x, y, screen.mark(x, y), screen.mark(x + 1, y)) for y in rows for x in range(viewer[0] + 1, viewer[0] + WIDTHS[viewer[0]])]
            drawn = [(x, y) for x, y, mark, behind in marks if mark == 's' or mark in 'cm' and behind == 's']
            far = [abs((end[1] - y) * COLUMNS + x - end[0]) for x, y in (drawn[:1] + drawn[-1:])]
            kept = drawn[0 if far[0] >= far[1] else -1] if drawn else start
        is_done = self.post('point r %d %d %d %d' % (*kept, *end))
        self.name_press('a selection')
        return is_done

    def replaced(self, before, after, screen, word):
        """The viewer that opened over the whole place of another one, where the word of such a command was called."""
        if not word or not any(one.startswith(word) for one in OPENING):
            return None
        is_new = after.written - before.written > len(MENU)
        marker = screen.place('m') if is_new else None
        for left, tracks in after.tracks.items():
            for viewer, old in zip(tracks[-1], before.tracks[left][-1]):
                is_marked = marker and self.viewer_at(*marker) == viewer
                if viewer != old or is_marked:
                    return viewer
        return None

    def enter(self, viewer, is_log):
        """The caret goes to the first cell of a viewer's text, where it has one, and the marker away; that of the log comes
        into sight. Nothing is pointed at any more."""
        left, bottom, top, _ = viewer
        if top - 2 < bottom:
            return True
        self.points, self.pointer, self.has_entered = False, None, True
        if is_log:
            self.follow(left + 1, top - 2)
            self.follows = False
            return True
        marked = ['key escape'] if self.screen().place('m') else []
        return self.post_all([*marked, 'point l %d %d %d %d' % (left + 1, top - 2, left + 1, top - 2)])

    def logged(self, before, after, place, word):
        """The last line that a command has put into the log; None where it has put in none."""
        deleted = [name for name in before.files if name not in after.files]
        if deleted:
            return f'System.DeleteFiles {deleted[-1]}'
        if word.startswith('System.D') and after.files:
            return '%s %d' % list(after.files.items())[-1]
        for name, length in after.files.items():
            line = f'Edit.Store {name} {length}'
            if len(line) + 1 == after.written - before.written and self.is_stored_from(name, place):
                return line
        return None

    def is_stored_from(self, name, place):
        """Whether the viewer of that menu, or that at the marker, has this name."""
        marker = self.screen().place('m')
        viewers = [self.viewer_at(*place), marker and self.viewer_at(*marker)]
        return any(viewer and viewer[3][:31].startswith(name) for viewer in viewers)

    def keyed(self, steps):
        """What a pointer that keys move is used for, from where it is shown until it is put away. Whether all its clicks were
        done; None where there was none."""
        at, start = self.pointer or self.put_away or self.spot(COLUMNS // 2, self.rows // 2 + 1), None
        is_done, self.points = None, True
        for kind, *rest in steps:
            if kind == 'move':
                at = min(max(at[0] + rest[0], 0), COLUMNS - 1), min(max(at[1] + rest[1], 0), ROWS - 1)
            elif kind == 'tab':
                self.clicked, self.missed = None, False
                at = self.next_command(at)
            elif kind == 'begin':
                start = at
            elif kind == 'off':
                start = None
            elif kind == 'escape':
                if not self.points:
                    self.clicked, self.missed = None, False
                    self.begin_press()
                    self.post('key escape')
            else:
                self.missed = False
                self.begin_press()
                is_done = self.click(rest[0], start or at, at) and is_done is not False
                start = None
        self.put_away, self.points = at, False
        return is_done

    def next_command(self, at):
        """The first cell behind this one in reading order, or else from the first one on, in which a command's word begins."""
        rows = self.screen().rows
        places = [(x, ROWS - 1 - row) for row, text in enumerate(rows) for x in command_columns(text.ljust(COLUMNS))]
        self.saying = KEYS if places else NO_COMMAND
        behind = [place for place in places if (-place[1], place[0]) > (-at[1], at[0])]
        return (behind or places or [at])[0]

    def begin_press(self):
        """What comes now is of a press of its own."""

    def post_all(self, lines):
        """One after another, up to one that is refused."""
        return all(self.post(line) for line in lines)

    def type(self, character):
        """A character is typed. Its line is broken before it where that has no room for it, and behind a blank."""
        room = None if character == '\r' else 0 if character in ' \t' else 1
        if self.fills and room is not None and self.break_line(room) is False:
            return False
        is_done = self.post('type ' + spelled(character)) and (not self.fills or self.break_line(0) is not False)
        if is_done and self.fills:
            self.name_press('typed 1 character')
        return is_done

    def break_line(self, count):
        """The line of the caret is broken that has no room for so many characters more of a word: behind the last blank before
        it. None where it isn't, and whether the events of it are done."""
        seen = self.screen().caret()
        if seen and seen[0] + count < (COLUMNS if seen[0] >= WIDTHS[0] else WIDTHS[0]):
            return None
        viewer = self.viewer_of_caret()
        if not viewer:
            return None
        left, bottom, top, _ = viewer
        height, width = top - bottom - 1, WIDTHS[left] - 1
        text, org = scrolling.text_shown(self.oberon, self.store, viewer)
        position = leading.caret_position(self.oberon, self.store, viewer)
        if leading.column(text, position) < width - count or leading.column(text, max(position - 1, 0)) >= width:
            return None
        place = leading.word_start(text, position)
        if place <= scrolling.line_start(text, position):
            return None
        if place == position:
            return self.post('type %0d')
        if leading.org_for(text, height, org, place) != org or leading.column(text, place, org) >= width:
            return None
        if not self.click_at(viewer, text, org, place) or not self.post('type %0d'):
            return False
        text, org = scrolling.text_shown(self.oberon, self.store, viewer)
        return self.click_at(viewer, text, org, position + 1)

    def click_at(self, viewer, text, org, position):
        """The left button is clicked at a position of a viewer's text, which is in sight."""
        left, _, top, _ = viewer
        x = left + 1 + min(leading.column(text, position, org), WIDTHS[left] - 2)
        y = top - 2 - text.count(b'\r', org, position)
        return self.post(f'point l {x} {y} {x} {y}')

    def replace(self):
        """What was found is replaced by what was typed the time before. None where nothing is typed."""
        typed, kept = self.replacing.typed, self.replacing.kept
        if typed != (0, '') or not kept:
            self.saying = NO_REPLACEMENT if typed == (0, '') else NO_FIND
            return None
        is_done = self.post_all(['key back'] * kept[0]) and all(self.type(character) for character in kept[1])
        self.name_press('a replacement')
        return is_done

    def search(self, before):
        """What was selected right before is searched, or words are asked for. It is no search yet where they are."""
        if self.has_no_caret():
            self.saying = NO_CARET
            return False
        if not (self.selects() and self.has_selection()):
            self.asked, self.saying = (b'', before), KEYS
            self.replacing.typed, self.replacing.kept = None, self.replacing.typed if self.replacing.typed not in (None, (0, '')) else self.replacing.kept
            return None
        viewer = self.viewer_of_caret()
        selected = self.selected(viewer)[:MOST_SOUGHT] if viewer else b''
        self.sought = selected if all(32 <= byte <= 126 for byte in selected) else b''
        if before:
            return self.find_words(selected, before)
        is_done = self.call('Edit.Search')
        self.pattern = selected if is_done else self.pattern
        return is_done

    def selected(self, viewer):
        """What is selected, anywhere: it is copied and put in at the caret, on a copy of the store."""
        position = leading.caret_position(self.oberon, self.store, viewer)
        text, end = leading.marked(self.oberon, self.store, viewer, ['key copy', 'key paste'])
        return text[position:end]

    def find(self, words, before):
        """Words are sought, or those that were sought last."""
        self.sought = words or self.sought
        return self.find_words(self.sought or self.pattern, before)

    def find_words(self, words, before):
        self.saying = KEYS
        if not words:
            self.saying = NO_WORDS
            return False
        viewer = self.viewer_with_rows()
        if not viewer:
            return False
        text, org, position = self.seen_by(viewer)
        height, width = viewer[2] - viewer[1] - 1, WIDTHS[viewer[0]] - 1
        at, around = leading.sought(text, width, position, words, before)
        if at is None:
            self.saying = NOT_THERE
            return False
        place = at + len(words)
        if leading.org_for(text, height, org, place) != org:
            top = max(text.count(b'\r', 0, place) - height // 2, 0)
            lines = scrolling.presses(self.oberon, self.store, viewer, ('number', top))
            if lines is None:
                self.saying = NO_SCROLL
                return False
            self.post_all(lines)
            org = scrolling.line_below(text, top, 0)
        self.click_at(viewer, text, org, place)
        self.name_press('the caret, or a viewer that was dragged')
        is_there = leading.column(text, place) < width
        self.saying = BEYOND_EDGE if not is_there else WENT_ROUND if around else KEYS
        return is_there

    def call(self, word):
        """A command is called on the viewer of the caret, by its word in the menu, or else in a text and by the marker."""
        viewer = self.viewer_with_rows()
        if not viewer:
            return False
        left, bottom, top, name = viewer
        column = leading.first_word(name + MENU, [word])
        if column is not None and column < WIDTHS[left]:
            is_done = self.point('m', (left + column, top - 1), (left + column, top - 1))
        else:
            self.saying = NO_WORD
            at = self.word_in_texts(word)
            is_done = bool(at) and self.post(f'mark {left} {(bottom + top - 1) // 2}') and self.point('m', at, at)
        self.name_press(word)
        return is_done

    def viewer_with_rows(self):
        """The viewer of the caret. None where there is none, or it shows no row of its text; then it is said."""
        viewer = self.viewer_of_caret()
        if not viewer:
            has_caret = scrolling.played(self.oberon, self.store, ['type x'])[0] == 'ok'
            self.saying = NO_SCROLL if has_caret else NO_CARET
        return viewer

    def word_in_texts(self, word):
        """The first cell at which a click in a text calls the command, the lowest row first."""
        shown = {}
        for y in range(ROWS):
            for x in range(COLUMNS):
                viewer = self.viewer_at(x, y) if (x in WIDTHS) else viewer
                if viewer and viewer[0] < x and y + 1 < viewer[2]:
                    if viewer not in shown:
                        shown[viewer] = scrolling.text_shown(self.oberon, self.store, viewer)
                    text, org = shown[viewer]
                    if leading.word_at(text, leading.position_at(text, org, x - viewer[0] - 1, viewer[2] - 2 - y)) == word:
                        return x, y
        return None

    def call_line(self):
        """The command is called whose word the caret stands in, or else the first of its line."""
        viewer = self.viewer_with_rows()
        if not viewer:
            return False
        left, bottom, top, _ = viewer
        text, org = scrolling.text_shown(self.oberon, self.store, viewer)
        position = leading.caret_position(self.oberon, self.store, viewer)
        start, end = scrolling.line_start(text, position), text.find(b'\r', position)
        if leading.word_at(text, position) not in COMMANDS:
            line = text[start:len(text) if end < 0 else end].decode()
            column = leading.first_word(line, COMMANDS)
            position = start + column if column is not None and column < WIDTHS[left] - 1 else None
        self.saying = NO_WORD
        row = -1 if position is None or position < org else text.count(b'\r', org, position)
        if not 0 <= row < top - bottom - 1 or leading.column(text, position, org) >= WIDTHS[left] - 1:
            return False
        place = left + 1 + leading.column(text, position, org), top - 2 - row
        return self.point('m', place, place)

    def mark_caret(self):
        """The marker goes to the caret, or to the middle of its viewer."""
        viewer = self.viewer_with_rows()
        if not viewer:
            return False
        left, bottom, top, _ = viewer
        text, org = scrolling.text_shown(self.oberon, self.store, viewer)
        position = leading.caret_position(self.oberon, self.store, viewer)
        row = -1 if position < org else text.count(b'\r', org, position)
        column = leading.column(text, position, org)
        if 0 <= row < top - bottom - 1 and column < WIDTHS[left] - 1:
            return self.post(f'mark {left + 1 + column} {top - 2 - row}')
        return self.post(f'mark {left} {(bottom + top - 1) // 2}')

    def bring(self, name):
        """A file of the host's is typed, each event of it heard by itself."""
        if name not in FILES:
            self.saying = UNREAD[name]
            return None
        self.saying = KEYS
        return self.paste(told(FILES[name]), marks_of(FILES[name]), looks=True)

    def scroll(self, viewer, wish):
        """The text of a viewer moves. The rows in sight don't follow the caret for it."""
        self.saying = KEYS
        lines = viewer and scrolling.presses(self.oberon, self.store, viewer, wish)
        if lines is None:
            self.saying = NO_SCROLL
            return False
        follows = self.follows
        for line in lines:
            self.post(line)
        self.follows = follows
        self.name_press('a scroll')
        return True

    def page(self, way):
        """The text under the mouse, or that of the caret, moves by as many rows as are in sight of it, less one; where none
        is, by all rows of the viewer, less one. The caret of that viewer goes to the first cell of the text in sight."""
        viewer = self.viewer_at(*self.pointer) if self.pointer else self.viewer_of_caret()
        seen = [y for y in range(viewer[1], viewer[2] - 1) if self.top - self.rows < y <= self.top] if viewer else []
        goes_along = bool(viewer) and viewer == self.viewer_of_caret()
        is_done = self.scroll(viewer, ('rows', way, max(len(seen) - 1, 1)) if seen else ('page', way))
        if not is_done or not goes_along:
            return is_done
        x, y = viewer[0] + 1, max(seen, default=viewer[2] - 2)
        return self.post(f'point l {x} {y} {x} {y}')

    def go(self, wish):
        """The text of the caret goes to a line, and the caret with it."""
        viewer = self.viewer_of_caret()
        is_done = self.scroll(viewer, wish)
        if not is_done:
            return False
        x, y = viewer[0] + 1, viewer[2] - 2
        return self.post(f'point l {x} {y} {x} {y}')

    def name_press(self, words):
        """What is said of the events of this press, if it has any, where they are taken back."""

    def viewer_of_caret(self, *before):
        """The viewer in which the caret stands, after these events, in sight or not: it is, once a line is begun, or a letter
        more where the marker stands on it. None where there is none, or where it shows no row of its text."""
        for text in ('%0d', '%0dx'):
            answers = scrolling.played(self.oberon, self.store, [*before, 'type ' + text, 'screen'])[len(before):]
            place = answers[0] == 'ok' and Screen(answers[1:answers.index('end')]).caret()
            if place:
                return self.viewer_at(*place)
        return None

    def step(self, word):
        """The caret goes a step, with its line in sight."""
        if self.lead(lambda text, width, position: leading.stepped(text, width, position, word), NO_CARET):
            self.name_press('the caret, or a viewer that was dragged')

    # ---- stretches

    def cut_selected(self):
        """Whether what the press before this one selected was cut, where the caret stands at an end of it and both are in sight."""
        viewer = self.viewer_of_caret() if self.selects() and self.has_selection() else None
        if not viewer or self.viewer_of_caret('key cut') != viewer:
            return False
        text, org, position = self.seen_by(viewer)
        ends = leading.selection(self.oberon, self.store, viewer, text)
        anchor = leading.anchor(text, org, WIDTHS[viewer[0]] - 1, ends, position)
        return anchor is not None and self.cut(viewer, text, org, *sorted((anchor, position)))

    def selects(self):
        """Whether the press before this one selected something last."""
        return self.drew

    def has_selection(self):
        return scrolling.played(self.oberon, self.store, ['key copy'])[0] == 'ok'

    def seen_by(self, viewer):
        """The text of a viewer, where it is shown from, and where the caret stands in it."""
        text, org = scrolling.text_shown(self.oberon, self.store, viewer)
        return text, org, leading.caret_position(self.oberon, self.store, viewer)

    @staticmethod
    def cell(viewer, text, org, position):
        """Where a viewer that shows its text from org on has a character; None where it is out of sight."""
        left, bottom, top, _ = viewer
        row = -1 if position < org else text.count(b'\r', org, position)
        column = leading.column(text, position, org)
        seen = 0 <= row < top - bottom - 1 and column < WIDTHS[left] - 1
        return (left + 1 + column, top - 2 - row) if seen else None

    def drag(self, viewer, text, org, keys, start, end):
        """The line that draws a stretch; None where not both of its ends are in sight."""
        first, last = (self.cell(viewer, text, org, position) for position in (start, end - 1))
        return 'point %s %d %d %d %d' % (keys, *first, *last) if first and last else None

    def select(self, word):
        """The caret goes a step, and what it passes is selected, with what the press before this one selected up to it."""
        viewer = self.viewer_with_rows()
        if not viewer:
            return False
        text, org, position = self.seen_by(viewer)
        goal, ends = leading.stepped(text, WIDTHS[viewer[0]] - 1, position, word), None
        if self.selects() and self.has_selection() and self.viewer_of_caret('key cut') == viewer:
            ends = leading.selection(self.oberon, self.store, viewer, text)
        anchor = leading.anchor(text, org, WIDTHS[viewer[0]] - 1, ends, position) if ends else None
        return self.stretch(viewer, text, org, goal, *sorted((position if anchor is None else anchor, goal)))

    def select_all(self):
        viewer = self.viewer_with_rows()
        if not viewer:
            return False
        text, org, _ = self.seen_by(viewer)
        return self.stretch(viewer, text, org, len(text), 0, len(text))

    def stretch(self, viewer, text, org, goal, start, end):
        """The caret goes to a position where it can stand, and a stretch is drawn, if it has a character without a line end that
        has no column."""
        end = leading.stop(text, org, WIDTHS[viewer[0]] - 1, end)
        first = leading.org_for(text, viewer[2] - viewer[1] - 1, org, goal)
        self.saying = PART_HIDDEN
        if start < end and leading.column(text, goal, first) >= WIDTHS[viewer[0]] - 1:
            return False
        lines = self.way_to(viewer, text, org, goal)
        line = lines and start < end and self.drag(viewer, text, first, 'r', start, end)
        if lines is None or start < end and not line:
            return False
        is_done = self.post_all([*lines, *([line] if line else [])])
        if is_done:
            self.name_press('a selection')
        return is_done

    def cut_line(self):
        """The line of the caret is cut, with its end."""
        viewer = self.viewer_with_rows()
        if not viewer:
            return False
        text, org, position = self.seen_by(viewer)
        start, end = scrolling.line_start(text, position), text.find(b'\r', position) + 1 or len(text)
        self.saying = NO_LINE if start == end else PART_HIDDEN
        return self.cut(viewer, text, org, start, end)

    def cut(self, viewer, text, org, start, end):
        """Whether a stretch was cut, without a line end at its end that has no column, where both ends are in sight."""
        end = leading.stop(text, org, WIDTHS[viewer[0]] - 1, end)
        line = start < end and self.drag(viewer, text, org, 'rl', start, end)
        return bool(line) and self.post(line)

    def delete(self):
        """What is selected up to the caret is deleted, or else the character behind the caret: the caret goes behind it, where it
        can be seen, and a Backspace."""
        if self.cut_selected():
            self.name_press('a Delete')
            return

        def behind(text, width, position):
            return position + 1 if position < len(text) and leading.column(text, position + 1) < width else None

        if self.lead(behind, NOTHING_AFTER) and self.post('key back'):
            self.name_press('a Delete')

    def refill(self):
        """The paragraph of the caret is filled, by one edit after another as far as there are plans; then the caret goes back."""
        viewer, home = self.viewer_with_rows(), None
        if not viewer:
            return False
        plans = iter(range(MOST_PLANS - 1))
        while next(plans, None) is not None:
            text, org, caret = self.seen_by(viewer)
            found = leading.edit(text, WIDTHS[viewer[0]] - 1, caret if home is None else home)
            if not found and home is None:
                self.saying = IS_FILLED
                return True
            if not found:
                return next(plans, None) is None or self.goes_to(viewer, text, org, home)
            home = leading.moved(found, caret if home is None else home)
            for place, line in leading.strokes(found):
                is_done = self.stroke(viewer, place, line, plans)
                if not is_done:
                    return is_done is None
        return True

    def goes_to(self, viewer, text, org, place):
        lines = self.way_to(viewer, text, org, place)
        return lines is not None and self.post_all(lines)

    def stroke(self, viewer, place, line, plans):
        """The caret goes to where an edit is made, and that is done. None where there are no more plans."""
        text, org, caret = self.seen_by(viewer)
        if line != 'type %20':  # (a blank comes where the caret stands)
            if next(plans, None) is None:
                return None
            if caret != place and not self.goes_to(viewer, text, org, place):
                return False
            self.name_press('the paragraph')
        if next(plans, None) is None:
            return None
        if leading.caret_position(self.oberon, self.store, viewer) != place:
            self.saying = PART_HIDDEN
            return False
        is_done = self.post(line)
        self.name_press('the paragraph')
        return is_done

    def lead(self, wish, nothing):
        """Whether the caret goes to the position that is wished, as near as it has a cell."""
        viewer = self.viewer_with_rows()
        if not viewer:
            return False
        text, org, caret = self.seen_by(viewer)
        position = wish(text, WIDTHS[viewer[0]] - 1, caret)
        if position is None:
            self.saying = nothing
            return False
        lines = self.way_to(viewer, text, org, position)
        return lines is not None and self.post_all(lines)

    def way_to(self, viewer, text, org, position):
        """The lines after which the caret stands at a position, as near as it has a cell; None where it is too far, which is
        said."""
        left, bottom, top, _ = viewer
        height, width = top - bottom - 1, WIDTHS[left] - 1
        first = leading.org_for(text, height, org, position)
        pressed = [] if first == org else scrolling.rows_pressed(text, height, org, first) if height > 1 else None
        if pressed is None:
            self.saying = NO_SCROLL
            return None
        x = left + 1 + min(leading.column(text, position), width - 1)
        cells = [(keys, left, top - 2 - row) for keys, row in pressed]
        cells.append(('l', x, top - 2 - text.count(b'\r', first, position)))
        return [f'point {keys} {x} {y} {x} {y}' for keys, x, y in cells]

    def is_text(self, screen, x, y):
        if screen.mark(x, y) != '.':
            return screen.mark(x, y) != 'c'
        viewers = [line.split(' ') for line in self.lines('list') if line.startswith('viewer ')]
        spans = [(int(v[1]), int(v[2]), int(v[3])) for v in viewers]
        return any(left < x < left + WIDTHS[left] and bottom <= y < top - 1 for left, bottom, top in spans)

    def viewer_at(self, x, y):
        """The viewer that is seen at a cell: its leftmost column, its first row, the row after its last and its name."""
        left, found = (0 if x < 50 else 50), None
        for line in self.lines('list'):
            kind, *words = line.split(' ')
            if kind == 'over' and int(words[0]) == left:
                found = None
            if kind == 'viewer' and int(words[0]) == left and int(words[1]) <= y < int(words[2]):
                found = int(words[0]), int(words[1]), int(words[2]), words[3]
        return found

    def middle(self, x, y):
        """The row in the middle of the viewer that is seen at a cell, or else the row of the cell."""
        viewer = self.viewer_at(x, y)
        return sum(viewer[1:3], -1) // 2 if viewer else y
