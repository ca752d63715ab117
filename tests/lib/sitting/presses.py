"""Random presses: the bytes that a terminal sends for them, and what they mean.

A meaning is a tuple: ('type', text), ('call', word), ('replace',), ('fill',), ('paste', texts), ('key', word), ('mark', column, row), ('point', keys, column, row, column, row),
('extend', column, row, column, row), ('arrow', word), ('search', before), ('called off',), ('look',), ('select', word), ('select all',), ('cut line',), ('delete',), ('line', number), ('page', word), ('wheel', word, column, row), ('text page', word), ('text end', word), ('pointer', column, row),
('fit', rows, columns), ('file', name), ('keyed', steps), ('at caret', keys), ('ring',) or ('ring at a name',). Columns and rows are those of the terminal, from 1 at the
upper left."""

COLUMNS = 80
PRINTED = [chr(code) for code in range(32, 127)]
GESTURES = ['l', 'm', 'r', 'lm', 'lr', 'ml', 'mr', 'rl', 'rm']
NUMBERS = {'l': 0, 'm': 1, 'r': 2}
ARROWS = {'up': [b'[A', b'OA'], 'down': [b'[B', b'OB'], 'right': [b'[C', b'OC'], 'left': [b'[D', b'OD'],
          'home': [b'[H', b'OH', b'[1~', b'[7~'], 'end': [b'[F', b'OF', b'[4~', b'[8~'],
          'word right': [b'[1;5C'], 'word left': [b'[1;5D']}
SHIFTED = {word: b'\x1b[1;2' + letter for word, letter in (('up', b'A'), ('down', b'B'), ('right', b'C'), ('left', b'D'), ('home', b'H'),
                                                          ('end', b'F'))}
# What a byte below the space is, where it is a key.
CONTROLS = {3: ('key', 'copy'), 10: ('type', '\r'), 18: ('replace',), 19: ('call', 'Edit.Store'),
            22: ('key', 'paste'), 23: ('fill',), 24: ('key', 'cut')}
# The clicks that a function key says, by its spellings.
FUNCTIONS = {'m': [b'\x1bOQ', b'\x1b[Q', b'\x1b[12~', b'\x1b[[B', b'\x1b2'], 'r': [b'\x1bOR', b'\x1b[13~', b'\x1b[[C', b'\x1b3'],
             'lm': [b'\x1bOS', b'\x1b[14~', b'\x1b[[D'], 'lr': [b'\x1b[15~', b'\x1b[[E'], 'rl': [b'\x1b[17~', b'\x1b6'],
             'rm': [b'\x1b[18~']}
MARK = [b'\x1bOP', b'\x1b[P', b'\x1b[11~', b'\x1b[[A', b'\x1b1']
# What means nothing: a wheel that goes up or to the side, a motion, keys and answers that are not told apart, a byte
# amid a letter of another script, a mouse report of the older form, and Alt with a letter.
NOTHING = [b'\x1b[<64;3;4m', b'\x1b[<66;3;4M', b'\x1b[<35;3;4M', b'\x1b[1;5E', b'\x1b[?1;2c', b'\x1b[I', b'\x1b[2~',
           b'\x1b[27u', b'\x80', b'\x1b[M !!', b'\x1bOz', b'\x1b[1;2;3;4;5;6;7z',
           b'\x1bx', b'\x1b.']
# What rings: keys that mean nothing here, one of them after a function key that is called off, and letters of other
# scripts.
RINGING = [b'\x1bOQ\x1b\x00', b'\x1b1\x1b\x00', b'\x04', b'\x00', '\u00e4'.encode(), '\u2014'.encode(), b'\xff']


# An escape byte, and one that shows that it was the key: the screen is shown before that means anything, and behind it.
CALLED_OFF = [('look',), ('called off',), ('look',), ('ring',)]


# The files of the host that are brought in, and names of what is none: that isn't there, a folder, a pipe.
FILES = {'note.txt': b'a short note\n', 'long.txt': b'a line of a long file\r\n' * 100, 'odd': bytes(range(256)) * 2,
         'empty': b''}
NO_FILES = ['none.txt', '.', 'pipe']
# How far their names are typed before Tab, so that no other name beside them begins so.
BEGUN = {'note.txt': ['note', 'note.t'], 'long.txt': ['lo', 'long.'], 'odd': ['od'], 'empty': ['em', 'empt']}


def report(key, column, row, is_down, flags=0):
    return b'\x1b[<%d;%d;%d%s' % (NUMBERS[key] + flags, column, row, b'M' if is_down else b'm')


def drag(random, keys, start, end, flags=0, held=0):
    """The buttons go down one after another, the first at the start, and up in any order, the last at the end, where keys may be
    held."""
    middle = random.choice([start, end])
    data = report(keys[0], *start, True, flags)
    for key in keys[1:]:
        data += report(key, *middle, True)
    order = random.sample(keys, len(keys))
    for key in order[:-1]:
        data += report(key, *middle, False)
    return data + report(order[-1], *end, False, held)


def cell(random, rows):
    """A place in the window, mostly where there is something to be found."""
    if random.random() < 0.5:
        return (random.choice([1, 2, 3, 4, 11, 21, 47, 51, 52, 53, 54, 61]), random.randrange(1, min(rows, 22) + 1))
    return (random.randrange(1, 84), random.randrange(1, rows + 2))


def spelled(text):
    """A text as a line of a script spells it."""
    return ''.join(c if ' ' <= c <= '~' and c != '%' else '%%%02x' % ord(c) for c in text)


def pasted(text):
    """What the events of a paste type."""
    text = text.replace('\r\n', '\r').replace('\n', '\r')
    text = ''.join(c if c in '\t\r' or ' ' <= c <= '~' else '?' for c in text)
    return [text[at:at + 900] for at in range(0, len(text), 900)]


def paste(random, is_long):
    """A paste, with ends of lines of three kinds and characters that can't be typed."""
    pieces = random.choices(['x', '\r', '\n', '\r\n', '\u00e4', '\u2014', 'hello ', '\t', '%', '\x08', '\x01', ' '],
                            k=random.randrange(0, 400))
    text = ''.join(pieces)[:899]
    if is_long:
        text = ('a line of a long text\r' * 90)[:random.choice([899, 900, 901, 1800, 1801])]
    return b'\x1b[200~' + text.encode() + b'\x1b[201~', [('paste', pasted(text), marks_of(text.encode()))]


def marks_of(data):
    """How many characters of a paste, or of a file, become question marks."""
    return sum(not (byte in b'\t\n\r' or 32 <= byte < 127 or 128 <= byte < 192) for byte in data)


def told(data):
    """What the events of a file of the host's type: where a character has several bytes the first one stands for it."""
    return pasted(''.join(chr(byte) if byte < 128 else '?' for byte in data if not 128 <= byte < 192))


def brought(random):
    """A file of the host's is asked for, by a name that is typed or pasted."""
    name = random.choice([*FILES, *NO_FILES])
    pasted_name = f'\x1b[200~{name}\r\x11\x1b[201~'
    begun = [part + '\t' for part in BEGUN.get(name, [])]
    typed = random.choice([name, 'x\x7f' + name, name + 'xy\b\b', pasted_name, *begun])
    rings = [('ring at a name',)] if typed == pasted_name else []
    return random.choice([b'\x0f', b'\x1b[19~']) + typed.encode() + random.choice([b'\r', b'\n']), [*rings, ('file', name)]


def called_off(random):
    """A name of a host file is asked for, and nothing comes of it."""
    name, rings = random.choice([(b'', 0), (b'n', 0), (b'a name.txt', 0), (b'x\x7f\x7f', 1), (b'\xff\x18', 1), (b'\x1b[A', 1),
                                 (b'\x1b[<0;3;4M\x1b[<0;3;4m', 0), (b'\x1b[200~x\n\x1b[201~', 1)])
    return random.choice([b'\x0f', b'\x1b[19~']) + name + b'\x1b\x00', [('ring at a name',)] * rings + [('look',), ('ring',)]


def line_asked(random):
    """A line is asked for, by a number that is typed or pasted; what is no digit rings."""
    number = random.choice([0, 1, 1, 2, 3, 5, 8, 13, 21, 40, 99, 100, 10 ** 11])
    typed, rings = random.choice([(b'%d', 0), (b'%dx', 1), (b'\x1b[A%d', 1), (b'%d7\x7f', 0), (b'\x1b[200~%d\n\x1b[201~', 1)])
    return b'\x07' + typed % number + b'\r', [('ring at a name',)] * rings + [('line', number)]


def press(random, rows, is_whole):
    """One press, or a few that belong together, in a window of so many rows. Where the whole display is in sight a
    paste may be of several events, and elsewhere the window may get another size."""
    kind = random.randrange(32)
    if kind < 6:
        character = random.choice(PRINTED + ['\r', '\t', 'e', 'a', ' '])
        return character.encode(), typed(character)
    if kind < 8:
        return random.choice([b'\x7f', b'\x08']), [('key', 'back')]
    if kind == 8:
        code, meaning = random.choice(list(CONTROLS.items()))
        return bytes([code]), [meaning]
    if kind == 9:
        return paste(random, is_whole and random.random() < 0.2)
    if kind == 10:
        return random.choice([(random.choice(NOTHING), []), rung(random.choice(RINGING))])
    if kind == 11:
        return arrow(random)
    if kind == 12 or kind == 13 and not is_whole:
        return random.choice([(b'\x1b[5;3~', [('page', 'up')]), (b'\x1b[6;3~', [('page', 'down')]),
                              (b'\x1b[1;3D', [('page', 'left')]), (b'\x1b[1;3C', [('page', 'right')])])
    if kind == 29:
        return asked_for(random) if random.random() < 0.5 else sought(random, rows)
    if kind == 30:
        return stretched(random)
    if kind == 26:
        return b'\x1b[3~', [('delete',)]
    if kind == 31:
        return extended(random, rows)
    if kind == 27:
        return random.choice([line_asked(random), *[arrow(random)] * 2])
    if kind == 14:
        letter = random.choice('abxyZ.')
        return b'\x1b' + letter.encode(), []
    if kind == 15:
        return random.choice([called_off, brought])(random)
    if kind == 16 and not is_whole:
        height = random.choice([2, 5, 12, 13, 24, 32, 33, 34, 44])
        width = random.choice([30, 45, 49, 50, 51, 60, 79, 80, 81, 200])
        told = (height, width) if random.random() < 0.7 or width < 45 or height >= 45 else (width, height)
        return b'\x1b[%d;%d;%dt' % (random.choice([8, 48]), *told), [('fit', height, width)]
    if kind == 19:
        text = ''.join(random.choices(['word ', 'a ', 'longer ', 'sentence. ', 'end,  ', 'x', '\t'], k=random.randrange(20)))
        text = text if is_whole else text[:63]  # (more isn't heard at one time, and the screen is shown between)
        return text.encode(), [meaning for character in text for meaning in typed(character)]
    if kind in (17, 18):
        return scroll(random, rows)
    if kind == 28:
        return random.choice([(b'\x05', [('at caret', 'm')]), (b'\x14', [('at caret', 'mark')]), (b'\x0b', [('cut line',)]),
                              *[(b'\x15', [('refill',)])] * 2])
    if kind == 20 and is_whole:
        return keyed(random)
    data, meanings = mouse(random, rows, is_whole)
    _, column, row = data.rstrip(b'm').rsplit(b';', 2)
    return data, meanings + [('pointer', int(column), int(row))]


def rung(data):
    """What rings. Behind Escape the screen is shown."""
    return data, [('look',)] * (b'\x1b\x00' in data) + [('ring',)]


def typed(character):
    """What a character means. Behind a TAB and a q the screen is shown."""
    return [('type', character)] + [('look',)] * (character in '\tq')


def sought(random, rows):
    """A letter or a few are selected, sought from the first line in sight on, and replaced; then they are sought again, and
    Ctrl-R replaces them. Now and then something is left out, or comes between."""
    row = random.randrange(2, min(rows, 5))
    column = random.randrange(2, 12)
    end = column + random.randrange(0, 2)
    count, word = end - column + 1, random.choice(['', 'q', 'Zz', ' ', '.'])
    data, meanings = b'', []
    for piece, found in ((drag(random, 'l', (2, 2), (2, 2)), [('point', 'l', 2, 2, 2, 2), ('pointer', 2, 2)]),
                         (drag(random, 'r', (column, row), (end, row)), [('point', 'r', column, row, end, row), ('pointer', end, row)]),
                         (b'\x06', [('search', False)]),
                         (b'\x7f' * count + word.encode(), [('key', 'back')] * count + [it for letter in word for it in typed(letter)]),
                         (b'\x06\x06', [('search', False)] * 2), (b'\x12', [('replace',)]), (b'\x06', [('search', False)]),
                         (b'\x1b[D', [('arrow', 'left')]), (b'\x12', [('replace',)])):
        if random.random() < (0.3 if piece == b'\x1b[D' else 0.9) and len(data + piece) < 58:
            data, meanings = data + piece, meanings + found
    return data + b'\x1b\x00', meanings + CALLED_OFF


def extended(random, rows):
    """Something of a text is mostly selected, by a draw or by two clicks, and then extended once or twice by the right button with
    Shift, with Alt or with both, or by the left one with Ctrl."""
    data, meanings = b'', []
    place = random.choice([2, 3, 7, 12, 52, 55, 60]), random.randrange(2, min(rows, 9))
    kind = random.randrange(4)
    if kind == 0:
        end = place[0] + random.randrange(0, 9), place[1] + random.choice([0, 0, 1])
        data, meanings = drag(random, 'r', place, end), [('point', 'r', *place, *end), ('pointer', *end)]
    elif kind < 3:
        data, meanings = drag(random, 'l', place, place) * kind, [('point', 'l', *place, *place), ('pointer', *place)] * kind
    for _ in range(random.choice([1, 1, 2])):
        start = max(place[0] + random.randrange(-6, 14), 1), max(place[1] + random.choice([-1, 0, 0, 0, 1, 2]), 1)
        end = start if random.random() < 0.7 else (start[0] + 3, start[1] + random.choice([0, 1]))
        if random.random() < 0.1:
            start, end = cell(random, rows), cell(random, rows)
        keys, flags = random.choice([('r', 0), ('r', 4), ('r', 8), ('l', 16)])
        piece = drag(random, keys, start, end, flags, flags | random.choice([4, 8, 12]))
        if len(data + piece) < 64:  # (what is heard at one time)
            data, meanings = data + piece, [*meanings, ('extend', *start, *end), ('pointer', *end)]
    return data, meanings


def ended(end, keys):
    """What ends the words that are asked for: a key that seeks them, or Return, behind which the screen is shown."""
    return [('search', keys[end])] if end in keys else [('type', '\r'), ('look',)]


def asked_for(random):
    """Words are asked for and typed, and sought onward or backward; then they are sought again. Where something is selected the
    words are typed into the text."""
    words = random.choice(['e', 'a', 'Edit', 'System.', 'o', 'the', 'x', ' ', '3', 'e ', 'nowhere at all in any of the texts'])
    keys = {b'\x06': False, b'\x02': True, b'\x1bf': True}
    begin = random.choice(list(keys))
    data, meanings = begin, [('search', keys[begin])]
    for letter in words:
        data, meanings = data + letter.encode(), [*meanings, ('type', letter)]
    if random.random() < 0.2:
        data, meanings = data + b'z\x7f', [*meanings, ('type', 'z'), ('key', 'back')]
    end = random.choice([b'\r', b'\r', *keys])
    data, meanings = data + end, meanings + ended(end, keys)
    for _ in range(random.randrange(3)):
        first, last = random.choice(list(keys)), random.choice([b'\r', *keys])
        data, meanings = data + first + last, [*meanings, ('search', keys[first]), *ended(last, keys)]
    return data + b'\x1b\x00', meanings + CALLED_OFF


def stretched(random):
    """Some of a text is selected by keys, or all of it, and mostly what is selected up to the caret goes then, or something comes in
    its place."""
    data, meanings = b'', []
    if random.random() < 0.2:
        data, meanings = b'\x01', [('select all',)]
    word = random.choice([*SHIFTED])
    for _ in range(random.randrange(0 if data else 1, 5)):
        word = word if random.random() < 0.7 else random.choice([*SHIFTED])
        data, meanings = data + SHIFTED[word], [*meanings, ('select', word)]
    more, meaning = random.choice([(b'\x7f', ('key', 'back')), (b'\x1b[3~', ('delete',)), (b'q', ('type', 'q')), (b' ', ('type', ' ')), (b'', None)])
    return data + more, meanings + [meaning] * bool(more) + [('look',)] * (more == b'q')


def keyed(random):
    """Clicks of a pointer that keys move: it is shown, and put away again. A step is ('move', across, up), in cells, or the
    columns themselves for the ends of a row; ('tab',), to the next command; or ('click', keys), from where it begins by ('begin',), unless
    that is called off by ('off',), or at one cell. After a click that calls a word, where a viewer may have opened, Escape
    comes, ('escape',)."""
    data, steps = random.choice([b'\x1b[23~', b'\x1b ']), []
    for _ in range(random.randrange(1, 4)):
        data += moves(random, steps)
        keys = random.choice(['l', 'mark', *FUNCTIONS])
        if keys == 'l' and random.random() < 0.5:
            data += b'\r'
        else:
            spellings = MARK if keys == 'mark' else FUNCTIONS.get(keys, [b'\x1b[24~'])
            steps.append(('begin',))
            data += random.choice(spellings) + moves(random, steps)
            if random.random() < 0.2:
                data += b'\x1b\x1b[D'  # (with a Tab behind it the escape byte would be another key)
                steps += [('off',), ('move', -1, 0)]
                continue
            data += random.choice([b'\r', random.choice(spellings)])
        steps.append(('click', keys))
        if keys == 'm':
            return data + b'\x1b\x00', [('keyed', [*steps, ('escape',)]), ('ring',)]
    return data + random.choice([b'\x1b[23~', b'\x1b ']), [('keyed', steps)]


def moves(random, steps):
    """Some arrows, alone, with Shift and with Ctrl."""
    ways = {'A': (0, 1), 'B': (0, -1), 'C': (1, 0), 'D': (-1, 0)}
    data = b''
    for _ in range(random.randrange(0, 12)):
        letter = random.choice('ABCDABCDHFT')
        if letter == 'T':
            data += b'\t'
            steps.append(('tab',))
            continue
        if letter in 'HF':
            data += b'\x1b[' + random.choice([b'', b'1;2']) + letter.encode()
            steps.append(('move', -COLUMNS if letter == 'H' else COLUMNS, 0))
            continue
        far = random.random() < 0.4
        held = random.choice([b'1;2', b'1;5']) if far and letter in 'CD' else b'1;2' if far else b''
        data += b'\x1b[' + held + letter.encode()
        steps.append(('move', *((8 if far else 1) * way for way in ways[letter])))
    return data


def arrow(random):
    word = random.choice(list(ARROWS))
    return b'\x1b' + random.choice(ARROWS[word]), [('arrow', word)]


def scroll(random, rows):
    """The wheel, or a key that moves a text."""
    if random.random() < 0.5:
        place, flags = cell(random, rows), random.choice([0, 0, 4, 8, 16])
        number, word = random.choice([(64, 'up'), (65, 'down'), (65, 'down')])
        return b'\x1b[<%d;%d;%dM' % (number + flags, *place), [('wheel', word, *place)]
    return random.choice([(b'\x1b[5~', [('text page', 'up')]), (b'\x1b[6~', [('text page', 'down')]),
                          (b'\x1b[1;5H', [('text end', 'first')]), (b'\x1b[1;5F', [('text end', 'last')])])


def mouse(random, rows, is_whole):
    """A gesture of the mouse. After a function key it begins within the display, for elsewhere the key stays in force."""
    kind = random.randrange(10)
    start, end = cell(random, rows), cell(random, rows)
    if kind in (2, 3):
        start = (min(start[0], 80 if is_whole else 30), min(start[1], 32) if is_whole else 1)
    if kind < 2:
        place = (random.choice([2, 3, 5, 52, 55]), random.randrange(2, min(rows, 12)))
        times = random.choice([1, 1, 2, 2, 3])
        return drag(random, 'l', place, place) * times, [('point', 'l', *place, *place)] * times
    if kind == 2:
        return random.choice(MARK) + drag(random, 'l', start, end), [('mark', *start)]
    if kind == 3:
        keys = random.choice(list(FUNCTIONS))
        return random.choice(FUNCTIONS[keys]) + drag(random, 'l', start, end), [('point', keys, *start, *end)]
    if kind == 4:
        flags, keys = random.choice([(8, 'm'), (16, 'r')])
        return drag(random, 'l', start, end, flags), [('point', keys, *start, *end)]
    if kind == 5:
        return drag(random, random.sample('lmr', 3), start, end), []
    keys = random.choice(GESTURES)
    return drag(random, keys, start, end), [('point', keys, *start, *end)]
