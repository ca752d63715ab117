"""Which presses in a viewer's scroll bar lead to a line (crates/desk_input/specs/Lines.antt and Scrolling.antt). What a viewer
shows is found out on a copy of the store: there `Edit.Store` is typed into the text and called."""
import os
import subprocess
import urllib.parse

COMMAND = 'Edit.Store ~@!#~'
CARRIAGE_RETURN = b'\r'
MOST_PRESSES = 100
BLOCK = 4096  # bytes


def copied(store, copy):
    """Copies a store, but for its blocks of zeros: these are holes of the copy, and take no time when that is copied."""
    with open(store, 'rb') as source, open(copy, 'wb') as target:
        size, at = os.fstat(source.fileno()).st_size, 0
        target.truncate(size)
        while at < size:
            try:
                at = os.lseek(source.fileno(), at, os.SEEK_DATA)
            except OSError:  # (a hole is all that is left)
                return
            end = os.lseek(source.fileno(), at, os.SEEK_HOLE)
            for place in range(at, end, BLOCK):
                data = os.pread(source.fileno(), min(BLOCK, end - place), place)
                if data.strip(b'\0'):
                    os.pwrite(target.fileno(), data, place)
            at = end


def played(oberon, store, lines):
    """The answers of a script that is played on a copy of the store."""
    copy = store + '.copy'
    copied(store, copy)
    try:
        run = subprocess.run([oberon, 'play', copy], input='\n'.join(lines).encode(), check=True, capture_output=True)
    finally:
        os.remove(copy)
    return run.stdout.decode().split('\n')


def text_shown(oberon, store, viewer):
    """The bytes of a viewer's text, and where the first line in sight begins."""
    left, bottom, top, name = viewer
    x, y = left + 1, top - 2
    lines = played(oberon, store, [f'mark {x} {y}', f'point l {x} {y} {x} {y}', 'type ' + COMMAND,
                                   f'point m {x} {y} {x} {y}', 'show ' + name])
    assert lines[:4] == ['ok'] * 4, (viewer, lines[:4])
    text = b''.join(urllib.parse.unquote_to_bytes(line.split(' ', 3)[3]) for line in lines[4:lines.index('end', 4)])
    org = text.index(COMMAND.encode())
    return text[:org] + text[org + len(COMMAND):], org


def line_start(text, position):
    return text.rfind(CARRIAGE_RETURN, 0, position) + 1


def line_above(text, count, position):
    for _ in range(count):
        position = max(line_start(text, position) - 1, 0)
    return line_start(text, position)


def line_below(text, count, position):
    for _ in range(min(count, text.count(CARRIAGE_RETURN) + 1)):
        end = text.find(CARRIAGE_RETURN, position)
        position = line_start(text, len(text) if end < 0 else end + 1)
    return line_start(text, position)


def wished(text, height, org, wish):
    """Where the line begins that is wished."""
    if wish == 'first':
        return 0
    if wish[0] == 'number':
        return line_below(text, wish[1], 0)
    if wish == 'last':
        return line_above(text, height - 1, len(text))
    word, way, *count = wish
    count = count[0] if count else {'wheel': 3, 'line': 1}.get(word, height - 1)
    return (line_above if way == 'up' else line_below)(text, count, org)


def rows_pressed(text, height, org, target):
    """The keys and the rows of the frame at which they are pressed; None where it is too far."""
    pressed, start = [], org
    if not (org <= target and text.count(CARRIAGE_RETURN, org, target) < height):
        starts = [line_start(text, len(text) * row // height) for row in range(height)]
        row = max((row for row in range(1, height) if starts[row] <= target), default=0)
        pressed, start = [('m', row)], starts[row]
    pages, rest = divmod(text.count(CARRIAGE_RETURN, start, target), height - 1)
    if pages > MOST_PRESSES:
        return None
    return pressed + [('l', height - 1)] * pages + [('l', rest)] * (rest != 0)


def presses(oberon, store, viewer, wish):
    """The lines of a script that scroll a viewer, a tuple of its leftmost column, the first row, the row after the last
    and its name. None where none do."""
    left, bottom, top, _ = viewer
    height = top - bottom - 1
    if height < 2:
        return None
    text, org = text_shown(oberon, store, viewer)
    rows = rows_pressed(text, height, org, wished(text, height, org, wish))
    if rows is None:
        return None
    return [f'point {keys} {left} {top - 2 - row} {left} {top - 2 - row}' for keys, row in rows]
