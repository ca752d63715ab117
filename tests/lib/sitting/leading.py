"""Where the caret goes by a key (crates/caret_moves/specs/Steps.antt), in a text that is found out on a copy of the store."""
import re
import urllib.parse

import scrolling

HERE = b'~&^%~'


def caret_position(oberon, store, viewer):
    """Where the caret stands in the text of its viewer."""
    return marked(oberon, store, viewer, [])[1]


def marked(oberon, store, viewer, before):
    """After these events: the text of a viewer, and where the caret stands in it."""
    left, bottom, top, name = viewer
    x, y = left + 1, top - 2
    lines = scrolling.played(oberon, store, [*before, 'type ' + urllib.parse.quote(HERE.decode(), safe='~&^'), f'mark {x} {y}',
                                             f'point l {x} {y} {x} {y}', 'type ' + scrolling.COMMAND, f'point m {x} {y} {x} {y}',
                                             'show ' + name])
    done = 5 + len(before)
    assert lines[:done] == ['ok'] * done, (viewer, lines[:done])
    text = b''.join(urllib.parse.unquote_to_bytes(line.split(' ', 3)[3]) for line in lines[done:lines.index('end', done)])
    text = text.replace(scrolling.COMMAND.encode(), b'', 1)
    return text.replace(HERE, b'', 1), text.index(HERE)


def selection(oberon, store, viewer, text):
    """The ends of the newest selection, which stands in the text of a viewer: a cut of it leaves the caret where it was."""
    rest, start = marked(oberon, store, viewer, ['key cut'])
    return start, start + len(text) - len(rest)


def column(text, position, org=0):
    """The column of a position in its line, of a text that is shown from org on."""
    at = 0
    for byte in text[max(org, scrolling.line_start(text, position)):position]:
        at = at // 4 * 4 + 4 if byte == 9 else at + 1
    return at


def stop(text, org, width, position):
    """Where a stretch up to a position ends: before a line end that has no column, since its line fills the row."""
    before = max(position - 1, 0)
    is_hidden = column(text, before, org if org <= before else 0) >= width
    return before if is_hidden and scrolling.line_start(text, position) == position else position


def anchor(text, org, width, ends, position):
    """The other end of what is selected up to a position, or up to where a stretch up to that stops. None where none is."""
    start, end = ends
    return end if start == position else start if end in (position, stop(text, org, width, position)) else None


def level_with(text, width, position, start):
    """The position in the same column of another line, or in the last one that is shown."""
    wanted = min(column(text, position), width - 1)
    at = start
    while at < len(text) and text[at:at + 1] != b'\r' and column(text, at + 1) <= wanted:
        at += 1
    return at


def stepped(text, width, position, word):
    """Where a key leads."""
    end = text.find(b'\r', position)
    if word == 'word right':
        return re.compile(rb'[^ \t\r]*[ \t\r]*').match(text, position).end()
    if word == 'word left':
        return re.compile(rb'([^ \t\r]*)[ \t\r]*\Z').search(text[:position]).start()
    if word in ('up', 'down'):
        way = scrolling.line_above if word == 'up' else scrolling.line_below
        return level_with(text, width, position, way(text, 1, position))
    return {'first': 0, 'last': len(text), 'left': max(position - 1, 0), 'right': min(position + 1, len(text)), 'home': scrolling.line_start(text, position),
            'end': len(text) if end < 0 else end}[word]


def sought(text, width, position, words, before):
    """Where words are next to the caret, and whether that is round the end; None where they aren't in the text. Where the caret
    stands in the last column and can go no further in its line they are sought behind that."""
    if before:
        end = max(position - len(words), 0)
        at, other = text.rfind(words, 0, end - 1 + len(words)) if end else -1, text.rfind(words)
    else:
        end = text.find(b'\r', position)
        is_at_edge = position < len(text) and text[position] != 13 and column(text, position) < width <= column(text, position + 1)
        at, other = text.find(words, (len(text) if end < 0 else end) if is_at_edge else position), text.find(words)
    return (at if at >= 0 else other if other >= 0 else None), at < 0


def org_for(text, height, org, position):
    """Where the text is shown from, so that the line of a position is in sight."""
    if position < org:
        return scrolling.line_start(text, position)
    if text.count(b'\r', org, position) < height:
        return org
    return scrolling.line_above(text, height - 1, position)


def word_start(text, position):
    """Where the word begins that ends there; where none does, it is there."""
    return re.search(rb'[^ \t\r]*\Z', text[:position]).start()


def position_at(text, org, wanted, row):
    """The position at a cell of a text that is shown from org on."""
    at = org
    for _ in range(row):
        end = text.find(b'\r', at)
        if end < 0:
            return len(text)
        at = end + 1
    while at < len(text) and text[at:at + 1] != b'\r' and column(text, at + 1, org) <= wanted:
        at += 1
    return at


def word_at(text, position):
    """The letters, digits and periods around the character at a position; empty where it is none of these."""
    if not re.match(rb'[A-Za-z0-9.]', text[position:position + 1]):
        return ''
    start = re.search(rb'[A-Za-z0-9.]*\Z', text[:position]).start()
    return re.compile(rb'[A-Za-z0-9.]*').match(text, start).group().decode()


def first_word(line, words):
    """Where the first of these words begins in a line. None where none stands there."""
    return next((it.start() for it in re.finditer(r'[A-Za-z0-9.]+', line) if it.group() in words), None)


# ---- the paragraph of the caret is filled (crates/filled_pastes/specs/Paragraphs.antt)

def is_written(text, position):
    return bool(text[scrolling.line_start(text, position):position].strip(b' \t'))


def word_length(text, position):
    return len(re.compile(rb'[^ \t\r]*').match(text, position).group())


def goes_on(text, end):
    """Whether the line that ends there is within a paragraph."""
    return is_written(text, end) and word_length(text, end + 1) > 0


def edit(text, width, position):
    """The first edit of the paragraph of a position; None where it is filled."""
    start = scrolling.line_start(text, position)
    while start > 0 and goes_on(text, start - 1):
        start = scrolling.line_start(text, start - 1)
    for at in range(start, len(text)):
        before = text[max(at - 1, 0):at]
        if text[at] != 13:
            if before in (b' ', b'\t') and is_written(text, at) and column(text, at) + word_length(text, at) >= width and word_length(text, at):
                seen = next(it for it in range(at, -1, -1) if column(text, it) < width)
                if column(text, at, seen) < width:
                    return ('ends', at) if seen == at else ('tears', seen, at)
        elif not goes_on(text, at):
            return None
        else:
            has_blank = before in (b' ', b'\t')
            if column(text, at) + (not has_blank) + word_length(text, at + 1) < width:
                return ('joins' if has_blank else 'blanks', at)
    return None


def moved(found, place):
    """Where the caret belongs then."""
    kind, at = found[0], found[-1]
    if kind in ('ends', 'tears'):
        return place + 1 if at <= place else place
    return place - 1 if kind == 'joins' and at < place else place


def strokes(found):
    """To which positions the caret goes for an edit, and what is done there."""
    kind, at = found[0], found[-1]
    if kind == 'ends':
        return [(at, 'type %0d')]
    if kind == 'tears':
        return [(found[1], 'type %0d'), (at + 1, 'type %0d'), (found[1] + 1, 'key back')]
    return [(at + 1, 'key back'), (at, 'type %20')][:1 if kind == 'joins' else 2]
