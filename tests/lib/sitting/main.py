"""Sittings at a pseudo terminal. `tests/random/sittings` says what is tried."""
import filecmp
import functools
import itertools
import multiprocessing
import os
import random
import shutil
import signal
import subprocess
import sys
import tempfile

import endings
import pairs
from model import COLUMNS, ROWS, Model
from presses import FILES, press, spelled
from scrolling import copied
from sitting import MODES, Ended, Sitting, TooSlow

PRESSES = 300
AT_A_TIME = 2
WINDOWS = [(33, 80), (20, 60), (24, 80), (40, 100), (12, 45), (33, 80), (24, 79), (60, 200), (12, 81), (40, 50)]


def beginning(tool):
    """The events that lead to the tool text and a document in viewers."""
    return ['file System.Tool ' + spelled(tool.replace('\n', '\r')), 'point m 60 31 60 31', 'point m 52 30 52 30',
            'point l 1 30 1 30']


def begin(oberon, path, tool):
    """A store with these events."""
    subprocess.run([oberon, 'format', path], check=True, stdout=subprocess.DEVNULL)
    lines = '\n'.join(beginning(tool)).encode()
    subprocess.run([oberon, 'play', path], input=lines, check=True, stdout=subprocess.DEVNULL)


def sizes(chance):
    """How many bytes come at one time."""
    while True:
        yield chance.choice([1, 1, 2, 3, 5, 8, 40, 300])


def press_anyhow(sitting, model, presses, chance):
    """Presses that come in pieces cut anywhere. Where the whole display is in sight it makes no difference what is
    heard at one time."""
    pieces = sizes(chance)
    for data, meanings in presses:
        sitting.press_in_pieces(data, pieces)
        for meaning in meanings:
            model.take(meaning)
            if meaning[0] == 'file':
                sitting.hear_long(b'')


def hearings(presses, chance):
    """The presses in runs that are heard at one time, each of 63 bytes at most. A longer press is alone, and so is news of
    the window's size, which the terminal has at once. After a file of the host's, which is heard before the terminal,
    another run begins."""
    run, most = [], 1
    for one in presses:
        if run and (len(run) == most or sum(len(data) for data, _ in [*run, one]) > 63 or is_file(run[-1])
                    or has('fit', run[-1]) or has('fit', one)):
            yield run
            run, most = [], chance.choice([1, 1, 2, 3, 5, 8])
        run.append(one)
    yield run


def has(kind, press_and_meanings):
    return any(meaning[0] == kind for meaning in press_and_meanings[1])


def is_file(press_and_meanings):
    return has('file', press_and_meanings)


def press_by_hearings(sitting, model, presses, chance):
    """Presses of which it is known what is heard at one time: only then do the rows in sight follow the caret."""
    sitting.answers = False
    for run in hearings(presses, chance):
        if has('fit', run[0]):
            sitting.hear_long(b'')  # (a bell may have come before the last scene)
            sitting.rest(0.1)
        for one in run:
            take(sitting, model, *one)
        data = b''.join(data for data, _ in run)
        if len(data) < 64 and not is_heard_apart(data):  # (else another scene may ring before the last one)
            heard = sitting.hear(data)
            model.take(('ring',))
        else:
            heard = sitting.hear_long(data)
        if not heard:
            return
        if is_file(run[-1]) and not sitting.hear_long(b''):
            return
        model.look()


def take(sitting, model, data, meanings):
    """What one press comes to. What is heard at one time goes no further than to the end of a line, a TAB, or a key by which one
    may leave the past, so behind each of these the screen is shown: within a press, where it says so or else before all of it is
    meant, and behind it."""
    if has_line_end(data[:-1]) and ('look',) not in meanings:
        model.look()
    for meaning in meanings:
        model.take(meaning)
        if meaning[0] == 'fit':
            sitting.terminal.resize(*meaning[1:])
    if has_line_end(data[-1:]):
        model.look()


def has_line_end(data):
    """Whether something ends in it with which a hearing ends."""
    return any(end in data for end in (b'\r', b'\n', b'\t'))


def is_heard_apart(data):
    """Whether it may be heard at several times: with an end of a line in it, a letter by which one may leave the past, or Escape."""
    return has_line_end(data) or b'q' in data or b'\x1b\x00' in data


def characters(cells, rows):
    """What the first 80 columns of rows show, without spaces at their ends."""
    return [''.join(character for character, _ in row[:80]).rstrip() for row in cells[:rows]]


def has_store(path, other):
    """Whether the first file has the sectors of the store in the second one, behind which a file with a twin has its flag."""
    with open(path, 'rb') as file, open(other, 'rb') as wanted:
        bytes_wanted = wanted.read()
        return file.read(len(bytes_wanted)) == bytes_wanted


def sit(seed, desk, oberon, folder, tool, twins):
    """One sitting, over two files where so asked. Returns what is wrong, in words."""
    chance = random.Random(seed)
    rows, columns = WINDOWS[seed % len(WINDOWS)]
    theirs, ours = f'{folder}/theirs', f'{folder}/ours'
    begin(oberon, theirs, tool)
    copied(theirs, ours)
    for name, data in FILES.items():
        with open(f'{folder}/{name}', 'wb') as file:
            file.write(data)
    os.mkfifo(f'{folder}/pipe')
    twin = f'{folder}/twin'
    words = [desk, '--no-questions', '--no-past', theirs] + ['--twin', twin] * twins
    sitting, model = Sitting(words, rows, columns, folder), Model(oberon, ours, rows, columns)
    try:
        wrong = sat(sitting, model, rows > ROWS and columns >= COLUMNS, rows, chance)
    finally:
        sitting.stop()
    if model.end() != 0 or not has_store(theirs, ours) or not twins and not filecmp.cmp(theirs, ours, shallow=False):
        wrong.append('another store')
    if twins and not (os.path.exists(twin) and filecmp.cmp(theirs, twin, shallow=False)):
        wrong.append('the twin is another one')
    return wrong


def sat(sitting, model, is_whole, rows, chance):
    """From the first scene until the person has left."""
    terminal, wrong = sitting.terminal, []
    if not sitting.wait(lambda: terminal.scenes > 0):
        return ['no scene came']
    if not MODES <= terminal.modes:
        wrong.append('the terminal was not set')
    presses = [press(chance, rows, is_whole) for _ in range(PRESSES)]
    (press_anyhow if is_whole else press_by_hearings)(sitting, model, presses, chance)
    wanted = model.in_sight()
    sitting.wait(lambda: characters(terminal.cells, model.rows) == wanted, 120)
    sitting.rest(0.3)
    if not sitting.look_anew():
        wrong.append('no scene came after the last press')
    wrong += compared(terminal, model, wanted)
    sitting.press(chance.choice([b'\x11', b'\x1b[21~']))
    if sitting.end() != 0:
        wrong.append(f'status {sitting.status}')
    if not sitting.is_put_back:
        wrong.append('the terminal was not put back')
    if terminal.mistakes:
        wrong.append(f'unknown to the terminal: {terminal.mistakes[:3]}')
    return wrong


def compared(terminal, model, wanted):
    """What the terminal shows and the rows that are wanted, in words where they differ."""
    wrong = []
    before, after = ([row[:80] for row in cells[:model.rows]] for cells in (terminal.before, terminal.cells))
    painted = characters(before, model.rows)
    if painted != wanted:
        wrong.append('another screen: ' + repr([(g, w) for g, w in zip(painted, wanted) if g != w][:3]))
    if before != after:
        wrong.append('the screen that is painted anew is another one')
    if not model.is_below(terminal.line(model.rows)):
        wrong.append(f'the line below is {terminal.line(model.rows)!r} and not {model.line()!r}')
    caret = model.screen().caret()
    place = caret and (caret[0] - model.left(), model.top - caret[1])
    if place and not (0 <= place[0] < model.columns() and 0 <= place[1] < model.rows):
        place = None
    if (place is not None) != (25 in terminal.modes):
        wrong.append('the cursor is %s' % ('hidden' if place else 'to be seen'))
    if place and place != (terminal.column, terminal.row):
        wrong.append(f'the cursor is at {terminal.column, terminal.row} and not at {place}')
    return wrong


def tried(seed, desk, oberon, tool, twins):
    """The same, once more where the machine had no time for it."""
    for turn in itertools.count():
        folder = tempfile.mkdtemp()
        try:
            wrong = sit(seed, desk, oberon, folder, tool, twins)
        except TooSlow:
            if turn == 5:
                return ['the machine is too slow for it']
            continue
        except Ended:
            wrong = ['the program ended by itself']
        finally:
            shutil.rmtree(folder)
        return wrong
    return []


def random_sittings(desk, oberon, tool_path, runs, first, twins):
    """As many sittings, some at a time, over two files where so asked. Returns how many differ."""
    with open(tool_path, encoding='ascii') as text:
        tool = text.read()
    faults, seeds = 0, range(first, first + runs)
    with multiprocessing.get_context('fork').Pool(AT_A_TIME) as pool:
        one = functools.partial(tried, desk=desk, oberon=oberon, tool=tool, twins=twins)
        for seed, wrong in zip(seeds, pool.imap(one, seeds)):
            if wrong:
                faults += 1
                print(f'sitting {seed}: ' + '; '.join(wrong), flush=True)
    print(f'{runs} sittings, {faults} differ')
    return faults


def main():
    what, desk, oberon, tool_path, runs, first = sys.argv[1:7]
    signal.signal(signal.SIGHUP, signal.SIG_IGN)
    if what == 'ends':
        sys.exit(endings.run_all(desk, oberon, int(runs)) != 0)
    faults = random_sittings(desk, oberon, tool_path, int(runs), int(first), what == 'twins')
    if what == 'twins':
        faults += endings.kill_all(desk, oberon, int(runs), int(first)) + pairs.run_pairs(desk, oberon)
    sys.exit(faults != 0)


if __name__ == '__main__':
    main()
