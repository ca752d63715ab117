"""Sittings over two files of which one fails, and over two that can't be one store."""
import os
import random
import subprocess

from endings import LETTERS, Trial, refusing
from model import ROWS
from sitting import Ended

FLAG = 15_621 * 1024
MARK = FLAG + 1024
# what the line below says where the first file failed, and where the twin did
TOLD = ('The first file failed, the twin has all: mend it, then start again with both.',
        'The twin failed, the first file has all: mend it, then start again with both.')


def read(path):
    with open(path, 'rb') as file:
        return file.read()


def is_alone(path):
    return read(path)[FLAG:FLAG + 1] == b'\1'


def pair(trial):
    """A store and its twin, which are equal."""
    trial.store()
    both = trial.path, f'{trial.folder}/twin.disk'
    trial.leaves(trial.sit(both[0], '--twin', both[1]))
    trial.check(read(both[0]) == read(both[1]), 'they are not equal')
    return both


def failing(trial, call, number):
    """The host refuses a call of one of both files amid typing: the line below says which file it was, until a key is pressed;
    so does the end; the other file says that it is alone, and has all. Returns which file failed."""
    both = pair(trial)
    sitting = trial.sit(both[0], '--twin', both[1], before=refusing(trial, call, number))
    text = ''.join(trial.chance.choice(LETTERS) for _ in range(40))
    for letter in text:
        sitting.press(letter.encode())
        sitting.read(0.02)
    trial.check(sitting.wait(lambda: sitting.terminal.line(ROWS) in TOLD), f'{call}: {sitting.terminal.line(ROWS)!r}')
    gone = int(sitting.terminal.line(ROWS) == TOLD[1])
    sitting.rest(1)
    trial.check(sitting.terminal.line(ROWS) == TOLD[gone], f'{call}: it is told no longer')
    sitting.press(b'x')
    trial.check(sitting.wait(lambda: sitting.terminal.line(ROWS) not in TOLD), f'{call}: it is told still')
    trial.leaves(sitting)
    said = ''.join(''.join(sitting.terminal.lines()).split())
    wanted = f'reading or writing "{both[gone]}" failed, so only "{both[1 - gone]}" has all that was shown'
    trial.check(''.join(wanted.split()) in said, f'{call}: it says {said!r}')  # (a line may end anywhere)
    trial.check([is_alone(it) for it in both] == [gone == 1, gone == 0], f'{call}: another file is alone')
    trial.path = both[1 - gone]
    trial.kept(text + 'x', text + 'x')
    trial.path = both[0]
    trial.leaves(trial.sit(both[0], '--twin', both[1]))
    trial.check(read(both[0]) == read(both[1]), f'{call}: they are not equal again')
    trial.kept(text + 'x', text + 'x')
    for it in both:
        os.remove(it)
    return gone


def one_fails(trial):
    for call in ('pwrite', 'fdatasync'):
        gone = {failing(trial, call, number) for number in (60, 61)}
        trial.check(gone == {0, 1}, f'a {call} of one file was never refused')


def turned_away(trial, status, says, *words):
    """The desk doesn't begin, and says why."""
    sitting = trial.begin(trial.desk, *words, rows=33, columns=80)
    trial.check(sitting.end() == status and sitting.is_put_back, f'{words}: status {sitting.status}')
    said = ''.join(''.join(sitting.terminal.lines()).split())
    trial.check(said.startswith('desk:') and ''.join(says.split()) in said, f'{words}: it says {said!r}')


def no_two(trial):
    """One file under two names, and what can't be a file: nothing is written to the store, and nothing is made."""
    trial.store()
    before, path = read(trial.path), trial.path
    os.symlink('my.disk', f'{trial.folder}/link')
    os.link(path, f'{trial.folder}/name')
    os.mkdir(f'{trial.folder}/room')
    os.symlink('nothing', f'{trial.folder}/away')
    there = sorted(os.listdir(trial.folder))
    for name, status, says in (('my.disk', 2, 'are one file'), ('link', 2, 'are one file'), ('name', 2, 'are one file'),
                               ('room', 4, 'is a folder'), ('none/twin', 4, 'there is no folder')):
        other = f'{trial.folder}/{name}'
        turned_away(trial, status, says, path, '--twin', other)
        turned_away(trial, status, says, other, '--twin', path)
    trial.check(read(path) == before, 'something was written')
    turned_away(trial, 4, 'so nothing was done', path, '--twin', f'{trial.folder}/away')
    trial.check(read(path)[:FLAG] == before, 'something was written to the store')
    trial.check(sorted(os.listdir(trial.folder)) == there, 'something was made')
    trial.leaves(trial.sit(path, '--twin', f'{trial.folder}/fine'))
    trial.check(read(path) == read(f'{trial.folder}/fine'), 'no twin was made after one that got no name')


def no_pair(trial):
    """Two files of different stores, and two that were each used alone: nothing is written to either."""
    both = pair(trial)
    trial.path = f'{trial.folder}/other.disk'
    trial.store()
    kept = [read(it) for it in (*both, trial.path)]
    turned_away(trial, 4, 'are not two files of one store', both[0], '--twin', trial.path)
    turned_away(trial, 4, 'are not two files of one store', trial.path, '--twin', both[1])
    trial.check([read(it) for it in (*both, trial.path)] == kept, 'something was written to files of different stores')
    for it in both:
        trial.leaves(trial.sit(it))
    kept = [read(it) for it in both]
    turned_away(trial, 4, 'were each used without the other', both[0], '--twin', both[1])
    trial.check([read(it) for it in both] == kept, 'something was written to files that were used alone')


def put_back(trial):
    """An older copy is put back over either file: nothing is written. Once something is typed neither file says that it is
    closed, and after the sitting both say so alike; one in which nothing is typed writes to neither."""
    both = pair(trial)
    trial.check(all(read(it)[MARK:MARK + 1] == b'\2' for it in both), 'the files were not closed')
    for number in (0, 1):
        older = read(both[number])
        before = [read(it) for it in both]
        trial.leaves(trial.sit(both[0], '--twin', both[1]))
        trial.check([read(it) for it in both] == before, 'a sitting without a key wrote to a file')
        sitting = trial.sit(both[0], '--twin', both[1])
        sitting.press(b'text')
        trial.check(sitting.look_anew(), 'no scene')
        trial.check(all(read(it)[MARK:MARK + 1] == b'\0' for it in both), 'a file says that it is closed after it was written')
        trial.leaves(sitting)
        newer = read(both[number])
        trial.check(newer[FLAG:] != older[FLAG:], 'two ends have one mark')
        with open(both[number], 'wb') as file:
            file.write(older)
        kept = [read(it) for it in both]
        turned_away(trial, 4, 'an older copy', both[0], '--twin', both[1])
        trial.check([read(it) for it in both] == kept, 'something was written')
        with open(both[number], 'wb') as file:
            file.write(newer)


PAIRS = {'an older copy': put_back, 'one of two files fails': one_fails, 'one file under two names': no_two, 'files of no pair': no_pair}


def run_pairs(desk, oberon):
    """Each of these once. Returns how many failed."""
    failed = 0
    for turn, (name, one) in enumerate(PAIRS.items()):
        trial = Trial(desk, oberon, random.Random(turn))
        try:
            one(trial)
        except (Ended, OSError, subprocess.CalledProcessError) as error:
            trial.wrong.append(repr(error))
        trial.stop()
        if trial.wrong:
            failed += 1
            print(f'{name}: ' + '; '.join(trial.wrong), flush=True)
    print(f'{len(PAIRS)} trials of two files, {failed} differ')
    return failed
