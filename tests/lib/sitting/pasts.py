"""Random sittings at a desk that keeps its past, with Ctrl-Z and Ctrl-Y, imports, and kills amid them: the reader that was made
from docs/PAST.md alone finds the screen that was shown at each moment."""
import os
import random
import signal
import subprocess
import sys

from endings import LETTERS, Trial
from model import ROWS, WIDTHS, Screen
from sitting import Ended

TESTS = os.path.dirname(os.path.dirname(os.path.dirname(os.path.realpath(__file__))))
sys.path.insert(0, f'{TESTS}/lib/past')
import reader  # noqa: E402, beside the other tests of a past

SECTORS = int(os.environ.get('PAST_SECTORS', reader.SITTING))
PRESSES = 120
MOMENTS = 100
COPY = b'\x10\x1b[D\x03\x10'  # Ctrl-P, Left, Ctrl-C, and Ctrl-P again: Ctrl-V then types what was selected there, if anything was
KEYS = [b'\x7f', b'\r', b'\x1b[A', b'\x1b[D', b'\x1b[1;2D', b'\x03', b'\x16', b'\x0b', COPY]


def press_of(chance):
    """What is pressed next: some letters, a key, or a step back or forth."""
    kind = chance.random()
    if kind < 0.4:
        return ''.join(chance.choice(LETTERS) for _ in range(chance.randrange(1, 9))).encode() + b' '
    if kind < 0.7:
        return chance.choice(KEYS)
    return b'\x1a' if kind < 0.8 else b'\x19'


def now_of(path):
    """How many deeds came before what the store shows."""
    disk = reader.Disk(path)
    slot = reader.Slot(disk, 0)
    return slot.before + len(reader.journal(disk, 0, slot.slot))


def keeps_none(path):
    """Whether the head tells of no past: what was done before it began was taken back, and nobody has sat down since then."""
    return reader.Slot(reader.Disk(path), 0).next == 0


def start_of(path):
    """How many deeds came before the part in use, as far as its start's head tells."""
    disk = reader.Disk(path)
    return reader.Slot(disk, reader.part_with(SECTORS, reader.Slot(disk, 0).next)).before


def go_on(trial, chance, sitting):
    """Now and then the program is killed, or left and a file imported; then somebody sits down again."""
    kind = chance.random()
    if kind > 0.05:
        return sitting
    if kind > 0.02:
        os.kill(sitting.program(), signal.SIGKILL)
        sitting.end()
    else:
        trial.leaves(sitting)
        with open(f'{trial.folder}/B.Text', 'w', encoding='ascii') as file:
            file.write(f'a text of {chance.random()}\n')
        trial.desk_says('import', trial.path, '--replace', f'{trial.folder}/B.Text')
    return trial.sit('--no-questions', trial.path)


def screen_at(trial, moment):
    """The screen of a moment, as the reader finds it. None where the past doesn't reach so far."""
    disk, rest = f'{trial.folder}/moment.disk', f'{trial.folder}/rest'
    if reader.main(trial.path, SECTORS, moment, disk, rest):
        return None
    with open(rest, encoding='ascii') as file:
        lines = [line.rstrip('\n') for line in file]
    plain = [line.replace('document ', 'file ', 1) for line in lines if not line.startswith('import ')]
    trial.oberon_says('play', disk, lines=plain)
    return Screen(trial.oberon_says('screen', disk).splitlines()[:-1]).rows


def is_shown(rows, seen):
    """Whether these are the rows that were seen, in which a mark may stand in the last column of a track, where a line goes on."""
    edges = [left + width - 1 for left, width in WIDTHS.items()]
    return all(character == was or was == '>' and column in edges
               for row, was_row in zip(rows, seen, strict=True)
               for column, (character, was) in enumerate(zip(row.ljust(80), was_row.ljust(80), strict=True)))


def sit(trial, chance):
    """A sitting. Returns the screens that were shown, by the number of deeds that came before each."""
    trial.store()
    sitting, seen = trial.sit('--past', '--no-questions', trial.path), {}
    for _ in range(PRESSES):
        if not sitting.hear_long(press_of(chance)):
            trial.wrong.append('no scene came')
            break
        sitting.settle()
        now = now_of(trial.path)
        seen = {moment: rows for moment, rows in seen.items() if moment < now}  # (what was taken back is no moment any more)
        seen[now] = sitting.terminal.lines()[:ROWS]
        sitting = go_on(trial, chance, sitting)
    trial.leaves(sitting)
    return seen


def attempt(seed, desk, oberon):
    """What is wrong with a sitting, in words, how many moments were looked at, and how many of these lie before the part in use."""
    chance = random.Random(seed)
    trial, looked, former = Trial(desk, oberon, chance), 0, 0
    try:
        seen = sit(trial, chance)
        if keeps_none(trial.path):
            trial.stop()
            return trial.wrong, 0, 0
        begun = start_of(trial.path)
        for moment in chance.sample(sorted(seen), min(MOMENTS, len(seen))):
            found = screen_at(trial, moment)
            looked += found is not None
            former += found is not None and moment < begun
            if found is not None and not is_shown(found, seen[moment]):
                trial.wrong.append(f'another screen at moment {moment}')
        trial.check(looked > 0, 'no moment was found')
    except (Ended, OSError, subprocess.CalledProcessError, reader.Gone) as error:
        trial.wrong.append(repr(error))
    trial.stop()
    return trial.wrong, looked, former


def main():
    desk, oberon, runs, first = sys.argv[1:5]
    failed = looked = before = 0
    for seed in range(int(first), int(first) + int(runs)):
        wrong, found, former = attempt(seed, desk, oberon)
        looked, before = looked + found, before + former
        failed += bool(wrong)
        if wrong:
            print(f'{seed}: ' + '; '.join(wrong[:3]), flush=True)
    print(f'{looked} moments, {before} before the part in use', file=sys.stderr)
    print(f'{runs} sittings with a past, {failed} differ', flush=True)
    sys.exit(1 if failed else 0)


if __name__ == '__main__':
    main()
