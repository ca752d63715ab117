"""The same random keys at a desk with a past and at one without. `tests/random/alike` says what is compared."""
import random
import shutil
import subprocess
import sys
import tempfile

from main import begin
from presses import press

WORDS, PRESSES = 25, 45
LOOKS = b'list\nscreen\nshow A.Text\nshow System.Log\n'
# What asks the host, or takes time.
LEFT_OUT = {'file', 'fit', 'ring at a name', 'called off'}
LEAVE = b'\x11'


def one_of(chance):
    """A press, or a few: steps back, steps forth, letters, or anything."""
    kind = chance.random()
    if kind < 0.12:
        return b'\x1a' * chance.choice([1, 1, 1, 2, 3])
    if kind < 0.22:
        return b'\x19' * chance.choice([1, 1, 2, 3])
    if kind < 0.45:
        return ''.join(chance.choice('abc de') for _ in range(chance.randrange(1, 8))).encode()
    data, meanings = press(chance, 33, True)
    is_left_out = any(meaning[0] in LEFT_OUT for meaning in meanings) or LEAVE in data or b'\x0f' in data or data.endswith(b'\x1b')
    return b'' if is_left_out else data


def keys(chance):
    words = [b'q%d ' % k for k in range(WORDS)]
    return b''.join(words + [one_of(chance) for _ in range(PRESSES)]) + LEAVE


def sat(desk, folder, words, store, data):
    """What came of a sitting: the status, the bytes for the terminal, and errors."""
    done = subprocess.run([desk, 'sit', '--no-questions', *words, '33', store], input=data, capture_output=True, cwd=folder, check=False)
    return done.returncode, done.stdout, done.stderr


def pair(seed, desk, oberon, folder, tool):
    """Whether two desks were alike, and how many turns there were."""
    chance, with_past, without = random.Random(seed), f'{folder}/with', f'{folder}/without'
    begin(oberon, with_past, tool)
    shutil.copy(with_past, without)
    data = keys(chance)
    sat(desk, folder, ['--past'], 'with', LEAVE)  # (that a past begins is told once)
    is_alike = sat(desk, folder, ['--past'], 'with', data) == sat(desk, folder, [], 'without', data)
    shown = [subprocess.run([oberon, 'play', it], input=LOOKS, capture_output=True, check=True).stdout for it in (with_past, without)]
    told = subprocess.run([desk, 'history', with_past, '--all'], capture_output=True, check=False).stdout
    return is_alike and shown[0] == shown[1], told.count(b'turn back')


def main():
    desk, oberon, tool_path, pairs, first = sys.argv[1:6]
    with open(tool_path, encoding='ascii') as text:
        tool = text.read()
    differ = turns = 0
    for seed in range(int(first), int(first) + int(pairs)):
        with tempfile.TemporaryDirectory() as folder:
            is_alike, turned = pair(seed, desk, oberon, folder, tool)
        turns += turned
        if not is_alike:
            differ += 1
            print(f'{seed}: other bytes, or another desktop', flush=True)
    print(f'{turns} turns', file=sys.stderr)
    print(f'{pairs} pairs of desks, {differ} differ', flush=True)
    sys.exit(1 if differ or not turns else 0)


if __name__ == '__main__':
    main()
