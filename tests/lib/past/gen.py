"""gen.py SEED N MOST: a script of N events; texts have up to MOST bytes."""
import random
import sys

seed, n, most = map(int, sys.argv[1:])
r = random.Random(seed)
TOOL = ['Edit.Open A.Text', 'Edit.Open B.Text', 'Edit.Store', 'System.Close', 'Edit.ChangeColor 3', 'System.OpenLog']
BEGIN = ['file System.Tool ' + ''.join(line + '%0d' for line in TOOL), 'point m 60 31 60 31', 'point m 52 30 52 30',
         'point l 1 30 1 30', 'type Hello World%0d']
KEYS = 'l l l m r r lm rl rm lr mr'.split()


def text(k):
    return ''.join('%0d' if r.random() < .05 else r.choice('abcdefgh ijklmnop  ') for _ in range(k))


def event():
    x = r.random()
    if x < .70:
        return 'type ' + text(r.choice([1, 1, 1, 2, 5, r.randint(1, most)]))
    if x < .80:
        a, b = r.randint(0, 79), r.randint(0, 32)
        keys = r.choice(KEYS)
        to = min(79, max(0, a + r.randint(-5, 5))), min(32, max(0, b + r.randint(-3, 3)))
        return f'point {keys} {a} {b} {to[0]} {to[1]}'
    if x < .84:
        return f'point l {r.randint(1, 30)} {r.randint(10, 30)} 5 25'
    if x < .90:
        return 'key ' + r.choice(['back', 'copy', 'paste', 'cut', 'escape'])
    if x < .92:
        return f'mark {r.randint(0, 79)} {r.randint(0, 32)}'
    if x < .95:
        return f'point m 52 {r.randint(25, 30)} 52 {r.randint(25, 30)}'
    return f'file {r.choice(["A.Text", "B.Text", "C.Text", "D"])} ' + text(r.randint(1, most))


lines = BEGIN + [event() for _ in range(n)]
print('\n'.join(lines[:n]))
