# docs/FIRST-CHANGE.md as it stands: its diffs fit the tree one after another, its wrong body fits what they make, and what it
# says of the tree is so: the place that the prover names, how many wrong bodies and tests there are, and that tools/reading
# fails until it has written the numbers.
top=$TESTS/..
mkdir tree && cp -r "$top/crates.txt" "$top/README.md" "$top/docs" "$top/tools" tree &&
    (cd "$top" && tar c --exclude=out crates) | tar x -C tree && cd tree || exit 1
python3 - << 'END'
import os
import re
import subprocess

with open('docs/FIRST-CHANGE.md', encoding='utf-8') as file:
    page = file.read()
reading = lambda: subprocess.run(['tools/reading'], capture_output=True, text=True)
print('before:', 'READING is right' if reading().returncode == 0 else 'READING has faults')
for number, diff in enumerate(re.findall(r'^```diff\n(.*?)^```$', page, re.M | re.S), 1):
    done = subprocess.run(['patch', '-p1', '--fuzz=0'], input=diff, capture_output=True, text=True)
    print(f'diff {number}:', *re.findall(r'^patching file (.*)$', done.stdout, re.M), 'applies' if done.returncode == 0 else done.stdout)

path, edit = re.search(r'`(crates/\S+\.edit)`:\n\n```\n(.*?)^```$', page, re.M | re.S).groups()
crate, name = path.split('/')[1], path.split('/')[-1]
with open(path, 'w', encoding='utf-8') as file:
    file.write(edit)
source, old, new = re.fullmatch(r'file: (.*)\nold: (.*)\nnew: (.*)\n', edit).groups()
with open(f'crates/{crate}/{source}', encoding='utf-8') as file:
    lines = file.read().split('\n')
print(f'{path}:', sum(old in line for line in lines), 'place')

place, = re.findall(r'^note: src/hand\.rt:(\d+):', page, re.M)
print('the place that the prover names:', lines[int(place) - 1])
last = r'^(\d+) wrong bodies tried, (\d+) refused, 0 of them for their shape, 0 by their answers alone$'
tried, refused = re.search(last, page, re.M).groups()
there = len([it for it in os.listdir(os.path.dirname(path)) if it.endswith('.edit')])
print('wrong bodies:', 'as many as the page says' if int(tried) == int(refused) == there else f'{there}, and the page says {tried}')
passed = int(re.search(r'test result: ok\. (\d+) passed', page)[1])
tests = 0
for at, _, files in os.walk('crates/desk_tests/src'):
    for it in files:
        with open(os.path.join(at, it), encoding='utf-8') as file:
            tests += len(re.findall(r'^#\[test\]$', file.read(), re.M))
print('tests:', 'as many as the page says' if tests == passed else f'{tests}, and the page says {passed}')
with open('crates/desk_tests/src/presses.rt', encoding='utf-8') as file:
    rows, table = re.search(r'fn presses_make_events.*?; (\d+)\] = \[\n(.*?)^    \];', file.read(), re.M | re.S).groups()
there = len(re.findall(r'^        \(', table, re.M))
print('rows of the table:', 'as many as it says' if there == int(rows) else f'{there}, and it says {rows}')

said = reading()
print('after:', re.sub(r'(is not so).*', r'\1', said.stderr.split('\n')[0]))
subprocess.run(['tools/reading', '--update'], capture_output=True, check=False)
print('after --update:', 'READING is right' if reading().returncode == 0 else reading().stderr)
END
