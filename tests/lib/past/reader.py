#!/usr/bin/env python3
"""reader.py FILE SECTORS K DISK SCRIPT: the desktop of moment K of the store in FILE, a disk of so many sectors (`sitting`: of as
many as a sitting's), as docs/PAST.md and docs/STORE.md tell: a store DISK to start from, and what leads from there as lines of a
script; an import of N documents is a line `import N`, and a line `document NAME TEXT` for each. It returns 1 where no past
leads there. Where MARKS is set in the environment the store is the last mark before that, if there is one: both must lead to the
same."""
import os
import sys

SECTOR, STORE, PART, SITTING = 1024, 15621, 32768, 1326343
POINT = ['l', 'lm', 'lr', 'm', 'ml', 'mr', 'r', 'rl', 'rm']
WORDS = ['back', 'copy', 'paste', 'cut', 'escape']


class Gone(Exception):
    pass


class Disk:
    def __init__(self, path):
        self.file = open(path, 'rb')

    def at(self, n, count=1):
        self.file.seek(n * SECTOR)
        return self.file.read(count * SECTOR).ljust(count * SECTOR, b'\0')


def number(b):
    return int.from_bytes(b, 'big')


class Slot:
    """The slot in use of the store whose sectors stand so far on, and its head."""

    def __init__(self, disk, base):
        if disk.at(base)[:16] != b'OBERONDESKSTORE1':
            raise Gone('no label')
        open_ = [s for s in (0, 1) if disk.at(base + 1 + 2 * s)[:8] == b'OPENGATE']
        if not open_:
            raise Gone('no slot')
        heads = {s: disk.at(base + 2 + 2 * s) for s in open_}
        self.slot = max(open_, key=lambda s: (number(heads[s][4:8]), -s))
        head = heads[self.slot]
        self.version, self.epoch, self.written, self.extent, self.area = (number(head[4 * k:4 * k + 4]) for k in range(5))
        self.next, self.before = number(head[20:24]), number(head[24:32])
        if not 1 <= self.version <= 3:
            raise Gone('a head that is none')


def event_in(data, at):
    """The event there, as the line of a script, and where it ends."""
    kind = data[at]
    if kind == 1:
        n = number(data[at + 1:at + 3])
        return 'type ' + spelled(data[at + 3:at + 3 + n]), at + 3 + n
    if kind == 2:
        return 'key ' + WORDS[data[at + 1]], at + 2
    if kind == 3:
        return f'mark {data[at + 1]} {data[at + 2]}', at + 3
    if kind == 4:
        keys = POINT[data[at + 1]]
        return f'point {keys} ' + ' '.join(str(x) for x in data[at + 2:at + 6]), at + 6
    if kind == 5:
        k = data[at + 1]
        name = data[at + 2:at + 2 + k].decode()
        n = number(data[at + 2 + k:at + 4 + k])
        return f'file {name} ' + spelled(data[at + 4 + k:at + 4 + k + n]), at + 4 + k + n
    raise Gone(f'no event: {kind}')


def spelled(data):
    return ''.join(chr(b) if 32 <= b <= 126 and b != 37 else f'%{b:02x}' for b in data)


def events_in(data, count):
    """So many events from the front of a page on, each as a list of one line, and where they end."""
    found, place = [], 16
    for _ in range(count):
        line, place = event_in(data, place)
        found.append([line])
    return found, place


def import_in(data, count):
    """The import of so many documents from the front of a page on, as lines, and where it ends."""
    lines, place = [f'import {count}'], 16
    for _ in range(count):
        parts = []
        for _part in range(2):
            n = number(data[place:place + 4])
            parts.append(data[place + 4:place + 4 + n])
            place += 4 + n
        lines.append(f'document {parts[0].decode()} {spelled(parts[1])}')
    return [lines], place


def turn_in(data, count):
    """The turn on a page, as the moment to which it leads, and where it ends."""
    return [number(data[16:24])] * count, 24


class Copy:
    """A desktop in a page, as the sectors of a store; far: the desktop was turned to it."""

    def __init__(self, far, sectors):
        self.far, self.sectors = far, sectors

    def store(self):
        data = bytearray(STORE * SECTOR)
        for n, held in self.sectors:
            data[n * SECTOR:(n + 1) * SECTOR] = held
        return data


def copy_in(far):
    def read(data, count):
        sectors = [(number(data[at:at + 4]), data[at + 4:at + 4 + SECTOR]) for at in range(16, 16 + count * (4 + SECTOR), 4 + SECTOR)]
        if any(n >= STORE for n, _ in sectors):
            raise Gone('a sector that no store has')
        return [Copy(far, sectors)], 16 + count * (4 + SECTOR)
    return read


READERS = {1: events_in, 2: import_in, 3: turn_in, 4: copy_in(False), 5: copy_in(True)}


def journal(disk, base, slot):
    lines, k = [], 0
    at = base + 5 + 512 * slot
    while k < 256 and disk.at(at + 2 * k)[:8] == b'OPENGATE':
        lines.append(event_in(disk.at(at + 2 * k + 1), 0)[0])
        k += 1
    return lines


def pages(disk, at, end):
    """What the pages from one sector up to another one say was done, page by page: each event, and each import, as lines; of a turn
    the moment, or the desktop; and marks."""
    while at < end:
        front = disk.at(at)
        kind, version, count, length = (number(front[4 * k:4 * k + 4]) for k in range(4))
        if kind not in READERS or version != 3:
            raise Gone(f'no page in sector {at}')
        sectors = -(-(16 + length) // SECTOR)
        found, place = READERS[kind](disk.at(at, sectors), count)
        if place != 16 + length:
            raise Gone(f'a page of another length in sector {at}')
        yield found
        at += sectors
    if at != end:
        raise Gone('a page beyond the end')


def is_deed(item):
    return not isinstance(item, Copy) or item.far


def behind(items, count):
    """The items up to the one behind which so many deeds came, and marks right behind that."""
    found, done = [], 0
    for item in items:
        if is_deed(item) and done == count:
            break
        found.append(item)
        done += is_deed(item)
    return found


def way_to(items, count):
    """What leads to the moment behind so many deeds: a desktop to start from, or None for the start, and lines."""
    items = behind(items, count)
    for place in reversed(range(len(items))):
        item, rest = items[place], [it for it in items[place + 1:] if isinstance(it, list)]
        if isinstance(item, int):
            copy, before = way_to(items[:place], item)
            return copy, before + rest
        if isinstance(item, Copy) and (item.far or 'MARKS' in os.environ):
            return item, rest
    return None, [it for it in items if isinstance(it, list)]


def part_with(sectors, next_):
    """Where the part begins in which pages go on in this sector."""
    for base in range(STORE + 2, sectors - PART + 1, PART):
        if base + STORE <= next_ <= base + PART:
            return base
    raise Gone(f'no part has sector {next_}')


def span_with(disk, sectors, now, k):
    """The part that has moment k, by its start, and where its pages end; and the numbers of the deeds before its start."""
    told, epoch = now, None
    while True:
        base = part_with(sectors, told.next)
        start = Slot(disk, base)
        if epoch is not None and start.epoch >= epoch:
            raise Gone('the part before has begun anew')
        if k >= start.before:
            return base, start, told
        told, epoch = start, start.epoch


def moment(disk, sectors, k):
    """From which sector on a store is to be copied, or a desktop; the slot whose journal is to be emptied; and the lines from
    there."""
    now = Slot(disk, 0)
    if k >= now.before:
        lines = journal(disk, 0, now.slot)
        if k - now.before > len(lines):
            raise Gone('it has not come yet')
        return 0, now, lines[:k - now.before]
    base, start, told = span_with(disk, sectors, now, k)
    own = journal(disk, base, start.slot)
    first = start.before + len(own)
    if k < first:
        before = Slot(disk, part_with(sectors, start.next))
        if before.epoch >= start.epoch:
            raise Gone('it is older than the part, and the one before has begun anew')
        return base, start, own[:k - start.before]
    items = [item for page in pages(disk, base + STORE, told.next) for item in page]
    if first + sum(map(is_deed, items)) != told.before:
        raise Gone('the numbers do not agree')
    done = [item - first if isinstance(item, int) else item for item in behind(items, k - first)]
    if any(isinstance(item, int) and not 0 <= item <= sum(map(is_deed, done[:place])) for place, item in enumerate(done)):
        raise Gone('a turn to a moment that the part does not have')
    copy, lines = way_to(done, k - first)
    return copy or base, None, [line for deed in lines for line in deed]


def main(path, sectors, k, to, script):
    disk = Disk(path)
    try:
        base, slot, lines = moment(disk, SITTING if sectors == 'sitting' else int(sectors), int(k))
    except Gone as gone:
        print(gone, file=sys.stderr)
        return 1
    with open(to, 'wb') as file:
        data = base.store() if isinstance(base, Copy) else bytearray(disk.at(base, STORE))
        if slot:
            gate = 5 + 512 * slot.slot
            data[gate * SECTOR:(gate + 1) * SECTOR] = bytes(SECTOR)
        file.write(data)
    with open(script, 'w', encoding='ascii') as file:
        file.writelines(line + '\n' for line in lines)
    return 0


if __name__ == '__main__':
    sys.exit(main(*sys.argv[1:]))
