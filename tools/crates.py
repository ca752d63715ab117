"""The crates of this repository, for the scripts of tools/: what each uses, what its library is made from, and the words
by which `rattle` proves it.

A library here is one of statements: what other crates can cite of the crate, without the proofs, which were checked when
it was made. It is a quarter to a third of what `rt` makes in out/rlib, and each crate above loads so much less. It stands
in crates/NAME/out/library, beside its key: a sum over all that it was made from.

A program is of certain sources, whatever the times of files are. Beside it stands a record, NAME.record: the sum over the
sources that it was made from, the sum over the program itself, and the kit that made it.
"""
import contextlib
import functools
import hashlib
import os
import shutil

TOP = os.path.dirname(os.path.dirname(os.path.realpath(__file__)))
PARTS = ('src', 'specs', 'proofs')
PROGRAMS = ('oberon', 'desk')


def kit():
    """The folder of the Rattle kit whose command `rt` is on the PATH, or None."""
    found = shutil.which('rt')
    return os.path.dirname(os.path.dirname(os.path.realpath(found))) if found else None


def kit_id():
    """The kit's name and its logic; nothing where it doesn't say them."""
    try:
        with open(f'{kit()}/KIT-ID', encoding='utf-8') as file:
            return file.read().strip()
    except OSError:
        return ''


@functools.cache
def rows():
    """A line for each crate, from crates.txt, and for each bench, from bench/rows.txt: NAME -> (its line, those it uses)."""
    found = {}
    for file in ('crates.txt', 'bench/rows.txt'):
        with open(f'{TOP}/{file}', encoding='utf-8') as lines:
            for line in lines:
                name, colon, used = line.partition('#')[0].partition(':')
                if colon:
                    found[name.split()[0]] = line.strip(), used.split()
    return found


def folder(name):
    """Where the crate's sources are. Those of a bench end in .rt.txt, since `rt ci` refuses .rt files that it doesn't read."""
    at = f'{TOP}/bench/crates/{name}'
    return at if os.path.isdir(at) else f'{TOP}/crates/{name}'


def own(name):
    """The crates of this repository that it uses."""
    return [it for it in rows()[name][1] if it in rows()]


@functools.cache
def below(name):
    """All crates of this repository below it, each after those that it uses."""
    found = []
    for low in own(name):
        found += [it for it in [*below(low), low] if it not in found]
    return found


def sources(name, parts=PARTS, at=folder):
    """The files that a check of the crate reads, by their paths; those of a copy where `at` tells its folders."""
    found = []
    for part in parts:
        for place, _, files in os.walk(f'{at(name)}/{part}'):
            found += [os.path.join(place, file) for file in files if not file.startswith('.')]
    return sorted(found)


@functools.cache
def key(name):
    """A sum over all that the crate's library or program is made from."""
    total = hashlib.sha256(repr(rows()[name]).encode())
    with open(f'{kit()}/KIT-ID', 'rb') as file:
        total.update(file.read())
    for path in sources(name):
        with open(path, 'rb') as file:
            total.update(repr((os.path.relpath(path, folder(name)), file.read())).encode())
    total.update(repr([key(low) for low in own(name)]).encode())
    return total.hexdigest()


def plain(path, name, at=folder):
    """The path of a source in its crate, as the prover is given it."""
    found = os.path.relpath(path, at(name))
    return found.removesuffix('.txt') if found.endswith('.rt.txt') else found


def sum_of(name, parts=PARTS, at=folder):
    """A sum over the sources of a program, its crate's and those of all crates below it, or over these parts of them; over
    a copy of them where `at` tells its folders."""
    total = hashlib.sha256()
    for it in [*below(name), name]:
        total.update(repr(rows()[it]).encode())
        for path in sources(it, parts, at):
            with open(path, 'rb') as file:
                text = file.read()
            total.update(f'{it}/{plain(path, it, at)} {len(text)} '.encode() + text)
    return total.hexdigest()


def copy(names, parts, to):
    """Copies the sources of programs, as they are at one moment, to the folders that `to` tells: NAME -> their sum."""
    crates = dict.fromkeys(it for name in names for it in [*below(name), name])
    while True:
        for it in crates:
            shutil.rmtree(to(it), ignore_errors=True)
            for path in sources(it, parts):
                copied = f'{to(it)}/{plain(path, it)}'
                os.makedirs(os.path.dirname(copied), exist_ok=True)
                with contextlib.suppress(FileNotFoundError):  # (it was removed meanwhile)
                    shutil.copyfile(path, copied)
        sums = {name: sum_of(name, parts, to) for name in names}
        if sums == {name: sum_of(name, parts) for name in names}:
            return sums


def forget():
    """What the files of rows and sources were is forgotten: they are read again."""
    for it in (rows, below, key):
        it.cache_clear()


def is_program(name):
    return any(os.path.isfile(f'{folder(name)}/src/main.{end}') for end in ('rt', 'rt.txt'))


def out(name):
    """Where what is made of the crate goes."""
    return f'{folder(name)}/out'


def program(name):
    """Where a program goes: a bench beside the others."""
    return f'{out(name)}/{name}' if folder(name) == f'{TOP}/crates/{name}' else f'{TOP}/bench/out/{name}'


def sum_of_file(path):
    with open(path, 'rb') as file:
        return hashlib.sha256(file.read()).hexdigest()


def record(program):
    """What stands in the record beside a program, WORD -> its value; nothing where there is none of this very program."""
    try:
        with open(f'{program}.record', encoding='utf-8') as file:
            said = dict(line.rstrip('\n').split(' ', 1) for line in file)
        return said if said.get('program') == sum_of_file(program) else {}
    except (OSError, ValueError):
        return {}


def keep(made, program, said):
    """Puts a program that was made in its place, with what its record is to say beside the sum over itself. Where this is
    cut off, no record there is of the program there."""
    os.makedirs(os.path.dirname(program), exist_ok=True)
    lines = {**said, 'program': sum_of_file(made)}
    if made != program:
        shutil.copyfile(made, f'{program}.new')
        os.chmod(f'{program}.new', 0o755)
        os.replace(f'{program}.new', program)
    with open(f'{program}.record.new', 'w', encoding='utf-8') as file:
        file.writelines(f'{word} {value}\n' for word, value in lines.items())
    os.replace(f'{program}.record.new', f'{program}.record')


def is_proved(name):
    """Whether the program is there, proved, of the sources as they are now."""
    return record(program(name)).get('sources') == sum_of(name)


def library(name):
    return f'{out(name)}/library/{name}.rlib'


def has_library(name):
    """Whether its library is made from the sources as they are now."""
    try:
        with open(f'{out(name)}/library/key', encoding='ascii') as file:
            return file.read() == key(name) and os.path.exists(library(name))
    except OSError:
        return False


def words(name, sourced=()):
    """The words after `rattle check` or `rattle build` in the crate's folder, but for jobs and what is to be made. Each
    crate below is a library, or taken as sources, whose proofs need not stand."""
    said = ['--crate-name', name, f'src/{"main" if is_program(name) else "lib"}.rt']
    kits = {'std', *[it for it in rows()[name][1] if it not in rows()]}
    if sourced:
        kits |= {'core', *[it for low in below(name) for it in rows()[low][1] if it not in rows()]}
    for it in sorted(kits):
        said += ['--extern', f'{it}={kit()}/rlibs/{it}.rlib']
    said += ['-L', f'dependency={kit()}/rlibs']
    for low in below(name):
        if low not in sourced:
            said += ['--extern', f'{low}={library(low)}'] if sourced or low in own(name) else []
            said += ['-L', f'dependency={os.path.dirname(library(low))}']
    for low in sourced:
        uses = ','.join(dict.fromkeys(['core', 'std', *rows()[low][1]]))
        said += ['--lib', f'{low}:{uses}={folder(low)}/src/lib.rt']
    said += ['--antt-project', f'{kit()}/rattle/logic/antt-project.json', '--logic-built', f'{kit()}/logic_built']
    return said + ['--links', f'{name}=']
