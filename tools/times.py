"""How long it takes to prove crates, by what they took before, for the scripts of tools/."""
import collections
import os

import crates

PROCESSORS = len(os.sched_getaffinity(0))


def seconds():
    """What each crate took when it was proved: NAME -> seconds of processor time."""
    took = collections.defaultdict(lambda: 90)
    with open(f'{crates.TOP}/tools/costs', encoding='ascii') as lines:
        for line in lines:
            if not line.startswith('#'):
                name, number = line.split()
                took[name] = int(number)
    for name in crates.rows():
        try:
            with open(f'{crates.out(name)}/seconds', encoding='ascii') as file:
                took[name] = int(file.read())
        except (OSError, ValueError):
            pass
    return took


def by_the_clock(took, jobs):
    """How long a crate of so many seconds of processor time takes with so many processors. By what was seen it begins with
    some seconds in one process, and a quarter of the rest isn't shared among several."""
    return 12 + took * (0.25 + 0.75 / jobs)


def needed(programs):
    """All crates that programs are made from, each after those that it uses."""
    return list(dict.fromkeys(it for name in programs for it in [*crates.below(name), name]))


def proved(programs):
    """Those of them that are proved as their sources are now."""
    return {it for it in needed(programs) if crates.has_library(it) or it in programs and crates.is_proved(it)}


def ways(names, took, share):
    """The seconds from the beginning of each of these crates to the end of all above it, where a share of each is to do."""
    found = {}
    for name in reversed(names):
        above = [found[it] for it in names if name in crates.own(it)]
        found[name] = by_the_clock(took[name], PROCESSORS) * share[name] + max(above, default=0)
    return found


def left(names, took, share):
    """The seconds that these crates take by the clock, where a share of each is to do: all work, or the longest way."""
    work = sum(took[it] * share[it] for it in names) / PROCESSORS
    return max([work, *ways(names, took, share).values()])


def minutes(programs):
    """How many minutes it takes to prove what of these programs isn't proved now."""
    names, done = needed(programs), proved(programs)
    return int(left(names, seconds(), {it: it not in done for it in names}) / 60) + 1
