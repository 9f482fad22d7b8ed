#!/usr/bin/env python3
"""Where the time of a crate's check went, by function.

Usage: bench/proof_times.py CRATE_FOLDER [LINES]     after `rt check` in that folder

A check writes a file below out/incremental as it ends with each module of a proof. The time between two files is counted for the
function of the second: `Lts` is the walk through its body, `Proof` the search for its goals. These are seconds by the clock, so
the machine should be idle; files that were kept from an earlier check show that check's times."""
import collections
import os
import re
import sys

PARTS = 'Lts|Proof|Goals|Given|Tie|Code|Code.Mir|Statement|Met|Invariants|Answers|Symbol|TheLink'
LONGEST = 120


def files_of(folder):
    """The files below a folder with their times, the oldest first."""
    found = []
    for at, _, names in os.walk(folder):
        found += [(os.stat(os.path.join(at, name)).st_mtime_ns / 1e9, name) for name in names]
    return sorted(found)


def part_of(name):
    """The function, or the module, and the part of its proof that a file holds."""
    name = name.removesuffix('.oantt').removesuffix('.decls')
    split = re.fullmatch(r'(.*?)\.(%s)' % PARTS, name)
    return split.groups() if split else (name, 'other')


def main():
    files = files_of(os.path.join(sys.argv[1], 'out', 'incremental'))
    lines = int(sys.argv[2]) if len(sys.argv) > 2 else 30
    parts = collections.defaultdict(collections.Counter)
    for (before, _), (after, name) in zip(files, files[1:]):
        if after - before < LONGEST:
            function, part = part_of(name)
            parts[function][part] += after - before
    for function, times in sorted(parts.items(), key=lambda it: -sum(it[1].values()))[:lines]:
        shown = '  '.join('%s %.1f' % it for it in times.most_common(4))
        print('%7.1f %s  %s' % (sum(times.values()), function.removeprefix('Rattle-'), shown))


main()
