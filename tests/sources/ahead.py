#!/usr/bin/env python3
"""Prints what ./check will make anew and what is kept, and about how long that takes here.

    tests/sources/ahead.py [--anew]

Whether `rt ci` keeps a proof is known only from its own store, which this reads; if it is not as expected, a line says that this is not known. The
times are those of one whole run, by the share of the work that is left, and by how fast this machine does a fixed computation now. They are rough: half
or twice as long is possible.
"""
import contextlib
import hashlib
import importlib.machinery
import importlib.util
import io
import json
import os
import re
import subprocess
import sys

sys.dont_write_bytecode = True
from functions import TOP, listed
from pace import milliseconds
from stamps import kit

# What a whole run took, in seconds of processor, on a machine that did the fixed computation in PACE milliseconds
PROOFS, EDIT, WEAKENING, TESTS, PACE = 11_100, 5.9, 25, 1_700, 41


def kept_proofs():
    """Returns for each crate whether `rt ci` keeps its proof, and that of its tests; crates above one that is proved anew count as not kept."""
    kit()
    path = os.path.join(os.path.dirname(os.path.realpath(kit().__file__)), 'rt')
    loader = importlib.machinery.SourceFileLoader('rt_of_kit', path)
    rt = importlib.util.module_from_spec(importlib.util.spec_from_loader('rt_of_kit', loader))
    with contextlib.redirect_stdout(io.StringIO()):
        loader.exec_module(rt)
        rt.Crate.cuts_libraries, rt.Crate.allowed = True, rt.handles_of(TOP)
        crates = rt.crates_of(TOP)
    store, found = rt.Kept([]), {}
    for crate in crates:
        is_known = all(found.get((low.name, False)) for low in crate.below())
        key = store.key(crate) if is_known else ''
        for tests in (False, True) if crate.has_tests() else (False,):
            place = store.place(crate, tests, key)
            found[crate.name, tests] = is_known and os.path.isfile(f'{place}/made.json')
        if found[crate.name, False]:
            with open(f'{store.place(crate, False, key)}/made.json', encoding='utf-8') as file:
                made = json.load(file)
            files = [] if crate.is_program else [tuple(it) for it in made['files']]
            store.rlibs[crate.name] = hashlib.sha256(repr(files).encode()).hexdigest()
    return found


def size_of(crate):
    return sum(os.path.getsize(f'{TOP}/{path}') for path in listed('crates', crate, '**', '*') if path.endswith(('.rt', '.antt')) and '/out/' not in path)


def proofs(is_anew):
    """Prints which proofs are kept; returns the share of the work that is left."""
    try:
        found = kept_proofs()
    except (Exception, SystemExit) as error:  # (it reads what is the toolchain's own, which another version may keep in another way)
        print(f'check: proofs: it is not known how many are kept ({type(error).__name__})')
        return 1
    if is_anew:
        found = dict.fromkeys(found, False)
    left = [f'{name}{" (tests)" if tests else ""}' for (name, tests), is_kept in found.items() if not is_kept]
    print(f'check: proofs: {len(left)} of {len(found)} to make, of crates and of their tests; {len(found) - len(left)} are kept on this machine')
    if 0 < len(left) < len(found):
        print(f'check:     {", ".join(left)}')
    sizes = {name: size_of(name) for name, _ in found}
    return sum(sizes[name] for (name, _), is_kept in found.items() if not is_kept) / sum(sizes[name] for name, _ in found)


def counted(words, is_anew):
    """Prints how many edits or weakenings are tried, and returns their number."""
    ran = subprocess.run([*words, '--count', *(['--anew'] if is_anew else [])], cwd=TOP, capture_output=True, text=True)
    last = (ran.stdout.strip().split('\n') or [''])[-1]
    number = re.match(r'(\d+) \w+ to try', last)
    print(f'check: {os.path.basename(words[0])}: {last if number else "it is not known how many are tried"}')
    return int(number[1]) if number else 0


def main():
    is_anew = sys.argv[1:] == ['--anew']
    share = proofs(is_anew)
    edits, weakenings = counted(['tests/gate/wrong_bodies'], is_anew), counted(['tests/gate/weakened'], is_anew)
    pace, lanes = min(milliseconds() for _ in range(5)), len(os.sched_getaffinity(0))
    seconds = (PROOFS * share + EDIT * edits + WEAKENING * weakenings + TESTS) * pace / PACE
    print('check: tests: all, once over the unproved program and once over the proved one')
    print(f'check: about {seconds / 60:.0f} minutes of processor, {seconds / 60 / lanes:.0f} to {seconds / 30 / lanes:.0f} minutes by the clock on {lanes} processors')


if __name__ == '__main__':
    main()
