#!/usr/bin/env python3
"""Lets `rt` use the libraries that `rt ci` left: `rt ci` leaves them without the checksum of their sources, by which `rt lib` knows them.

    tests/sources/stamps.py

A library that has this checksum, or that does not exist, is not changed.
"""
import functools
import importlib.machinery
import os
import shutil
import sys
import types

sys.dont_write_bytecode = True
TOP = os.path.dirname(os.path.dirname(os.path.dirname(os.path.abspath(__file__))))


@functools.cache
def kit():
    """Returns the toolchain's own functions for crates."""
    path = os.path.join(os.path.dirname(os.path.realpath(shutil.which('rt'))), 'rtlib.py')
    module = types.ModuleType('rtlib')
    module.__file__ = path
    sys.modules['rtlib'] = module
    importlib.machinery.SourceFileLoader('rtlib', path).exec_module(module)
    return module


def main():
    known = kit()
    for name in sorted(os.listdir(f'{TOP}/crates')):
        crate = known.Crate(f'{TOP}/crates/{name}', TOP, {})
        stamp = f'{TOP}/crates/{name}/out/rlib/stamp'
        if os.path.isdir(crate.rlib) and not os.path.exists(stamp):
            with open(stamp, 'w', encoding='utf-8') as file:
                file.write(crate.stamp())


if __name__ == '__main__':
    main()
