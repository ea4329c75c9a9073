"""Puts the proved users of a crate's promises (crates/promise_users) into a copy of the crate: there a promise can be weakened, though no crate above is built.

A user reads of the crate only its contracts, definitions and lemmas. So in the copy each function of the crate itself has a body without an end, and a
hole as its proof, as in the copies of tests/sources/trying.py.
"""
import os
import re

from functions import TOP, listed, read
from trying import functions_of, read_in, write_in, write_room

USERS = 'promise_users'
FOLDER = f'crates/{USERS}'


def modules_of():
    """Returns for each crate whose promises have users the modules that these are in: those whose bodies call the crate."""
    found = {}
    for path in listed(FOLDER, 'src', '*.rt'):
        module, text = os.path.basename(path)[:-3], read(path)
        if module == 'lib':
            continue
        uses = {word for word in re.findall(r'^use (\w+)::|^ +(\w+)::\w+_law\(\);', text, re.M) for word in word if word}
        crates = [name for name in ('stack_engine', 'stack_end', 'safe_machine', 'pdi_session', 'red_layer') if name in uses]
        if crates:
            found.setdefault(crates[0], []).append(module)
    return found


def functions_in(module):
    return re.findall(r'^pub fn (\w+)', read(f'{FOLDER}/src/{module}.rt'), re.M)


def needed(texts):
    """Returns the files of definitions and lemmas that these texts name, and those that they name in turn."""
    seen, left = set(), list(texts)
    while left:
        for part, name in re.findall(rf'Rattle\.{USERS}\.(specs|proofs)\.(\w+)\b', left.pop()):
            path = f'{part}/{name}.antt'
            if path not in seen and os.path.isfile(f'{TOP}/{FOLDER}/{path}'):
                seen.add(path)
                left.append(read(f'{FOLDER}/{path}'))
    return seen


def texts_of(crate):
    """Returns the files of the users of a crate, by path: each module, the answers of its functions, and what they name."""
    texts = {}
    for module in modules_of().get(crate, []):
        paths = [f'src/{module}.rt', *(f'proofs/{module}/{name}/Answers.antt' for name in functions_in(module))]
        texts |= {path: read(f'{FOLDER}/{path}') for path in paths if os.path.isfile(f'{TOP}/{FOLDER}/{path}')}
    return texts | {path: read(f'{FOLDER}/{path}') for path in needed(texts.values())}


def moved(crate, path, text):
    """Returns a file of the users as a file of the crate: module M is `user_of_M`."""
    text = re.sub(rf'Rattle\.{USERS}\.proofs\.(\w+)\.(\w+\.Goals)', rf'Rattle.{crate}.proofs.user_of_\1.\2', text)
    text = text.replace(f'Rattle.{USERS}', f'Rattle.{crate}')
    if path.endswith('.rt'):
        text = re.sub(rf'\b{crate}::(\w+_law)\b', r'crate::law::\1', text)
        text = re.sub(rf'(^use |[ (]){crate}::', r'\1crate::', text, flags=re.M)
    return re.sub(r'^(src|proofs)/([a-z]\w*)(/|\.rt)', r'\1/user_of_\2\3', path), text


def write_users(room, crate, texts):
    """Adds users to a copy of the crate. Returns the paths by which a check names them."""
    for path, text in texts.items():
        write_in(room, *moved(crate, path, text))
    for part in ('specs', 'proofs'):
        own = read_in(room, f'{part}/Lib.antt')
        names = [os.path.basename(path)[:-5] for path in texts if re.fullmatch(rf'{part}/\w+\.antt', path)]
        write_in(room, f'{part}/Lib.antt', own.rstrip('\n') + ''.join(f'\npub mod {name}' for name in names if f'mod {name}\n' not in own) + '\n')
    modules = [re.fullmatch(r'src/(\w+)\.rt', path)[1] for path in texts if path.startswith('src/')]
    own = read_in(room, 'src/lib.rt')
    write_in(room, 'src/lib.rt', re.sub(r'^(?:pub )?mod ', lambda found: ''.join(f'mod user_of_{it};\n' for it in modules) + found[0], own, count=1, flags=re.M))
    return [f'user_of_{module}::{name}' for module in modules for name in functions_in(module)]


def write_copy(room, crate):
    """Writes a copy of the crate with the users of its promises. Returns the paths by which a check names them."""
    write_room(room, crate, functions_of(crate.name), [])
    return write_users(room, crate.name, texts_of(crate.name))
