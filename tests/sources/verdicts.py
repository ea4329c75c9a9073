"""Keeps the verdicts on wrong bodies and weakened promises: on this machine, and in the repository in tests/gate/verdicts/.

A verdict is kept under a checksum of everything that it depends on, for each edit of its own. A check of an edit reads the copy of its crate that
tests/sources/trying.py makes, the libraries below, and the toolchain. In that copy every other function has a body without an end, and a hole as
its proof. So the checksum has

- the copy without any edit: signatures, clauses, attributes, types, constants, definitions and lemmas; of a function that calls itself, and of a
  file with macros, also the bodies, since the copy has them;
- of the edited function attributes, signature, clauses, body and proof files, and the text of the edit;
- of the libraries below, sources without bodies, definitions and lemmas (a body only if it is a `const fn`, a macro's or one whose type is hidden);
- the crates that each is built from, the toolchain's version, and the code of the scripts that make the copy and judge, without comments.

It does not have the other bodies of the crate nor their proof files: they are not in the copy. Comments and empty lines of sources and definitions
are left out.
"""
import contextlib
import fcntl
import io
import hashlib
import json
import os
import re
import subprocess
import tempfile
import tokenize

from functions import HIDDEN, TOP, code_of, items_of, listed, read
from trying import FOLDER, PARTS, attributes_above, functions_of, read_in, write_room

FORM = 2  # the form of the checksums, and of a file of verdicts
# The scripts that make the copy of a crate and judge what a check says of it.
SCRIPTS = ('tests/sources/attempts.py', 'tests/sources/functions.py', 'tests/sources/trying.py')
# Files that only the check of their own function reads. Any other file of proofs/ may have a lemma that a crate above cites.
OWN_PROOFS = ('Answers.antt', 'Invariants.antt', 'Proof.antt')
STATES = 20  # verdicts kept on this machine for each edit, on the mean
RECORD = 'tests/gate/verdicts'
WHOLE = f'{RECORD}/anew.txt'  # what the last run said that tried all
COMMENT = re.compile(rf'^[ \t]*//[^\n]*\n|[ \t]*//[^\n]*|(?:{HIDDEN.pattern})', re.M | re.S)
REMARK = re.compile(r'^[ \t]*--(?: [^\n]*)?\n', re.M)  # (a comment of a definition or a proof has lines of its own)
# The functions whose bodies a crate above can read.
SHOWN = re.compile(r'\bconst\s+(?:unsafe\s+)?fn\b|->\s*impl\b')


def digest(*parts):
    return hashlib.sha256(repr(parts).encode()).hexdigest()


def plain(path, text):
    """Returns a text without its comments, and without empty lines."""
    if path.endswith('.rt'):
        text = COMMENT.sub(lambda found: '' if found[0].lstrip().startswith('//') else found[0], text)
    elif path.endswith('.antt'):
        text = REMARK.sub('', text)
    return text if '"' in text else re.sub(r'\n\s*\n', '\n', text)


def code_in(path):
    """Returns a script without its comments, texts about functions and empty lines, up to the class that only chooses, counts and prints."""
    text = read(path).split('\nclass Run:')[0] + '\n'
    lines, before = [list(line) for line in text.split('\n')], tokenize.NEWLINE
    marks = [it for it in tokenize.generate_tokens(io.StringIO(text).readline) if it.type != tokenize.NL]
    for at, it in enumerate(marks):
        starts = before in (tokenize.NEWLINE, tokenize.INDENT, tokenize.DEDENT)
        is_alone = starts and it.type == tokenize.STRING and marks[at + 1].type == tokenize.NEWLINE
        if it.type == tokenize.COMMENT or is_alone:
            for number in range(it.start[0], it.end[0] + 1):
                first = it.start[1] if number == it.start[0] else 0
                last = it.end[1] if number == it.end[0] else len(lines[number - 1])
                lines[number - 1][first:last] = ' ' * (last - first)
        before = before if it.type == tokenize.COMMENT else it.type
    return [line for line in (''.join(it).rstrip() for it in lines) if line]


def texts_of(crate, *folders):
    """Returns each file of a crate in these folders, with its text."""
    return [(path, read(path)) for folder in folders for path in listed('crates', crate, folder, '**', '*') if os.path.isfile(f'{TOP}/{path}')]


def without_bodies(crate, path, text):
    """Returns the text of a source file without the bodies of its functions: the part that a crate above can read. A file with macros stays whole."""
    if 'macro_rules!' in code_of(text):
        return text
    shown, at = '', 0
    for item in sorted(items_of(crate, path), key=lambda it: it.place.start):
        if item.line and item.place.start >= at and not SHOWN.search(text[text.rfind('\n', 0, item.place.start) + 1:item.place.stop - len(item.body)]):
            shown, at = shown + text[at:item.place.stop - len(item.body)], item.place.stop
    return shown + text[at:]


def statements_of(crate):
    """Returns a checksum of the parts of a crate that a check above reads: sources without bodies, definitions, and lemmas."""
    sources = [(path, plain(path, without_bodies(crate, path, text))) for path, text in texts_of(crate, 'src')]
    others = [(path, plain(path, text)) for path, text in texts_of(crate, 'specs', 'proofs') if os.path.basename(path) not in OWN_PROOFS]
    return digest(sources, others)


def place_of(kit):
    """Returns the folder of the verdicts: next to the store of `rt`, otherwise in the user's cache; None if neither can be written."""
    own = os.environ.get('XDG_CACHE_HOME') or os.path.expanduser('~/.cache')
    places = [f'{os.path.dirname(kit)}/rattle-kept/wrong_bodies', f'{own}/rattle-kept/wrong_bodies']
    for place in [os.environ['WRONG_BODIES_KEPT']] if 'WRONG_BODIES_KEPT' in os.environ else places:
        with contextlib.suppress(OSError):
            os.makedirs(place, 0o700, exist_ok=True)
            with tempfile.TemporaryFile(dir=place):
                return place
    return None


def version():
    """Returns the version of the toolchain."""
    return subprocess.run(['rt', 'version'], capture_output=True, text=True).stdout.strip()


class Damaged(Exception):
    """A damaged file of verdicts."""


def commits():
    """Returns the number of commits; 0 outside a clone."""
    ran = subprocess.run(['git', 'rev-list', '--count', 'HEAD'], cwd=TOP, capture_output=True, text=True)
    return int(ran.stdout) if ran.returncode == 0 else 0


class Sums:
    """The checksums of what verdicts depend on, of the files as they are when it is asked."""

    def __init__(self, kit, *scripts):
        self.common = digest(FORM, version(), read(f'{kit}/WHAT'), [code_in(path) for path in (*SCRIPTS, *scripts)])
        self.statements, self.copies, self.libraries = {}, {}, {}

    def below(self, crate):
        """Returns what a check reads of the libraries below a crate, and from which it is built."""
        if crate.name not in self.libraries:
            found = []
            for low in crate.below():
                if low.name not in self.statements:
                    self.statements[low.name] = statements_of(low.name)
                found.append((low.name, low.said, list(low.of_kit), self.statements[low.name]))
            self.libraries[crate.name] = digest(crate.name, crate.said, [it.name for it in crate.deps], list(crate.of_kit), found)
        return self.libraries[crate.name]

    def copy(self, crate):
        """Returns what the checks of all edits of a crate read of it: the copy that is made of it, without any edit."""
        if crate.name not in self.copies:
            with tempfile.TemporaryDirectory(prefix='wrong-bodies-') as room:
                write_room(room, crate, functions_of(crate.name), [])
                paths = sorted(os.path.relpath(f'{folder}/{name}', room) for folder, _, names in os.walk(room) for name in names)
                self.copies[crate.name] = digest([(path, plain(path, read_in(room, path))) for path in paths])
        return self.copies[crate.name]

    def of_edit(self, crate, edit):
        """Returns the checksum of what a verdict on an edit depends on."""
        function, text = edit.function, read(edit.function.item.file)
        proofs = [(path, plain(path, read(path))) for path in listed('crates', crate.name, function.proofs, '**', '*') if os.path.isfile(f'{TOP}/{path}')]
        own = plain('own.rt', text[function.item.place.start:function.item.place.stop])
        return digest(self.common, self.below(crate), self.copy(crate), FOLDER, edit.name, read(edit.path), function.file, function.steps,
                      attributes_above(text, function.item.place.start), own, proofs)[:32]

    def of_laws(self, crate, laws, *parts):
        """Returns the checksum of what a verdict on laws of a crate with changed definitions depends on: of other functions not the bodies and own proofs."""
        sources = [(path, plain(path, without_bodies(crate.name, path, text))) for path, text in texts_of(crate.name, 'src')]
        own = tuple(f'/proofs/law/{law}/' for law in laws)
        others = [(path, plain(path, text)) for path, text in texts_of(crate.name, *PARTS[1:])
                  if os.path.basename(path) not in OWN_PROOFS or any(folder in path for folder in own)]
        bodies = [(it.file, it.name, plain(it.file, it.body)) for path in listed('crates', crate.name, 'src', '**', '*.rt')
                  for it in items_of(crate.name, path) if it.line and it.name in laws]
        return digest(self.common, self.below(crate), sources, others, bodies, *parts)[:32]


class Verdicts:
    """The verdicts of earlier runs of a test: those of this machine, and those of the repository."""

    def __init__(self, kit):
        self.place = place_of(kit)

    def path(self, name):
        return f'{self.place}/{name}.of-edits.json'

    def of_machine(self, name):
        """Returns the verdicts that this machine keeps, by checksum: the edit, the verdict and why."""
        if self.place is None or not os.path.lexists(self.path(name)):
            return {}
        try:
            with open(self.path(name), encoding='utf-8') as file:
                found = json.load(file)
            verdicts = found['verdicts']
            if found['form'] != FORM or not all(len(it) == 3 and all(isinstance(word, str) for word in it) for it in verdicts.values()):
                raise ValueError('it is not of this form')
            return verdicts
        except (OSError, ValueError, KeyError, TypeError, AttributeError) as error:
            raise Damaged(f'{self.path(name)}: {error}') from error

    def keep(self, name, verdicts, wrong=()):
        """Adds verdicts by checksum to those of this machine, in one step, and removes those under wrong checksums; if they are too many, it leaves out
        those that were added or used first."""
        if self.place is None:
            return
        try:
            with open(f'{self.place}/lock', 'w', encoding='utf-8') as lock:
                fcntl.flock(lock, fcntl.LOCK_EX)
                try:
                    kept = self.of_machine(name)
                except Damaged:
                    kept = {}
                every = {**{sum: it for sum, it in kept.items() if sum not in verdicts and sum not in wrong}, **verdicts}
                most = STATES * max(1, len({edit for edit, _, _ in every.values()}))
                with tempfile.NamedTemporaryFile('w', dir=self.place, prefix='new-', delete=False, encoding='utf-8') as file:
                    json.dump({'form': FORM, 'verdicts': dict(list(every.items())[-most:])}, file, indent=0)
                os.replace(file.name, self.path(name))
        except OSError as error:
            print(f'{name}: its verdicts could not be kept: {error}', flush=True)


def record_of(name):
    """Returns the repository's verdicts on a crate's edits, by name: the checksum, and why a refusal is weak. All of them are refusals."""
    path = f'{TOP}/{RECORD}/{name}.json'
    if not os.path.lexists(path):
        return {}
    try:
        with open(path, encoding='utf-8') as file:
            found = json.load(file)
        return {edit: (sum, why) for edit, (sum, _, why) in ((edit, said.partition(' ')) for edit, said in found.items())}
    except (OSError, ValueError, AttributeError) as error:
        raise Damaged(f'{RECORD}/{name}.json: {error}') from error


def write_record(name, verdicts):
    """Writes the repository's verdicts on a crate's edits, a line for each: its checksum and, of a weak one, why."""
    path = f'{TOP}/{RECORD}/{name}.json'
    if not verdicts:
        with contextlib.suppress(FileNotFoundError):
            os.remove(path)
        return
    os.makedirs(os.path.dirname(path), exist_ok=True)
    with open(path, 'w', encoding='utf-8') as file:
        json.dump({edit: f'{sum} {why}'.rstrip() for edit, (sum, why) in sorted(verdicts.items())}, file, indent=0, ensure_ascii=False)
        file.write('\n')


def write_whole(test, said):
    """Notes for which commit a test has tried all, and what it said."""
    head = subprocess.run(['git', 'rev-parse', 'HEAD'], cwd=TOP, capture_output=True, text=True).stdout.strip()
    changed = subprocess.run(['git', 'status', '--porcelain', '--', '.', f':!{RECORD}'], cwd=TOP, capture_output=True, text=True).stdout
    now = subprocess.run(['date', '-u', '+%Y-%m-%d %H:%M UTC'], capture_output=True, text=True).stdout.strip()
    lines = read(WHOLE).splitlines() if os.path.isfile(f'{TOP}/{WHOLE}') else []
    lines = [line for line in lines if not line.startswith(f'{test}: ')]
    lines.append(f'{test}: {said}, at commit {head}{" (changed)" if changed else ""}, {now}, {version()}')
    os.makedirs(f'{TOP}/{RECORD}', exist_ok=True)
    with open(f'{TOP}/{WHOLE}', 'w', encoding='utf-8') as file:
        file.write('\n'.join(sorted(lines)) + '\n')
