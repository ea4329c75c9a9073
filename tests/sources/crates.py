"""Reads the crates: their public functions, which function names which, the edits that touch them, and their definitions."""
import os
import re
from functions import TOP, code_of, items_of, listed, read, words_of

TYPE = re.compile(r'^pub (?:struct|enum|trait|type) (\w+)', re.M)
STRUCT = re.compile(r'^pub struct (\w+)[^{;]*\{(.*?)^\}', re.M | re.S)
FIELD = re.compile(r'^ +pub \w+: ([^,]*)', re.M)
USE = re.compile(r'^ *(?:pub )?use ([^;]*);', re.M)
EXPORTED = re.compile(r'^pub use (\w+)::(?:(\w+)|\{([^}]*)\});', re.M)
DEFINED = re.compile(r'^(?:pub (?:record|data)|\w+ pub) (\w+)', re.M)
GHOST_USE = re.compile(r'ghost use Rattle\.(\w+)\.specs\.([\w.]+?)(?:\.\{([^}]*)\}| as (\w+));')
TRIED = ('wrong',)  # the folders whose edits are tried, by tests/gate/wrong_bodies
EDIT = re.compile(r'^file: (.*)\nold: (.*)$', re.M)


def types_of_fields(crate, types):
    """Returns the structs that a caller reaches through the public fields of these types."""
    structs = {name: body for path in listed('crates', crate, 'src', '**', '*.rt') for name, body in STRUCT.findall(code_of(read(path)))}
    found, left = set(), list(types & structs.keys())
    while left:
        words = words_of(' '.join(FIELD.findall(structs[left.pop()])))
        further = (words & structs.keys()) - types - found
        found |= further
        left += further
    return found


def mark_public(crate, items, traits):
    """Decides which functions are reachable from outside the crate; in a program, the `pub fn`s of its modules are."""
    is_program = os.path.exists(os.path.join(TOP, 'crates', crate, 'src', 'main.rt'))
    root = code_of(read('crates', crate, 'src', 'main.rt' if is_program else 'lib.rt'))
    open_modules = {'lib', *re.findall(r'^pub mod (\w+);', root, re.M)}
    heads = [root, *(code_of(read('crates', crate, 'src', f'{name}.rt')) for name in open_modules - {'lib'})]
    names = {name.strip() for head in heads for found in EXPORTED.findall(head) for name in (found[1] or found[2]).split(',')}
    types = {*names, *(name for head in heads for name in TYPE.findall(head))}
    types |= types_of_fields(crate, types)
    for item in items:
        if item.trait:
            item.is_public = item.owner in types and item.trait in traits
        else:
            is_reached = item.owner in types if item.owner else item.module() in open_modules or item.name in names
            item.is_public |= item.is_pub and (is_program or is_reached)


def tested_in(file):
    """Returns the library that a file of a crate of tests is about: the file's name begins with its name."""
    names = [path.split('/')[1] for path in listed('crates', '*', 'src')]
    return max((name for name in names if os.path.basename(file).startswith(name + '_')), key=len, default='')


# The laws that say which numbers constants are.
LAWS_OF_NUMBERS = ('limits_law', 'numbers_law')


class Crate:
    """The contents of a crate's sources."""

    def __init__(self, name, traits):
        apart = [file for file in listed('crates', '*_tests', 'src', '*_*.rt') if tested_in(file) == name]
        files = listed('crates', name, 'src', '**', '*.rt') + apart
        code = {file: code_of(read(file)) for file in files}
        is_test = {file for file in files if file.endswith('tests.rt')} | set(apart)
        self.name = name
        self.items = [item for file in files if file not in is_test for item in items_of(name, file)]
        self.tests = {name for file in files for name in re.findall(r'#\[test\]\s+fn (\w+)', code[file])}
        self.imported = {file: words_of(' '.join(USE.findall(code[file]))) for file in files}
        self.words = {file: words_of(code[file]) for file in files}
        self.types = {}  # the words after a name's colon, or before the expression of its value
        for text in code.values():
            for declared in re.findall(r'\b(\w+): ([^,;(){}=]*)', text) + re.findall(r'\b(\w+)\)? = (\w+)(?:::| \{)', text):
                self.types.setdefault(declared[0], set()).update(words_of(declared[1]))
        mark_public(name, self.items, traits)
        self.public = [item for item in self.items if item.is_public]

    def calls(self, one, other):
        """Whether one function names another in its body, as far as a search by name finds it."""
        if other.trait:
            return one.owner != other.owner and other.owner in one.words
        if other.name not in one.words:
            return False
        places = re.findall(rf'(?:(\w+)(\??\.|::)|([.:]))?\b{other.name}\b(\(|::<)?', one.body)
        return any(self.is_call(one, other, *place) for place in places)

    def is_call(self, one, other, before, joint, lone_joint, opened):
        """Whether a name in a body is that of a function, by the word and the joint before it and the bracket after it."""
        if not other.owner and joint == '::':
            return before in (other.module(), 'crate', 'super')
        if not other.owner:
            is_near = one.file == other.file or other.name in self.imported[one.file]
            is_local = not opened and re.search(rf'let (?:mut )?{other.name}\b', one.body)
            return is_near and not (before or lone_joint or is_local)
        if joint == '::' or before == 'self':
            return before == other.owner or before in ('Self', 'self') and one.owner == other.owner
        is_bound = re.search(rf'\b(?:Ok|Err|Some)\((?:mut )?{before}\) =', one.body)
        known = None if is_bound else self.types.get(before)
        return bool(opened and (joint or lone_joint == '.')) and other.owner in (known or self.words[one.file])

    def callers(self, item, items, is_last):
        """Returns the items that are this one or call it, directly or through others, up to the first that is a last one."""
        seen, todo = {item}, [item]
        while todo:
            called = todo.pop()
            if not is_last(called):
                found = [other for other in items if other not in seen and self.calls(other, called)]
                seen.update(found)
                todo += found
        return [each for each in seen if is_last(each)]

    def edits(self):
        """Returns for each edit that is tried the public functions it touches: those that reach the function with its first text; for a constant, the
        law that states its number."""
        touched = {}
        paths = [path for folder in TRIED for path in listed('crates', self.name, folder, '*.edit')]
        for path in sorted(paths, key=os.path.basename):
            file, old = EDIT.search(read(path)).groups()
            at = read('crates', self.name, file).find(old) + len(old) - len(old.lstrip())
            items = [item for item in self.items if item.file == f'crates/{self.name}/{file}' and at in item.place]
            if re.match(r'(pub )?const ', old.strip()):
                items = [item for item in self.items if item.name in LAWS_OF_NUMBERS]
            touched[os.path.basename(path)[:-5]] = {
                each for item in items for each in self.callers(item, self.items, lambda reached: reached.is_public)}
        return touched


def read_crates():
    """Returns every crate, in the order in which docs/architecture.md names their READMEs; the others come last."""
    names = [path.split('/')[1] for path in listed('crates', '*', 'src')]
    layers = re.findall(r'\]\(\.\./crates/(\w+)/README\.md\)', read('docs', 'architecture.md'))
    traits = {name for path in listed('crates', '*', 'src', '**', '*.rt') for name in re.findall(r'^pub trait (\w+)', read(path), re.M)}
    ordered = [name for name in layers if name in names] + [name for name in names if name not in layers]
    crates = {name: Crate(name, traits) for name in ordered}
    items = [item for crate in crates.values() for item in crate.items]
    declared = {(item.owner, item.name): item for item in items if item.owner in traits}
    for item in items:
        item.declared = declared.get((item.trait, item.name))
        item.about = item.about or item.declared and item.declared.about or ''
    return crates


def meanings_in(file):
    """Returns the meaning of the ghost names of a source file: crate, spec file, and name there or '' for the whole file."""
    found = {}
    for crate, module, names, alias in GHOST_USE.findall(read(file)):
        if alias:
            found[alias] = (crate, module.replace('.', '/'), '')
        for name in filter(None, map(str.strip, names.split(','))):
            found[name.split()[-1]] = (crate, module.replace('.', '/'), name.split()[0])
    return found


class Definitions:
    """The definitions of the crates' specs, and which of them the clauses of a function name."""

    def __init__(self):
        self.names = {path: set(DEFINED.findall(read(path))) for path in listed('crates', '*', 'specs', '**', '*.antt')}
        self.all = set().union(*self.names.values())
        self.of_files = {}  # those of all spec files of one name
        for path, names in self.names.items():
            self.of_files.setdefault(os.path.basename(path)[:-5], set()).update(names)
        self.meanings = {}

    def named_by(self, item):
        """Returns spec file and name of each, in the order of the clauses."""
        if item.file not in self.meanings:
            self.meanings[item.file] = meanings_in(item.file)
        named = {}
        for _, _, text in item.clauses:
            for head, tail in re.findall(r'(?<![\w.])(\w+)(?:\.(\w+))?', text):
                crate, module, name = self.meanings[item.file].get(head, ('', '', ''))
                path = f'crates/{crate}/specs/{module}.antt'
                if (name or tail) in self.names.get(path, ()):
                    named[path, name or tail] = None
        return list(named)
