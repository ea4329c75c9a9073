"""Finds the names of functions, clauses, definitions, cases and files in README.md, docs/ and the pages of crates that do not exist."""
import os
import re
from fnmatch import fnmatch
from functions import TOP, code_of, listed, read

FORM = re.compile(r'((?:`[\w:]+`(?:,| and)?\s+)*`[\w:]+`):\s+((?:`\w+`(?:,\s+)?)+)')
FUNCTION = re.compile(r'`(\w+::\w+)(?:\([^`]*\))?`|`(\w+)\([^`]*\)`')
DEFINITION = re.compile(r'`([A-Z]\w*)\.(\w+)`')
OWNED = re.compile(r'((?:`\w+`(?:,| and|, and)?\s+)*`\w+`)\s+of\s+(?:the\s+)?`(\w+)`')
FILE = re.compile(r'(?:[\w.*-]+/)*[\w.*-]+\.(?:rt|antt|edit|py|sim|toml|lua|c|h)')
CITED = re.compile(r'(?:\*Rules\*:|\brules?)\s+((?:[A-Z]\d+(?:,?\s+|\s+to\s+|\s+and\s+)?)+)')
RULE, RULES = re.compile(r'\b[ACDEFLMNORSTUX]\d{1,2}\b'), 'docs/protocol.md'
STANDS_FOR_ANY = re.compile(r'\b[A-Z]{3,}(?=_|\b)|\.\.\.')  # as in crates/NAME/specs/FILE.antt


def files():
    """Returns the paths of all files but those that are made: the folders out/, and what git keeps."""
    found = []
    for folder, folders, names in os.walk(TOP):
        folders[:] = [name for name in folders if name != 'out' and not name.startswith('.git')]
        found += [os.path.relpath(os.path.join(folder, name), TOP) for name in names]
    return found


class Documents:
    """The names in README.md, docs/ and the pages of crates, and those that do not exist."""

    def __init__(self, crates, definitions):
        self.crates = crates
        self.definitions = definitions
        self.items = [item for crate in crates.values() for item in crate.items]
        self.files = files()
        self.codes = [code_of(read(path)) for path in listed('crates', '*', 'src', '**', '*.rt')]
        self.cases = {test for crate in crates.values() for test in crate.tests}
        for path in listed('crates', '*', 'proofs', '**', '*.antt'):
            self.cases.update(re.findall(r'^([\w-]+) :', read(path), re.M))
        self.cases.update(os.path.basename(path)[:-4] for path in listed('tests', 'scripts', '*.sim') + listed('examples', '*.sim'))
        for path in listed('tests', 'model', '*.py'):
            self.cases.update(re.findall(r"'(\w+)'", read(path)))
        self.types = {(step, name) for crate in crates for path in listed('crates', crate, 'src', '**', '*.rt')
                      for name in re.findall(r'\b(?:struct|enum|trait|type) (\w+)', read(path)) for step in (crate, *path[:-3].split('/')[3:])}

    def problems(self):
        for path in ['README.md', *listed('docs', '*.md'), *listed('crates', '*', 'README.md')]:
            for at, problem in [*self.of_forms(read(path)), *self.of_names(read(path)), *self.of_owners(read(path)), *self.of_files(path)]:
                yield f'{path}:{at}: {problem}'
            yield from self.of_columns(path)
        yield from self.of_rules()

    def rules_given(self):
        """Returns the number of each rule in docs/protocol.md."""
        return re.findall(r'^(?:\| )?([A-Z]\d+)(?: \||: | \(\*)', read(RULES), re.M)

    def of_rules(self):
        """Checks the numbers of rules: each is given once in docs/protocol.md, and those that it or a page cites (`rule M7`) are given there."""
        text, given = read(RULES), self.rules_given()
        yield from (f'{RULES}: rule {number} is given twice' for number in sorted(set(given)) if given.count(number) > 1)
        cited = [(RULES, number) for number in RULE.findall(re.sub('`[^`]*`', '', text))]
        for path in ['README.md', *listed('docs', '*.md'), *listed('crates', '*', 'README.md')]:
            cited += [(path, number) for found in CITED.findall(read(path)) for number in re.findall(r'[A-Z]\d+', found)]
        yield from (f'{path}: rule {number} is not in {RULES}' for path, number in dict.fromkeys(cited) if number not in given)

    def items_named(self, name, items, owner=''):
        """Returns the functions that a name may mean, all those of a type or trait; empty if nothing has the name."""
        head, _, last = name.rpartition('::')
        found = [item for item in items if item.name == last and head in ('', item.owner, *item.modules(), item.crate)]
        near = [item for item in found if owner and not head and item.owner == owner]
        return near or found or [item for item in items if item.owner == name]

    def has_clause(self, items, clause):
        return any(clause in [name for _, name, _ in item.clauses] + [name for _, name in self.definitions.named_by(item)]
                   for item in items)

    def of_forms(self, text):
        """Checks functions with their clauses, in tables and, if the left is a function, in running text."""
        for found in FORM.finditer(text):
            number = text.count('\n', 0, found.start()) + 1
            names = re.findall(r'[\w:]+', found.group(1).replace(' and', ''))
            items = [item for name in names for item in self.items_named(name, self.items)]
            if not items and names[-1] not in self.crates and text[text.rfind('\n', 0, found.start()) + 1] == '|':
                yield number, f'`{names[-1]}` is not a function'
            for clause in re.findall(r'\w+', found.group(2)) if items else ():
                if not self.has_clause(items, clause):
                    yield number, f'`{clause}` is not a clause of {", ".join(names)}'

    def of_names(self, text):
        """Checks functions with their types or brackets, and definitions with their files."""
        for number, line in enumerate(text.splitlines(), 1):
            for names in FUNCTION.findall(line):
                if not self.is_type(*names) and not self.items_named(''.join(names), self.items):
                    yield number, f'`{"".join(names)}` is not a function'
            for file, name in DEFINITION.findall(line):
                if name != 'antt' and name not in self.definitions.of_files.get(file, {name}):
                    yield number, f'`{file}.{name}` is not a definition'

    def of_owners(self, text):
        """Checks names that a page says are of a crate, type, trait or function."""
        for found in OWNED.finditer(text):
            for name in re.findall(r'`(\w+)`', found[1]):
                if not self.is_of(name, found[2]):
                    yield text.count('\n', 0, found.start()) + 1, f'`{name}` is not of `{found[2]}`'

    def is_of(self, name, owner):
        """Whether the owner, or the file that declares it, has the name. An owner that nothing declares has any name."""
        if owner in self.crates:
            return (owner, name) in self.types or bool(self.items_named(f'{owner}::{name}', self.items) or listed('crates', owner, 'specs', '**', f'{name}.antt'))
        declares = re.compile(rf'\b(?:struct|enum|trait|type|fn) {owner}\b')
        codes = [code for code in self.codes if declares.search(code)]
        return not codes or any(re.search(rf'\b{name}\b', code) for code in codes)

    def of_files(self, path):
        """Checks files: a name that begins with `src/` is in the crate that is named last before it."""
        crate = path.split('/')[1] if path.startswith('crates/') else '*'
        for number, line in enumerate(read(path).splitlines(), 1):
            for name in re.findall(r'`([^`\s]+)`', line):
                crate = next((one for one in (name, name.removeprefix('crates/').split('/')[0]) if one in self.crates), crate)
                if FILE.fullmatch(name):
                    wanted = f'crates/{crate}/{name}' if name.startswith('src/') else name
                    pattern = STANDS_FOR_ANY.sub('*', wanted)
                    if not any(fnmatch(file, pattern) or fnmatch(file, f'*/{pattern}') for file in self.files):
                        yield number, f'`{wanted}` is not a file'

    def is_type(self, name, called):
        """Whether a name is that of a type with its crate; a form with the word `crate` instead of a crate is neither."""
        crate, _, last = name.partition('::')
        return crate == 'crate' or (crate, last) in self.types

    def of_columns(self, path):
        """Checks the columns "Clause" and "Case" of a document."""
        header, items = [], []
        for number, line in enumerate(read(path).splitlines(), 1):
            row = [cell.strip() for cell in line.split('|')[1:-1]]
            header = (header or row) if row else []
            for name in re.findall(r'`(\w+)\(\)`', line):
                items = self.items_named(name, self.items)
            for title, cell in zip(header, row):
                for name in re.findall(r'`([\w-]+)`', cell):
                    if title == 'Clause' and not self.has_clause(items, name):
                        yield f'{path}:{number}: `{name}` is not a clause of {items[0].full() if items else "a function"}'
                    if title == 'Case' and name not in self.cases:
                        yield f'{path}:{number}: `{name}` is not a test, lemma or change'
