"""Reads the functions of a source file: the type or trait of each, its clauses and its body."""
import os
import re
from dataclasses import dataclass
from glob import glob

TOP = os.path.dirname(os.path.dirname(os.path.dirname(os.path.abspath(__file__))))
HIDDEN = re.compile(r"//[^\n]*|\"(?:\\.|[^\"\\])*\"|'(?:\\[^']+|[^\\'])'", re.S)
BLOCK = re.compile(r'^(?:pub )?(impl|trait)\b([^{;]*)\{', re.M)
FUNCTION = re.compile(r'^ *(pub )?(?:pub\(\w+\) )?(extern +)?fn (\w+)', re.M)
CONSTANT = re.compile(r'^(?:pub(?:\(\w+\))? )?(?:const|static) (\w+)[^=]*=([^;]*);', re.M)
CLAUSE = re.compile(r'\b(ensures|requires)\*?\s+(\w*)\s*$')
BRACKET = re.compile(r'[(){}\[\]]')
OPENING = re.compile(r'[({\[;]')


@dataclass(eq=False)
class Item:
    """A function, or a constant that functions name."""
    crate: str
    file: str
    place: range  # in the file's text
    line: int
    name: str
    body: str
    words: frozenset  # of signature, clauses and body
    owner: str = ''  # its type or trait
    trait: str = ''  # the trait that it implements or belongs to
    block: str = ''  # the `impl` or `trait` around it, as a check names it
    about: str = ''  # the first sentence of its comment
    clauses: tuple = ()  # kind, name and text of each
    sentences: tuple = ()  # the comment above each clause
    is_pub: bool = False
    is_public: bool = False  # reached from outside the crate
    declared: 'Item' = None  # the function of a trait of the crates that it is or implements

    def full(self):
        return f'{self.owner}::{self.name}' if self.owner else self.name

    def key(self):
        return f'{self.crate}: {self.full()}'

    def module(self):
        return os.path.basename(self.file)[:-3]

    def modules(self):
        """Returns the modules on the way to it, `lib` for the crate's root."""
        return self.file[:-3].split('/')[3:]

    def has_contract(self):
        return any(kind == 'ensures' for item in (self, self.declared) if item for kind, _, _ in item.clauses)


def read(*path):
    with open(os.path.join(TOP, *path), encoding='utf-8') as file:
        return file.read()


def listed(*pattern):
    return sorted(os.path.relpath(path, TOP) for path in glob(os.path.join(TOP, *pattern), recursive=True))


def has_edits(crate):
    """Whether a crate must have edits. Crates of tests have none, nor have the users of promises and the program, which is only `main`."""
    return not crate.endswith('_tests') and crate not in ('promise_users', 'rasta_cli')


def words_of(text):
    return frozenset(re.findall(r'\w+', text))


def code_of(text):
    """Returns the text with its comments and strings blanked."""
    return HIDDEN.sub(lambda found: re.sub(r'[^\n]', ' ', found.group()), text)


def closing(code, at):
    """Returns the place after the bracket that closes the one at a place."""
    depth = 0
    for found in BRACKET.finditer(code, at):
        depth += 1 if found.group() in '({[' else -1
        if depth == 0:
            return found.end()
    raise SystemExit('a bracket is not closed: ' + code[at:at + 60])


def behind_name(code, at):
    """Returns the clauses after a function's name with their places, where its body begins, and where it ends."""
    clauses, places = [], []
    while True:
        found = OPENING.search(code, at)
        if found.group() == ';':
            return tuple(clauses), places, found.start(), found.end()
        end = closing(code, found.start())
        if found.group() == '{':
            clause = CLAUSE.search(code, at, found.start())
            if not clause:
                return tuple(clauses), places, found.start(), end
            clauses.append((*clause.groups(), code[found.start():end]))
            places.append(clause.start())
        at = end


def words_above(text, at):
    """Returns the comment in the lines directly above a place."""
    lines = []
    for line in reversed(text[:at].split('\n')[:-1]):
        if not line.strip().startswith('// '):
            break
        lines.insert(0, line.strip()[3:])
    return ' '.join(lines)


def first_sentence(text):
    """Yields the lines of the comment at the end of a text, without attributes after it."""
    lines = []
    for line in reversed(text.splitlines()):
        if line.strip().startswith('///'):
            lines.insert(0, line.strip()[3:].strip())
        elif not line.strip().startswith('#['):
            break
    return re.split(r'(?<=[.;:])\s', ' '.join(lines))[0].rstrip('.;:')


def arguments_of(text):
    """Returns the text in the angle brackets at the start of a text, and the rest."""
    depth = 0
    for at, letter in enumerate(text):
        depth += {'<': 1, '>': -1}.get(letter, 0)
        if depth == 0:
            return text[1:at], text[at + 1:]
    return '', text


def parameters_of(text):
    """Returns the names of an `impl`'s parameters, without lifetimes."""
    flat, before = text, None
    while before != flat:
        before, flat = flat, re.sub(r'<[^<>]*>', '', flat)
    return {re.sub(r'^const +', '', part.strip()).split(':')[0].strip() for part in flat.split(',')}


def words_in(arguments):
    """Returns the types that arguments name, each by its last word, including those inside others."""
    return [word.split('::')[-1] for word in re.findall(r"(?<!['\w])\w+(?:::\w+)*", arguments)]


def block_name(head, owner, trait):
    """Returns the name of an `impl` in a check: its type and trait and, if it is not for all types, those that it is for:
    `Actor+UdpChannels+A` for `impl<A> Actor<'_, UdpChannels, A>`, `TextsU16Taker` for `impl<A> Taker for Texts<u16, A>`."""
    generics, rest = arguments_of(head.strip()) if head.strip().startswith('<') else ('', head)
    parameters, named = parameters_of(generics), {}
    for found in re.finditer(r'(\w+) *(?=<)', rest):
        named.setdefault(found[1], words_in(arguments_of(rest[found.end():])[0]))
    of_type, of_trait = named.get(owner, []), named.get(trait, [])
    if trait:
        rest = [''.join(word[:1].upper() + word[1:] for word in words if word not in parameters) for words in (of_type, of_trait)]
        return owner + rest[0] + trait + rest[1]
    return '+'.join([owner, *of_type]) if set(of_type) - parameters else owner


def blocks_of(code):
    """Returns where each `impl` and `trait` begins and ends, its type, its trait, and its name in a check."""
    for found in BLOCK.finditer(code):
        before, head = None, found.group(2)
        while before != head:
            before, head = head, re.sub(r'<[^<>]*>', '', head)
        names = [name.split('::')[-1] for name in re.findall(r'[\w:]*\w', head)]
        is_implemented = 'for' in names
        owner = names[names.index('for') + 1] if is_implemented else names[0]
        trait = names[0] if is_implemented or found.group(1) == 'trait' else ''
        name = block_name(found.group(2), owner, trait) if found.group(1) == 'impl' else owner + trait
        yield range(found.start(), closing(code, found.end() - 1)), owner, trait, name


def items_of(crate, file):
    """Returns the functions of a file, and its constants."""
    text = read(file)
    code = code_of(text)
    blocks = list(blocks_of(code))
    items = []
    for found in FUNCTION.finditer(code):
        start = found.start()
        clauses, places, body, end = behind_name(code, found.end())
        owner, trait, block = next((names for place, *names in blocks if start in place), ('', '', ''))
        is_pub, is_extern = map(bool, found.groups()[:2])
        items.append(Item(crate, file, range(start, end), code.count('\n', 0, start) + 1, found.group(3), code[body:end],
                          words_of(code[start:end]), owner, trait, block, first_sentence(text[:start]), clauses,
                          tuple(words_above(text, place) for place in places), is_pub, is_pub and is_extern))
    for found in CONSTANT.finditer(code):
        items.append(Item(crate, file, range(*found.span()), 0, found.group(1), found.group(2), words_of(found.group(2))))
    return items
