"""Attempts to prove one goal of a function, as a check makes them under `#[tactic(auto)]`, in a function whose other goals `#[tactic(none)]` leaves out."""
import re

from functions import BLOCK, arguments_of, blocks_of, code_of

TACTIC = re.compile(r'[ \t]*#\[tactic\(((?:[^()]|\([^()]*\))*)\)\]\n?')
COMMON, GRIND = 'Rattle.std.proofs.Common', 'Rattle.std.proofs.lemmas.Grind'
ANSWER = re.compile(r'^pub (\S+) : goal\.', re.M)
# The messages of a tactic that found no proof: any other error says nothing about the goal.
GAVE_UP = ('`search`', '`grind`', '`omega`')


def without_tactics(attributes, margin):
    """Returns a function's attributes with `#[tactic(none)]` in place of its own tactics."""
    return TACTIC.sub('', attributes) + f'{margin}#[tactic(none)]\n'


def names_in(crate, attributes, word):
    """Returns the module and the name of each lemma of `using`, or of each definition of `unfolding`, as proof files write them."""
    found = re.search(rf'\b{word}\(([^()]*)\)', ''.join(TACTIC.findall(attributes)))
    paths = [path.strip().split('::') for path in found[1].split(',')] if found else []
    return [('.'.join(['Rattle', crate if path[0] == 'crate' else path[0], *path[1:-1]]), path[-1]) for path in paths]


def has_types(text):
    """Returns whether a text begins with parameters that are not all lifetimes."""
    arguments = arguments_of(text.strip())[0] if text.strip().startswith('<') else ''
    return any(not part.strip().startswith("'") for part in arguments.split(',') if part.strip())


def binders(text, item):
    """Returns the parameters of the function's goals: what is known at the goal, after the types and ghost values if it has any."""
    code = code_of(text)
    heads = [BLOCK.match(code, place.start).group(2) for place, *_ in blocks_of(code) if item.place.start in place]
    signature = code[item.place.start:item.place.stop - len(item.body)]
    parameters = re.split(rf'\bfn {item.name}\b', signature, maxsplit=1)[1]
    is_general = any(map(has_types, [*heads, parameters])) or re.search(r'\bghost \w+ *:|\bimpl |\bdyn ', parameters)
    return 'g c' if is_general else 'c'


def attempts_at(goal, using):
    """Returns the names of the attempts at a goal, and their tactics. The first is the goal's answer: without one no proof file can name the goal."""
    others = ['grind (arith, common_steps)'] + [f'grind (arith, {", ".join(name for _, name in using)})'] * bool(using)
    return {goal: 'search rules', **{f'attempt-{number}-{goal}': tactic for number, tactic in enumerate(others)}}


def imports(text, wanted):
    """Returns `use` lines for the names that a proof file does not bring already."""
    brought = {word.strip() for group in re.findall(r'^use [^{\n]*\{([^}]*)\}', text, re.M) for word in group.split(',')}
    modules = dict.fromkeys(module for module, name in wanted if name not in brought)
    return ''.join(f'use {module}.{{{", ".join(name for of, name in wanted if of == module and name not in brought)}}}\n' for module in modules)


def answers_to(crate, goals, text):
    """Returns the text of an `Answers.antt` without its answers to other goals, and without the lemmas of the crate that only those cite."""
    kept, dropped = [], None
    for line in text.split('\n'):
        answer = ANSWER.match(line)
        if answer:
            dropped = None if answer[1] in goals else answer[1]
        elif dropped and re.match(r'[\w-]', line) and not line.startswith((f'{dropped} ', 'unfolding ')):
            dropped = None
        if not dropped:
            kept.append(line)
    left = '\n'.join(kept)
    used = re.sub(r'^use .*', '', left, flags=re.M)

    def cited(line):
        names = [name.strip() for name in line[1].split(',')]
        return line[0] if any(re.search(rf'(?<![\w-]){re.escape(name)}(?![\w-])', used) for name in names) else ''

    return re.sub(rf'^use Rattle\.{crate}\.proofs\.[^{{\n]*\{{([^◌}}]*)\}}\n', cited, left, flags=re.M)


def with_attempts(crate, steps, goals, text, attributes, parameters):
    """Returns the text of a function's `Answers.antt` with its answers to these goals, and with attempts at those that it does not answer."""
    using, unfolding = names_in(crate, attributes, 'using'), names_in(crate, attributes, 'unfolding')
    left = [goal for goal in goals if goal not in ANSWER.findall(text)]
    if len(left) == len(goals):
        text = ''
    elif not left:
        return answers_to(crate, goals, text)
    known = '' if ' as goal\n' in text else f'use Rattle.{crate}.proofs.{".".join(steps)}.Goals as goal\n'
    opened = f'unfolding {" ".join(name for _, name in unfolding)}\n' if unfolding else ''
    made = ''.join(f'\n{"pub " * (name == goal)}{name} : goal.{goal}\n{opened}{name} {parameters} = {tactic}\n'
                   for goal in left for name, tactic in attempts_at(goal, using).items())
    wanted = [(COMMON, 'rules'), (COMMON, 'arith'), (GRIND, 'common_steps'), *using, *unfolding]
    return imports(text, wanted) + known + text + made


def errors_of(name, of_proof):
    """Returns what a check says against one answer or attempt."""
    return [text.removeprefix(f'`{name}`: ') for text in of_proof if text.startswith(f'`{name}`: ')]


def has_given_up(name, of_proof):
    """Returns whether a tactic found no proof in this attempt."""
    return any(text.startswith(GAVE_UP) for text in errors_of(name, of_proof))
