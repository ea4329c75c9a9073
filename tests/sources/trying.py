"""Tries edits of a crate: makes the copy of the crate that a check reads, runs the check, and judges what it says.

What a check says depends on that copy, on the libraries below and on the toolchain only; what is kept of it depends on the code of this file
and of those that it imports (tests/sources/verdicts.py).
"""
import os
import re
import shutil
import subprocess
import tempfile

from attempts import ANSWER, attempts_at, binders, errors_of, has_given_up, names_in, with_attempts, without_tactics
from functions import TOP, code_of, items_of, listed, read
from stamps import kit

FOLDER = os.environ.get('WRONG_BODIES', 'wrong')
ARITHMETIC = re.compile(r'(?:overflow|nonzero)_')  # the names of goals which only state that arithmetic has a result
HOLE = 'use Rattle.{crate}.proofs.{path}.Statement.{{statement}}\n\npub {name}_spec : {{M : Type 1}} → statement M\n{name}_spec = ?\n'
ENDLESS = '{ loop {} }'
WEAK = 'weak: '  # begins the reason of a refusal that says nothing about the function's contract
NAMES_LOST = re.compile(r'has no field|is not in scope|has no `|was not admitted|is no name|cannot be found|\(nearest: ')
PARTS = ('src', 'specs', 'proofs')


class Function:
    """A function of a crate, and the path by which a check names it."""

    def __init__(self, item, modules):
        self.item = item
        self.file = re.sub(r'^crates/\w+/', '', item.file)
        is_of_file = item.trait or item.block != item.owner  # (an `impl` for some types only is also named by its own module)
        module = module_of(item.file) if is_of_file else modules.get(item.owner, module_of(item.file))
        owner = [*module, item.block] if item.owner else module_of(item.file)
        self.steps = [*owner, item.name]
        self.proofs = '/'.join(['proofs', *self.steps])
        of_cycle = '/'.join(['proofs', *owner, '+' + item.name])
        self.calls_itself = os.path.isdir(f'{TOP}/crates/{item.crate}/{of_cycle}')
        self.answers = of_cycle if self.calls_itself else self.proofs  # where the proof files of the unchanged function are
        self.is_in_place = bool(item.trait) or self.calls_itself


class Edit:
    """A wrong body: its function, and the texts that it replaces there and in the function's proof files."""

    def __init__(self, path, functions):
        self.name, self.fault, self.function, self.texts, self.proofs = os.path.basename(path)[:-5], '', None, [], []
        self.constants, self.is_of_constant = [], False
        self.path, self.goals = path, []
        self.wants_goal = False  # whether it is tried with all goals to write the line `goal:`
        self.misses_goal = False  # whether the goal that it names did not refuse it, so that all are tried
        crate, file, old = path.split('/')[1], None, None
        for line in read(path).split('\n'):
            if line.startswith('by: '):
                self.function = next((it for it in functions if '::'.join(it.steps) == line[4:].strip()), None)
                self.fault = '' if self.function else f'no function of this name: {line[4:].strip()}'
                self.is_of_constant = True
            elif line.startswith('goal: '):
                self.goals.append(line[6:].strip())
            elif line.startswith('file: '):
                file = f'crates/{crate}/{line[6:].strip()}'
            elif line.startswith('old: '):
                old = line[5:]
            elif line.startswith('new:'):
                self.take(functions, file, old, line[4:].removeprefix(' '))
        if not self.texts and not self.constants:
            self.fault = self.fault or 'it has no pair of old: and new:'
        self.is_in_place = bool(self.constants) or self.function is not None and self.function.is_in_place
        for file, old, _ in self.proofs:
            if not self.fault and (self.is_in_place or not file.startswith(f'crates/{crate}/{self.function.proofs}/')):
                self.fault = f'not in a proof file of its function, or of one that is tried in place: {old}'
        if self.goals and self.is_in_place:
            self.fault = self.fault or 'it is tried in place, so it names no goal'

    def take(self, functions, file, old, new):
        if file is None or old is None or not os.path.isfile(f'{TOP}/{file}'):
            self.fault = f'no text that is to be replaced, or no such file: {file}'
            return
        text = read(file)
        if '/proofs/' in file and text.count(old) == 1:
            self.proofs.append((file, old, new))
            return
        first = text.find(old)
        last = first + len(old.rstrip()) - 1
        found = [it for it in functions if it.item.file == file and first + len(old) - len(old.lstrip()) in it.item.place and last in it.item.place]
        if text.count(old) != 1:
            self.fault = f'does not occur exactly once: {old}'
        elif self.is_of_constant and not any(first in it.place and last in it.place for it in items_of(file.split('/')[1], file) if not it.line):
            self.fault = f'not in a constant: {old}'
        elif self.is_of_constant:
            self.constants.append((re.sub(r'^crates/\w+/', '', file), old, new))
        elif len(found) != 1 or self.function not in (None, found[0]):
            self.fault = f'not in one function: {old}'
        else:
            self.function = found[0]
            self.texts.append((old, new))

    def written(self, text):
        for old, new in self.texts:
            text = text.replace(old, new)
        return text

    def proved(self, name, text):
        """Returns the text of a proof file of the function with what the edit replaces in it."""
        for file, old, new in self.proofs:
            if file.endswith(f'{self.function.proofs}/{name}'):
                text = text.replace(old, new)
        return text

    def write_goal(self, goal):
        """Writes into the edit the goal that refuses it."""
        lines = [line for line in read(self.path).rstrip('\n').split('\n') if not line.startswith('goal: ')]
        write_in(TOP, self.path, '\n'.join([*lines, f'goal: {goal}', '']))


class Control:
    """An unchanged function, with all its goals, or with those that its edits name."""

    def __init__(self, function, goals=()):
        self.name, self.function = ('its goals: ' if goals else 'as it is: ') + '::'.join(function.steps), function
        self.constants, self.is_in_place, self.goals = [], False, list(goals)
        self.wants_goal, self.misses_goal = False, False

    def written(self, text):
        return text

    def proved(self, _, text):
        return text


class Try:
    """An edit, or a control, in the copy of a crate: its new function, or the old one if it is tried in place."""

    def __init__(self, edit, number):
        self.edit, self.function = edit, edit.function
        self.steps = list(self.function.steps)
        if not edit.is_in_place:
            self.steps[-1] += f'_wrong{number}'
        self.path, self.proofs = '::'.join(self.steps), '/'.join(['proofs', *self.steps])
        self.answers = self.function.answers if edit.is_in_place else self.proofs
        self.goals = [] if edit.misses_goal else edit.goals  # those that alone are tried; all if there are none
        self.lines = range(0)  # its lines in the copy

    def attributes_in(self, text):
        above = attributes_above(text, self.function.item.place.start)
        margin = re.match(' *', text[self.function.item.place.start:])[0]
        return without_tactics(above, margin) if self.goals else above

    def text_in(self, text):
        place = self.function.item.place
        written = self.edit.written(text[place.start:place.stop])
        return re.sub(rf'\bfn {self.function.steps[-1]}\b', f'fn {self.steps[-1]}', written, count=1)


def module_of(file):
    inner = re.sub(r'^crates/\w+/src/|\.rt$', '', file)
    return [] if inner in ('lib', 'main') else inner.split('/')


def functions_of(crate):
    files = [file for file in listed('crates', crate, 'src', '**', '*.rt') if not file.endswith('tests.rt')]
    modules = {}
    for file in files:
        for name in re.findall(r'^(?:pub(?:\(\w+\))? )?(?:struct|enum) (\w+)', code_of(read(file)), re.M):
            modules[name] = module_of(file)
    return [Function(item, modules) for file in files for item in items_of(crate, file) if item.line and item.body not in ('', ';')]


def attributes_above(text, at):
    """Returns the attributes directly above an item."""
    lines = []
    for line in reversed(text[:at].split('\n')[:-1]):
        if not line.strip() or line.endswith(('}', '{', ';')) or line.strip().startswith('//'):
            break
        lines.insert(0, line + '\n')
    return ''.join(lines)


def read_in(room, path):
    with open(f'{room}/{path}', encoding='utf-8') as file:
        return file.read()


def write_in(room, path, text):
    os.makedirs(os.path.dirname(f'{room}/{path}'), exist_ok=True)
    with open(f'{room}/{path}', 'w', encoding='utf-8') as file:
        file.write(text)


def write_sources(room, functions, tries):
    """Writes each new function after the one it was made from. A function whose proof is a hole gets an endless loop as its body: a caller sees only
    the contract, and with this body the check does not go on to what the function calls."""
    for file in sorted({it.file for it in functions}):
        text, made, at = read_in(room, file), '', 0
        has_macros = 'macro_rules!' in code_of(text)
        for function in sorted((it for it in functions if it.file == file), key=lambda it: it.item.place.start):
            place, body = function.item.place, len(function.item.body)
            if place.start < at:
                continue
            copies = [each for each in tries if each.function == function and not each.edit.is_in_place]
            instead = [each for each in tries if each.function == function and each.edit.is_in_place]
            is_whole = has_macros or function.calls_itself
            made += text[at:place.start] if instead else text[at:place.stop] if is_whole else text[at:place.stop - body] + ENDLESS
            for each in instead + copies:
                made += '' if instead else '\n\n' + each.attributes_in(text)
                first = made.count('\n') + 1
                made += each.text_in(text)
                each.lines = range(first, made.count('\n') + 2)
            at = place.stop
        write_in(room, file, made + text[at:])
    for file, old, new in [it for each in tries for it in each.edit.constants]:
        write_in(room, file, read_in(room, file).replace(old, new))


def write_attempts(room, crate, each):
    """Adds to the proof files of a new function attempts at the goals that its edit names."""
    if each.goals:
        path, text = f'{each.proofs}/Answers.antt', read(each.function.item.file)
        attributes = attributes_above(text, each.function.item.place.start)
        own = read_in(room, path) if os.path.isfile(f'{room}/{path}') else ''
        write_in(room, path, with_attempts(crate, each.steps, each.goals, own, attributes, binders(text, each.function.item)))


def write_proofs(room, crate, functions, tries):
    """Gives each new function the proof files of the one it was made from, and replaces every other proof by a hole."""
    for each in tries:
        if each.edit.is_in_place:
            continue
        if os.path.isdir(f'{room}/{each.function.proofs}'):
            shutil.copytree(f'{room}/{each.function.proofs}', f'{room}/{each.proofs}')
        own = re.compile(rf'(Rattle\.{crate}\.(?:proofs|specs\.contracts)\.){re.escape(".".join(each.function.steps))}\b')
        for folder, _, names in os.walk(f'{room}/{each.proofs}'):
            for path in [os.path.relpath(f'{folder}/{name}', room) for name in names]:
                text = each.edit.proved(os.path.relpath(path, each.proofs), read_in(room, path))
                write_in(room, path, own.sub(lambda found, each=each: found[1] + '.'.join(each.steps), text))
        write_attempts(room, crate, each)
    tried = [each.function for each in tries if each.edit.is_in_place]
    for function in functions:
        if not function.calls_itself and function not in tried:
            shutil.rmtree(f'{room}/{function.proofs}', ignore_errors=True)
            hole = HOLE.format(crate=crate, path='.'.join(function.steps), name=function.steps[-1])
            write_in(room, f'{function.proofs}/Proof.antt', hole)


def write_room(room, crate, functions, tries):
    """Writes what a check of these reads of the crate itself: with no tries, what the checks of all its edits have in common."""
    for part in PARTS:
        if os.path.isdir(f'{crate.folder}/{part}'):
            shutil.copytree(f'{crate.folder}/{part}', f'{room}/{part}')
    write_proofs(room, crate.name, functions, tries)
    write_sources(room, functions, tries)


def checked(crate, functions, tries):
    """Returns the output of a check of the new functions."""
    with tempfile.TemporaryDirectory(prefix='wrong-bodies-') as room:
        write_room(room, crate, functions, tries)
        words = [kit().RATTLE, 'check', *crate.words(['--jobs', '1'], keeps=False), '--allow-holes']
        words += [word for each in tries for word in ('--only', each.path)]
        words += ['--stage-times', os.environ['WRONG_BODIES_TIMES']] if 'WRONG_BODIES_TIMES' in os.environ else []
        how = {'stdin': subprocess.DEVNULL, 'stdout': subprocess.PIPE, 'stderr': subprocess.STDOUT, 'errors': 'replace'}
        said = subprocess.run(words, cwd=room, **how).stdout
    if 'WRONG_BODIES_LOG' in os.environ:
        write_in(os.environ['WRONG_BODIES_LOG'], f'{crate.name}.{tries[0].edit.name}.txt', said)
    return said


def answers_of(crate, each):
    """Returns the answers of the function to goals, with what the edit replaces in them."""
    path = f'{crate.folder}/{each.function.proofs}/Answers.antt'
    return each.edit.proved('Answers.antt', read(path)) if os.path.isfile(path) else ''


def judged_by_goals(crate, each, of_proof):
    """Returns whether a function of which only some goals are tried is proved, and why not; None if this decides nothing. An edit is refused if neither the
    function's own answer nor an attempt proves its goal. A control must prove each of the goals; it may lack some, which an edit's change brings."""
    answered, is_control, found = set(ANSWER.findall(answers_of(crate, each))), isinstance(each.edit, Control), 0
    attributes = attributes_above(read(each.function.item.file), each.function.item.place.start)
    for goal in each.goals:
        names = [goal] if goal in answered else [*attempts_at(goal, names_in(crate.name, attributes, 'using'))]
        is_lost = any(NAMES_LOST.search(text) for name in names for text in errors_of(name, of_proof))
        is_open = not is_lost and all(errors_of(name, of_proof) if goal in answered else has_given_up(name, of_proof) for name in names)
        found += not is_lost
        if not is_open and not is_control:
            return None, f'its goal {goal} {"is lost" if is_lost else "does not refuse it"}'
        if is_open and (is_control or not ARITHMETIC.match(goal)):
            return False, f'`{goal}`'
    return (True, '') if is_control and found else (None, 'it has no goal to try')


def goal_of(crate, each, said):
    """Returns a goal that refuses an edit which was tried with all goals; None if none can be named. Goals of the function's results come first."""
    line = re.search(rf'^fn {crate.name}::{re.escape(each.path)}: (.*)', said, re.M)
    of_proof = re.findall(rf'^(?:\./)?{re.escape(each.answers)}/Answers.antt:\d+:\d+: error: `(\S+)`: (.*(?:\n  .*)*)', said, re.M)
    answered = set(ANSWER.findall(answers_of(crate, each)))
    searched = re.search(r'`search` did not prove ((?:`[^`]*`(?:, | and )?)+)', line[1])
    found = [goal for goal, text in of_proof if goal in answered and not NAMES_LOST.search(text)]
    found += [goal for goal in re.findall(r'`([^`]*)`', searched[1] if searched else '') if goal not in answered]
    found = [goal for goal in found if not ARITHMETIC.match(goal)]
    return min(found, key=lambda goal: not goal.startswith('returns'), default=None)


def judged(crate, said, each):
    """Returns whether a new function is proved, and why not; None if the check does not decide it."""
    line = re.search(rf'^fn {crate.name}::{re.escape(each.path)}: (.*)', said, re.M)
    errors = re.findall(r'^(?:\./)?(src/\S+\.rt):(\d+):\d+: (error.*)', said, re.M)
    of_text = [text for file, at, text in errors if file == each.function.file and int(at) in each.lines]
    of_proof = [' '.join(text.split()) for text in re.findall(rf'^(?:\./)?{re.escape(each.answers)}/\S+: error: (.*(?:\n  .*)*)', said, re.M)]
    if not line:
        return None, (of_text + ['the check has no line for it'])[0]
    if each.goals:
        return judged_by_goals(crate, each, of_proof)
    if line[1].startswith(('proved', 'no holes', 'depends on a hole')):
        return True, ''
    goals = re.search(r'`search` did not prove ((?:`[^`]*`(?:, | and )?)+)', line[1])
    if not goals and line[1].startswith(('no proof: it calls', 'could not tell')):
        return None, line[1]
    open_goals = set(re.findall(r'`([^`]*)`', goals[1])) if goals else set()
    answered = set(ANSWER.findall(answers_of(crate, each)))
    if open_goals & answered and not of_proof:
        return None, f'its answers were not read: {sorted(open_goals & answered)}'
    if not goals and of_proof and all(NAMES_LOST.search(text) for text in of_proof):
        return None, f'only a proof file that names what the edit took away refuses it, which says little: {of_proof[0]}'
    if not goals and not of_proof:
        return False, f'{WEAK}nothing that the function promises refuses it: {(of_text + [line[1]])[0]}'[:300]
    if not of_proof and all(ARITHMETIC.match(goal) for goal in open_goals):
        return False, f'{WEAK}only arithmetic without a result refuses it: {goals[1]}'
    return False, (([goals[1]] if goals else []) + of_proof)[0][:200]


def has_ended(said):
    return re.search(r'^only=\d+ ', said, re.M)


def errors_in(said):
    return [line.strip() for line in said.split('\n') if 'error' in line or line.startswith('rattle')] or said.split('\n')


def faulty(said, tries):
    """Returns those that an error of the check names."""
    places = re.findall(r'^(?:\./)?(src/\S+\.rt):(\d+):\d+: error', said, re.M)
    named = '\n'.join(errors_in(said))
    return [each.edit for each in tries if any(file == each.function.file and int(at) in each.lines for file, at in places)
            or re.search(rf'(?<![\w+]){re.escape(each.path)}(?![\w+])', named)]


def write_goals(crate, functions, said, tries, told):
    """Writes into each refused edit that is to name its goal a goal that refuses it, unless it stays open in the unchanged function, too."""
    named = {}
    for each, (edit, is_proved, why) in zip(tries, told):
        goal = goal_of(crate, each, said) if edit.wants_goal and is_proved is False and not why.startswith(WEAK) else None
        if goal:
            named.setdefault((edit.function, goal), []).append(edit)
    unchanged = [Try(Control(function, [goal]), number) for number, (function, goal) in enumerate(named)]
    answer = checked(crate, functions, unchanged) if unchanged else ''
    for each, ((_, goal), edits) in zip(unchanged, named.items()):
        if judged(crate, answer, each)[0] is not False:
            for edit in edits:
                edit.write_goal(goal)


def verdicts_on(crate, functions, some):
    """Returns for each of these edits and controls whether it is proved, and why not. If a check does not decide one, it is tried again with fewer others."""
    tries = [Try(each, number) for number, each in enumerate(some)]
    said = checked(crate, functions, tries)
    told = [(each.edit, *judged(crate, said, each)) for each in tries]
    write_goals(crate, functions, said, tries, told)
    unclear = [edit for edit, is_proved, _ in told if is_proved is None]
    if not unclear:
        return told
    missing = [edit for edit in unclear if edit.goals and not edit.misses_goal and (has_ended(said) or len(some) == 1)]
    for edit in missing:
        edit.misses_goal = True
    if len(some) == 1 and not missing:
        return told if has_ended(said) else [(some[0], None, f'the check did not come to its end: {" / ".join(errors_in(said)[:3])}'[:400])]
    guilty = [edit for edit in faulty(said, tries) if edit in unclear]
    if has_ended(said):
        groups = [missing, *[[edit] for edit in unclear if edit not in missing]]
    elif 0 < len(guilty) < len(unclear):
        groups = [[edit for edit in unclear if edit not in guilty], *[[edit] for edit in guilty]]
    else:
        groups = [unclear[:len(unclear) // 2], unclear[len(unclear) // 2:]]
    return [it for it in told if it[1] is not None] + [it for group in groups if group for it in verdicts_on(crate, functions, group)]
