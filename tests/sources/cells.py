"""The table of the safety machine's states and PDU types, from its definition (`Table.antt`)."""
import re

STATES = ('Start', 'Up', 'RetrRun', 'Requesting')
KINDS = ('Heartbeat', 'Data', 'RetrData', 'RetrReq', 'RetrResp', 'ConnReq', 'ConnResp')
WORDS = {'Ask': 'request', 'Answer': 'resend', 'Resume': 'resume', 'Skip': 'drop', 'Refuse UnexpectedPdu': 'reason 1',
         'Refuse SequenceError': 'reason 2'}
HEAD = '| State | Next? | ' + ' | '.join(KINDS) + ' |\n' + '|---' * (len(KINDS) + 2) + '|\n'


def equations(text):
    """Returns the equations of each function, in order: the patterns and the result."""
    found = {}
    for name, patterns, answer in re.findall(r'^(\w+)((?: \w+)+) = (.+)$', text, re.M):
        found.setdefault(name, []).append((patterns.split(), answer))
    return found


def value(found, name, words):
    """Returns the value of a function for these words: of the first equation whose patterns match; a small letter is a variable."""
    for patterns, answer in found[name]:
        bound = {}
        for pattern, word in zip(patterns, words):
            if pattern not in (word, '_') and (pattern[0].isupper() or pattern in ('true', 'false')):
                break
            bound[pattern] = word
        else:
            called, *given = answer.split()
            return value(found, called, [bound.get(it, it) for it in given]) if called in found else answer
    raise ValueError(f'{name} {words}')


def said(answer):
    """Returns a value in words."""
    taken = re.fullmatch(r'Take (\w+)', answer)
    return f'take, {taken[1]}' if taken else WORDS[answer]


def table(text):
    """Returns the table in Markdown, with one line for a state that treats the next PDU like the others."""
    found, lines = equations(text), ''
    for state in STATES:
        rows = {flag: [said(value(found, 'cell', [state, flag, kind])) for kind in KINDS] for flag in ('true', 'false')}
        named = {'Requesting': 'RetrReq'}.get(state, state)
        if rows['true'] == rows['false']:
            lines += f'| {named} | | ' + ' | '.join(rows['true']) + ' |\n'
            continue
        for flag, word in (('true', 'yes'), ('false', 'no')):
            lines += f'| {named} | {word} | ' + ' | '.join(rows[flag]) + ' |\n'
    return HEAD + lines
