#!/usr/bin/env python3
"""Runs a script of `rasta sim` (docs/sim.md) on the model, and prints what the program must print.

    tests/model/sim.py [sim] SCRIPT
"""
import os
import sys

sys.dont_write_bytecode = True
sys.path.insert(0, os.path.dirname(os.path.abspath(__file__)))
from pair import Pair, TIME_MAX, other  # noqa: E402
from settings import Settings  # noqa: E402

FLOW_MAX = 1000
KEYS = ('n_sendmax', 'n_maxpacket', 'q', 't_max', 't_h', 't_seq', 'mwa', 'pdu_limit', 'channels', 'code')
HEX = set('0123456789abcdefABCDEF')


class Stop(Exception):
    """A fault that stops a script."""


def unreadable_unless(is_so):
    if not is_so:
        raise Stop('unreadable')


def digits(word):
    return word.isascii() and word.isdigit()


def number(word, most):
    unreadable_unless(digits(word) and len(word.lstrip('0')) <= 20 and int(word) <= most)
    return int(word)


def octets(word, count=None):
    unreadable_unless(len(word) % 2 == 0 and set(word) <= HEX and word != '' and count in (None, len(word) // 2))
    return bytes.fromhex(word)


def payload(word):
    return b'' if word == '-' else octets(word)


def kind(word):
    return int.from_bytes(octets(word, 2), 'big')


def side(word):
    unreadable_unless(word in ('il', 'fe'))
    return word


def label(word):
    unreadable_unless(word[0] in 'if' and digits(word[1:]))
    return word


def key(word):
    unreadable_unless(word in KEYS + ('sn_il', 'sn_fe', 'version_il', 'version_fe'))
    return word


def up_to(most):
    return lambda word: number(word, most)


CHANNEL = up_to(2 ** 64 - 1)
FORMS = {  # the words after the first
    'set': (key, up_to(2 ** 32 - 1)), 'open': (side,), 'close': (side,), 'clock': (side, up_to(2 ** 64 - 1)), 'tick': (side,),
    'put': (side, kind, payload), 'putlen': (side, kind, up_to(1000)), 'puts': (side, up_to(256), kind), 'done': (),
    'give': (label, CHANNEL), 'hit': (label, CHANNEL, up_to(2 ** 64 - 1), lambda word: octets(word, 1)), 'lose': (label,), 'est': ()}


class Script:
    """A running script. It keeps its output lines until it ends."""

    def __init__(self):
        self.pair, self.lines, self.is_traced = Pair(), [], False
        self.clocks, self.first = {'il': 0, 'fe': 0}, {'il': 100, 'fe': 500}
        self.settings, self.versions = {}, {'il': (3,), 'fe': (3,)}
        self.labels = {'il': [], 'fe': []}  # the datagrams that each end made
        self.order, self.next_unnamed, self.named = [], 0, set()

    def run(self, text):
        """Runs a whole script and returns its result."""
        for count, line in enumerate(text.split('\n'), 1):
            fault = self.tried(count, line)
            if fault:
                return self.outcome(fault)
        return self.outcome(None)

    def tried(self, count, line):
        """Runs one line. Returns the fault that stops the script, or None."""
        try:
            self.line([word for word in line.split(' ') if word])
        except Stop as stop:
            return 'line %d: %s' % (count, stop)
        return None

    def outcome(self, fault):
        """Returns standard output, standard error and exit status. No report follows a fault."""
        lines = self.lines if fault else self.lines + [self.report(end) for end in ('il', 'fe')]
        return ''.join(line + '\n' for line in lines), fault + '\n' if fault else '', 1 if fault else 0

    def line(self, words):
        if not words:
            return
        first, rest = words[0], words[1:]
        if first == 'trace':
            unreadable_unless(rest in ([], ['off']))
            self.is_traced = not rest
        elif first == 'flow':
            channels = [CHANNEL(word) for word in rest]
            unreadable_unless(channels)
            self.flow(*channels)
        elif first == 'versions':
            unreadable_unless(2 <= len(rest) <= 5 and rest[0] == 'fe')
            self.versions['fe'] = tuple(number(word, 255) for word in rest[1:])
        else:
            unreadable_unless(first in FORMS and len(rest) == len(FORMS[first]))
            getattr(self, first)(*[read(word) for read, word in zip(FORMS[first], rest)])

    def set(self, name, value):
        if name.startswith('version_'):
            unreadable_unless(value <= 255)
            self.versions[name[8:]] = (value,)
        elif name.startswith('sn_'):
            self.first[name[3:]] = value
        else:
            self.settings[name] = value

    def happens(self, what, end, *rest):
        refusal = self.pair.apply((what, end, self.clocks[end], *rest))
        if refusal:
            self.lines.append('refused ' + refusal)
        else:
            self.tell(end)

    def tell(self, end):
        present = self.pair.present(end)
        for what, *rest in present.told:
            if what == 'made':
                made = end[0] + str(len(self.labels[end]) + 1)
                self.order.append(made)
                self.labels[end].append(present.datagram(rest[0]))
                self.trace(made_line(made, present.machine.made[rest[0]]))
            elif what == 'takes':
                self.trace('%s takes %04x %s' % (end, rest[0], rest[1].hex() or '-'))
            else:
                self.trace(' '.join([end, what, *rest]))

    def trace(self, line):
        if self.is_traced:
            self.lines.append(line)

    def open(self, end):
        names = (b'IL1', b'FE1') if end == 'il' else (b'FE1', b'IL1')
        own, peer = (1, 2) if end == 'il' else (2, 1)
        settings = Settings(own=own, peer=peer, name=names[0], peer_name=names[1], versions=self.versions[end], **self.settings)
        self.happens('open', end, settings, self.first[end])

    def close(self, end):
        self.happens('close', end)

    def clock(self, end, now):
        if now < self.clocks[end] or now > TIME_MAX:
            self.lines.append('refused Clock')
        else:
            self.clocks[end] = now

    def tick(self, end):
        self.happens('tick', end)

    def put(self, end, kind, payload):
        self.happens('put', end, kind, payload)

    def putlen(self, end, kind, length):
        self.put(end, kind, bytes(length))

    def puts(self, end, count, kind):
        for k in range(count):
            self.put(end, kind, bytes([k]))

    def done(self):
        self.happens('init_done', 'fe')

    def give(self, label, channel):
        self.check(channel)
        self.find(label)
        self.named.add(label)
        self.deliver(label, channel, self.find(label))

    def hit(self, label, channel, place, bits):
        self.check(channel)
        datagram = bytearray(self.find(label))
        unreadable_unless(place < len(datagram))
        datagram[place] ^= bits[0]
        self.named.add(label)
        self.deliver(label, channel, bytes(datagram))

    def lose(self, label):
        self.find(label)
        self.named.add(label)

    def flow(self, *channels):
        for channel in channels:
            self.check(channel)
        for _ in range(FLOW_MAX):
            while self.next_unnamed < len(self.order) and self.order[self.next_unnamed] in self.named:
                self.next_unnamed += 1
            if self.next_unnamed == len(self.order):
                return
            label = self.order[self.next_unnamed]
            self.named.add(label)
            for channel in channels:
                self.deliver(label, channel, self.find(label))

    def est(self):
        self.open('fe')
        self.open('il')
        self.flow(1)
        self.done()
        self.flow(1)

    def check(self, channel):
        unreadable_unless(1 <= channel <= self.settings.get('channels', 2))

    def find(self, label):
        made = self.labels['il' if label[0] == 'i' else 'fe']
        if label[1] == '0' or len(label) > 10 or int(label[1:]) > len(made):
            raise Stop('no such label')
        return made[int(label[1:]) - 1]

    def deliver(self, label, channel, datagram):
        end = 'fe' if label[0] == 'i' else 'il'
        if self.is_traced and self.pair.breaks_premise(end, datagram):
            self.lines.append('note %s not live' % label)
        self.happens('deliver', end, datagram, label)

    def report(self, end):
        present = self.pair.present(end)
        if present is None:
            return end + ' none'
        session = present.session
        return '%s %s %s put %d taken %d' % (end, present.machine.state, session.phase, len(session.put_in), len(session.taken))


def made_line(label, pdu):
    line = '%s %s %d %d' % (label, pdu.kind, pdu.sn, pdu.cs)
    return line + ' reason %d detail %d' % pdu.body[::-1] if pdu.kind == 'DiscReq' else line


def main(words):
    words = words[1:] if words[:1] == ['sim'] else words
    if len(words) != 1:
        print(__doc__, file=sys.stderr)
        return 2
    try:
        with open(words[0], encoding='utf-8', newline='') as file:
            text = file.read()
    except (OSError, UnicodeDecodeError):
        print('fault: file', file=sys.stderr)
        return 1
    out, err, status = Script().run(text)
    sys.stdout.write(out)
    sys.stderr.write(err)
    return status


if __name__ == '__main__':
    sys.exit(main(sys.argv[1:]))
