"""Random scripts of `sim`, each made line by line while the model runs it, so that its lines refer to what exists."""
from pair import other
from search import shortened
from settings import DEFAULTS
from sim import Script
from texts import NUMBERS, red_seen

LIMITS = {  # values of a key: both limits of its range, some between
    'n_sendmax': (1, 1, 2, 3, 20, 32), 'n_maxpacket': (1, 2, 3), 'q': (1, 2, 4, 8), 't_max': (100, 101, 300, 1800, 60000),
    't_h': (10, 11, 99, 300), 't_seq': (10, 50, 1000), 'mwa': (1, 2, 3, 10, 16), 'pdu_limit': (100, 100, 101, 4294901760),
    'channels': (1, 2, 3, 4), 'code': (8, 16), 'sn_il': (0, 100, 2 ** 31, 2 ** 32 - 1, 2 ** 32 - 4, 2 ** 32 - 20),
    'sn_fe': (0, 500, 2 ** 31 - 2, 2 ** 32 - 1, 2 ** 32 - 3, 2 ** 32 - 30), 'version_il': (3,) * 9 + (4,), 'version_fe': (3,) * 9 + (255,)}
BEYOND = {
    'n_sendmax': (0, 33, 65537), 'n_maxpacket': (0, 4), 'q': (0, 9), 't_max': (99, 60001), 't_h': (9, 1800, 60000), 't_seq': (9, 1001),
    'mwa': (0, 17), 'pdu_limit': (99, 4294901761), 'channels': (0, 5), 'code': (0, 7, 9, 17, 4294967295)}
KINDS = ('0100', '0100', '0200', 'ffff', '0000', '2500', '0024', '0025', '0021', '0022', '0023', '00fF')
WRONG = ('give', 'give i1', 'give i1 0', 'give i1 9', 'give x1 1', 'give i 1', 'give i01 1', 'give i999 1', 'hit i1 1 9999 01', 'hit i1 1 0 1',
         'hit i1 1 0 001', 'lose f0', 'lose f99999999999999999999', 'flow', 'flow 0', 'flow 1 7', 'put il 010 -', 'put il 0100 0', 'put xx 0100 -',
         'putlen il 0100 1001', 'puts fe 257 0200', 'set q 4294967296', 'set Q 4', 'set version_il 256', 'versions il 3', 'versions fe',
         'versions fe 1 2 3 4 5', 'versions fe 256', 'open', 'open il fe', 'clock il', 'clock il -1', 'clock il 18446744073709551616', 'tick both',
         'trace on', 'est est', 'done fe', 'words', '\ttrace', 'trace\r', 'close il 0', 'set t_h 0x10', 'set t_h +1', 'flow 1,2')
SPECIAL = [NUMBERS[kind].to_bytes(2, 'little') for kind in ('RetrReq', 'RetrResp', 'DiscReq', 'ConnReq', 'ConnResp')]
PLACES = (0, 1, 2, 3, 4, 4, 4, 5, 7, 8, 10, 11, 12, 15, 16, 20, 24, 28, 32, 35, 36, 40, 43, 45, 60, 82)


class Maker:
    """Makes one script; each kind of line has its weight."""

    def __init__(self, rng):
        self.rng, self.script, self.text, self.fault = rng, Script(), [], None
        self.weights = {
            self.deliver: 40, self.puts: 14, self.time: 10, self.jump: 6, self.tick: 5, self.flow: 4, self.hit: 4, self.gap: 4, self.lose: 2,
            self.done: 1.5, self.opens: 1.5, self.sets: 1, self.close: 0.7, self.trace: 0.5, self.unusual: 0.4, self.busy: 0.2, self.wrong: 0.1}

    def made(self):
        """Returns a whole script, and its expected result."""
        self.begin()
        steps, weights = list(self.weights), list(self.weights.values())
        for _ in range(self.rng.choice((5, 20, 40, 80))):
            if self.fault:
                break
            (self.opens if self.rng.random() < 0.3 and self.is_over() else self.rng.choices(steps, weights)[0])()
        if self.rng.random() < 0.5:
            self.add('flow 1')
        return '\n'.join(self.text), self.script.outcome(self.fault)

    def add(self, line):
        """Adds a line, unless the script has stopped."""
        if not self.fault:
            self.text.append(line)
            self.fault = self.script.tried(len(self.text), line)

    def begin(self):
        r = self.rng
        if r.random() < 0.95:
            self.add('trace')
        for _ in range(r.choice((0, 0, 1, 2, 4, 7))):
            self.sets()
        for end in ('il', 'fe'):
            if r.random() < 0.3:
                self.add('clock %s %d' % (end, r.choice((1, 300, 2 ** 32 - 1, 2 ** 32 - 40, 2 ** 32 - 2000, 2 ** 62 - 3000, 2 ** 62))))
        self.mend()
        how = r.random()
        if how < 0.7:
            self.add('est')
        elif how < 0.9:
            self.add('open fe')
            self.add('open il')
        else:
            self.opens()

    def mend(self):
        """Makes settings with which, in most cases, an end opens."""
        s = {**DEFAULTS, **self.script.settings}
        if self.rng.random() < 0.1:
            return
        for key in self.script.settings:
            if s[key] in BEYOND[key]:
                self.add('set %s %d' % (key, DEFAULTS[key]))
        if s['t_h'] >= s['t_max']:
            self.add('set t_h %d' % self.rng.choice((10, 30, 99)))

    def is_over(self):
        ends = [self.script.pair.present(end) for end in ('il', 'fe')]
        return None in ends or any(end.is_shut() for end in ends)

    def end(self):
        return self.rng.choice(('il', 'fe'))

    def channel(self):
        return self.rng.randint(1, max(1, min(9, self.script.settings.get('channels', 2))))

    def sets(self):
        r = self.rng
        if r.random() < 0.12:
            return self.add('versions fe ' + ' '.join(str(version) for version in r.sample((3, 3, 3, 4, 0, 255), r.randint(1, 4))))
        key = r.choice(list(LIMITS))
        values = BEYOND[key] if key in BEYOND and r.random() < 0.03 else LIMITS[key]
        self.add('set %s %d' % (key, r.choice(values)))

    def opens(self):
        r = self.rng
        self.mend()
        how = r.random()
        if how < 0.5:
            self.add('est')
        elif how < 0.8:
            self.add('open fe')
            self.add('open il')
        else:
            self.add('open ' + self.end())

    def close(self):
        self.add('close ' + self.end())

    def done(self):
        self.add('done')

    def trace(self):
        self.add(self.rng.choice(('trace', 'trace', 'trace off', '', '  trace ')))

    def wrong(self):
        self.add(self.rng.choice(WRONG))

    def busy(self):
        """Makes as many PDUs as a limit of 100 allows."""
        if self.is_over() or self.rng.random() < 0.5:
            self.add('set pdu_limit 100')
            self.add('set n_maxpacket 1')
            self.opens()
        for _ in range(self.rng.choice((2, 9))):
            self.add('puts il %d 0100' % self.rng.choice((5, 15, 20)))
            self.add('puts fe %d 0200' % self.rng.choice((5, 15, 20)))
            self.add('flow 1')

    def unusual(self):
        r = self.rng
        self.add(r.choice(('puts %s 0 0100', 'puts %s 70 0200', 'puts %s 256 0100', 'putlen %s 0100 1000', 'putlen %s 0200 358', 'clock %s 0',
                           'clock %s 4611686018427387905', 'clock %s 18446744073709551615')) % self.end())

    def puts(self):
        r = self.rng
        end, kind, how = self.end(), r.choice(KINDS), r.random()
        present = self.script.pair.present(end)
        if not (present and present.session.phase == 'Established') and r.random() < 0.8:
            return self.flow()
        if r.random() < 0.9:
            kind = '0100' if end == 'il' else '0200'
        if how < 0.6:
            self.add('put %s %s %s' % (end, kind, r.choice(('-', '00', '0a', 'FFfe', '0102030405'))))
        elif how < 0.9:
            self.add('puts %s %d %s' % (end, r.choice((1, 2, 3, 4, 7, 15)), kind))
        else:
            self.add('putlen %s %s %d' % (end, kind, r.choice((0, 1, 356, 357, 358))))

    def tick(self):
        self.add('tick ' + self.end())

    def time(self):
        """Advances the clock of an end, mostly to just about its next deadline."""
        r, end = self.rng, self.end()
        now, present = self.script.clocks[end], self.script.pair.present(end)
        marks = [now + 1, now + 5, now + 10]
        if present:
            s, machine = present.settings, present.machine
            marks += [present.red.since + s.t_seq] * (3 if present.red.waiting else 0)
            marks += [machine.made[-1].time + s.t_h] if machine.made else []
            marks += [machine.confirmed_at + s.t_max] if r.random() < 0.15 else []
        mark = r.choice(marks) + r.choice((0, 0, 0, -1, 1))
        self.add('clock %s %d' % (end, mark))
        if r.random() < 0.25:
            self.add('clock %s %d' % (other(end), max(mark, self.script.clocks[other(end)])))
        if r.random() < 0.6:
            self.add('tick ' + end)

    def flow(self):
        channels = [self.channel() for _ in range(self.rng.choice((1, 1, 1, 2)))]
        self.add('flow ' + ' '.join(map(str, channels)))

    def labels(self):
        return [label for label in self.script.order if label not in self.script.named]

    def label(self):
        """Returns a datagram already made: mostly the first unnamed one, or a late one, or any."""
        r, unnamed, how = self.rng, self.labels(), self.rng.random()
        if unnamed and how < 0.7:
            return unnamed[0]
        if unnamed and how < 0.88:
            return r.choice(unnamed)
        return r.choice(self.script.order[-6:] if how < 0.95 else self.script.order)

    def deliver(self):
        if not self.labels() and self.rng.random() < 0.7:
            self.puts()
        elif self.script.order:
            self.add('give %s %d' % (self.label(), self.channel()))

    def lose(self):
        if self.script.order:
            self.add('lose ' + self.label())

    def gap(self):
        """Loses one, delivers those after it, and lets their deferral time pass."""
        end = self.end()
        self.add('puts %s %d %s' % (end, self.rng.choice((1, 2, 3)), '0100' if end == 'il' else '0200'))
        unnamed = [label for label in self.labels() if label[0] == end[0]]
        if len(unnamed) > 1:
            for label in unnamed[:self.rng.choice((1, 1, 1, 2))]:
                self.add('lose ' + label)
            self.add('give %s %d' % (unnamed[-1], self.channel()))
            taker = self.script.pair.present(other(end))
            now = max(self.script.clocks[other(end)], taker.red.since + taker.settings.t_seq) if taker else 0
            self.add('clock %s %d' % (other(end), now))
            self.add('tick ' + other(end))

    def jump(self):
        """Damages a number, so that a part goes up at once that has another place, or is of another incarnation."""
        side = self.end()
        taker, made = self.script.pair.present(other(side)), self.script.labels[side]
        if not (made and taker):
            return
        r, late = self.rng, range(max(0, len(made) - 12), len(made))
        special = [place for place in late if red_seen(made[place])[1][2:4] in SPECIAL]
        place = r.choice(special if special and r.random() < 0.5 else late)
        bits = red_seen(made[place])[0] ^ taker.red.expected
        if bits < 256:
            self.add('hit %s%d %d 4 %02x' % (side[0], place + 1, self.channel(), bits))

    def hit(self):
        """Damages any octet, often of the redundancy number, which leaves the part valid."""
        if not self.script.order:
            return
        r, label = self.rng, self.label()
        length = len(self.script.find(label))
        place = 4 if r.random() < 0.5 else r.choice(PLACES + (length - 1, length - 8, r.randrange(length), r.randrange(length)))
        bits = r.choice((0, 1, 2, 3, 4, 7, 8, 16, 0x80, 0xff, r.randrange(256)))
        self.add('hit %s %d %d %02x' % (label, self.channel(), place, bits))


def shorter(text, differs):
    """Returns the script with lines left out, as long as it still differs."""
    return '\n'.join(shortened(text.split('\n'), lambda lines: (True, len(lines)) if differs('\n'.join(lines)) else None))
