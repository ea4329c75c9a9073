"""Scripts of `sim` (docs/sim.md), played with two ends of this folder, and random ones."""
import struct

from end import MASK, End, Settings

SIDES = 'il', 'fe'
OTHER = {'il': 'fe', 'fe': 'il'}
ESTABLISH = 'open fe', 'open il', 'flow 1', 'done', 'flow 1'
DEFAULTS = {'channels': 2, 'n_sendmax': 20, 'n_maxpacket': 3, 'q': 4, 't_max': 1800, 't_h': 300, 't_seq': 50, 'mwa': 10, 'pdu_limit': 4294901760,
            'code': 8, 'sn_il': 100, 'sn_fe': 500, 'version_il': 3, 'version_fe': 3}
SHARED = 'n_sendmax', 'n_maxpacket', 'q', 't_max', 't_h', 't_seq', 'mwa', 'pdu_limit', 'code'


class PrintingEnd(End):
    """An end whose events are lines of a script's output."""

    def __init__(self, settings, now, script, side):
        self.script, self.side, self.put_count, self.taken_count = script, side, 0, 0
        super().__init__(settings, now)

    def entered(self, state):
        self.script.trace(f'{self.side} state {state}')

    def went(self, phase):
        self.script.trace(f'{self.side} phase {phase}')

    def took(self, kind, payload):
        self.taken_count += 1
        self.script.trace(f'{self.side} takes {kind:04x} {payload.hex() or "-"}')

    def drop(self, cause):
        label = self.redundancy.label
        self.script.trace(f'{self.side} wait {label}' if cause == 'wait' else f'{self.side} drop {label} {cause}')

    def make(self, kind, body=b''):
        index = super().make(kind, body)
        label = self.script.keep(self.side, self.out.pop())
        sn = (self.s.first_sn + index) & MASK
        why = ' reason {1} detail {0}'.format(*struct.unpack('<HH', body)) if kind == 'DiscReq' else ''
        self.script.trace(f'{label} {kind} {sn} {self.last_sn}{why}')
        return index


class Script:
    """A script that is played line by line: its text, and what it prints."""

    def __init__(self):
        self.text, self.lines, self.is_traced = [], [], False
        self.settings = dict(DEFAULTS)
        self.ends, self.clocks = {}, dict.fromkeys(SIDES, 0)
        self.made, self.labels, self.named = {side: [] for side in SIDES}, [], set()

    def trace(self, line):
        if self.is_traced:
            self.lines.append(line)

    def keep(self, side, datagram):
        """Keeps a datagram, and returns its label."""
        self.made[side].append(datagram)
        self.labels.append(side[0] + str(len(self.made[side])))
        return self.labels[-1]

    def maker(self, label):
        return 'il' if label[0] == 'i' else 'fe'

    def datagram(self, label):
        return self.made[self.maker(label)][int(label[1:]) - 1]

    def unnamed(self, labels):
        return [label for label in labels if label not in self.named]

    def play(self, line):
        self.text.append(line)
        word, *rest = line.split()
        getattr(self, 'do_' + word)(*rest)

    def ended(self):
        """Returns the whole output."""
        reports = [f'{side} {end.state} {end.phase} put {end.put_count} taken {end.taken_count}' if (end := self.ends.get(side)) else f'{side} none'
                   for side in SIDES]
        return self.lines + reports

    # Lines of a script.

    def do_set(self, key, number):
        self.settings[key] = int(number)

    def do_trace(self):
        self.is_traced = True

    def do_open(self, side):
        number, chosen = SIDES.index(side) + 1, self.settings
        settings = Settings(side == 'il', id=number, peer_id=3 - number, name=side.upper() + '1', peer_name=OTHER[side].upper() + '1',
                            first_sn=chosen['sn_' + side], versions=[chosen['version_' + side]], **{key: chosen[key] for key in SHARED})
        end = self.ends[side] = PrintingEnd.__new__(PrintingEnd)
        end.__init__(settings, self.clocks[side], self, side)

    def do_close(self, side):
        end = self.ends[side]
        end.now = self.clocks[side]
        if end.state != 'Closed':
            end.leave(0)

    def do_clock(self, side, time):
        if int(time) < self.clocks[side]:
            self.refused('Clock')
        else:
            self.clocks[side] = int(time)

    def do_tick(self, side):
        self.ends[side].tick(self.clocks[side])

    def do_put(self, side, kind, payload):
        self.put(side, kind, bytes.fromhex(payload.strip('-')))

    def do_puts(self, side, count, kind):
        for number in range(int(count)):
            self.put(side, kind, bytes([number]))

    def do_putlen(self, side, kind, size):
        self.put(side, kind, bytes(int(size)))

    def do_done(self):
        end = self.ends['fe']
        end.now = self.clocks['fe']
        if not self.refused(end.init_done()):
            end.send()

    def do_give(self, label, channel):
        self.arrive(label, self.datagram(label))

    def do_hit(self, label, channel, place, change):
        octets = bytearray(self.datagram(label))
        octets[int(place)] ^= int(change, 16)
        self.arrive(label, bytes(octets))

    def do_lose(self, label):
        self.named.add(label)

    def do_flow(self, *channels):
        for _ in range(1000):
            label = next(iter(self.unnamed(self.labels)), None)
            if label is None:
                return
            self.named.add(label)
            for _ in channels:
                self.arrive(label, self.datagram(label))

    def do_est(self):
        for line in ESTABLISH:
            word, *rest = line.split()
            getattr(self, 'do_' + word)(*rest)

    def refused(self, name):
        if name:
            self.lines.append('refused ' + name)
        return name

    def put(self, side, kind, payload):
        end = self.ends[side]
        end.now = self.clocks[side]
        if not self.refused(end.put(int(kind, 16), payload)):
            end.put_count += 1
            end.send()

    def arrive(self, label, datagram):
        self.named.add(label)
        side = OTHER[self.maker(label)]
        self.ends[side].arrive(self.clocks[side], datagram, label)


class RandomScript:
    """Plays random lines: each is chosen by what the ends have made."""

    CHOICES = {'n_sendmax': (1, 2, 3, 5, 7, 20, 32), 'n_maxpacket': (1, 2, 3), 'q': range(1, 9), 'mwa': (1, 2, 3, 10, 16), 't_max': (100, 400, 1800),
               't_h': (10, 50, 99), 't_seq': (10, 50, 200), 'code': (8, 16), 'sn_il': (0, 4294967290, 2 ** 31 - 3),
               'sn_fe': (0, 4294967288, 2 ** 31 - 2)}
    RARE = {'pdu_limit': (100, 120), 'version_fe': (2, 3, 4)}

    def __init__(self, rng):
        self.rng, self.script = rng, Script()

    def played(self):
        """Returns the script after it was played."""
        r, play = self.rng, self.script.play
        for choices, chance in ((self.CHOICES, 0.3), (self.RARE, 0.05)):
            for key, values in choices.items():
                if r.random() < chance:
                    play(f'set {key} {r.choice(values)}')
        if self.script.settings['t_h'] >= self.script.settings['t_max']:
            play('set t_h 50')
        play('trace')
        for line in ('est',) if r.random() < 0.8 else ESTABLISH[:2]:
            play(line)
        for _ in range(r.randint(10, 70)):
            if r.random() < 0.12:
                self.make_gaps()
            else:
                self.step(r.random())
        return self.script

    def make_gaps(self):
        """Some units of one end or both are lost, and T_seq passes."""
        r, script = self.rng, self.script
        for side in r.sample(SIDES, r.randint(1, 2)):
            script.play(f'puts {side} {r.randint(1, 9)} 0500')
            own = [label for label in script.unnamed(script.labels[-40:]) if label[0] == side[0]]
            for place, label in enumerate(own[:r.randint(1, 6)]):
                script.play(f'lose {label}' if place == 0 or r.random() < 0.2 else f'give {label} 1')
        self.wait(script.settings['t_seq'], SIDES)
        if r.random() < 0.5:
            script.play('flow 1')

    def wait(self, time, sides):
        for side in sides:
            self.script.play(f'clock {side} {self.script.clocks[side] + time}')
        for side in self.rng.sample(SIDES, 2):
            self.script.play('tick ' + side)

    def step(self, x):
        r, script = self.rng, self.script
        side, new, all_labels = r.choice(SIDES), script.unnamed(script.labels[-60:]), script.labels
        if x < 0.30 and new:
            script.play(f'give {new[0] if r.random() < 0.7 else r.choice(new)} {r.randint(1, 2)}')
        elif x < 0.36 and all_labels:
            script.play(f'give {r.choice(all_labels[-40:])} 1')
        elif x < 0.46 and new:
            script.play(f'lose {new[0] if r.random() < 0.6 else r.choice(new)}')
        elif x < 0.49 and all_labels:
            self.hit(r.choice(all_labels[-8:]))
        elif x < 0.62:
            script.play(r.choice((f'put {side} 0100 0a', f'puts {side} {r.choice((2, 3, 7, 12, 30, 70))} 0200', f'put {side} 0300 -',
                                  f'putlen {side} 0400 {r.choice((0, 357, 358))}', f'put {side} 0022 01')))
        elif x < 0.80:
            self.wait(r.choice((0, 1, 10, 49, 50, 51, 99, 100, 200, 300)), SIDES if r.random() < 0.7 else (side,))
        elif x < 0.95:
            script.play(r.choice(('flow 1', 'flow 1 2', 'flow 2')))
        else:
            script.play('done' if x < 0.965 else f'close {side}' if x < 0.975 else f'open {side}' if x < 0.99 else 'est')

    def hit(self, label):
        r, size = self.rng, len(self.script.datagram(label))
        place = min(size - 1, r.choice((0, 1, 2, 4, 4, 4, 5, 6, 7, r.randrange(size))))
        self.script.play(f'hit {label} 1 {place} {r.choice((1, 2, 4, 8, 16, 255)):02x}')


def kinds(lines):
    """Returns the lines by their kind, each kind in its order: docs/protocol.md does not say in which order kinds are told."""
    found = {}
    for line in lines:
        words = line.split()
        if words[0] == 'note':
            continue
        kind = 'PDUs' if words[0][1:].isdigit() else 'drops' if words[1] in ('drop', 'wait') else 'telegrams' if words[1] == 'takes' \
            else words[0] if words[1] in ('state', 'phase') else 'reports'
        found.setdefault(kind, []).append(line)
    return found
