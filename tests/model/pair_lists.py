"""Random lists of events of a pair, genuine ones and faithful ones.

An event here is one of pair.py, but settings are given by their differences from the defaults, and a datagram by the PDU that it carries:
(incarnations back, index of the PDU, number of the datagram), ('stranger', index, number) for one of another connection, or
('rubbish', number). A digest of the standard library replaces MD4, since no rule depends on the digest and MD4 is slow here; a change
may select a digest that is always zero.
"""
import copy
import hashlib
import random

from pair import Pair, other
from promises import nothing_lost
from settings import Settings
from texts import CARRIERS, red_text, safe_text, tele_text, unit_text

SIDES = {'il': dict(own=1, peer=2, name=b'IL1', peer_name=b'FE1'), 'fe': dict(own=2, peer=1, name=b'FE1', peer_name=b'IL1')}


def of_stranger(maker, index):
    """Makes a PDU of another connection: the same PDU, but with another sender, and other units."""
    pdu = copy.copy(maker.machine.made[index])
    pdu.sender += 10
    if pdu.kind in CARRIERS:
        s = maker.settings
        pdu.body = unit_text([tele_text(s.protocol, 0x0102, s.name, s.peer_name, b'strange')])
    return safe_text(pdu, maker.settings.rule)


def quick_digest(initial_value, octets):
    return hashlib.blake2b(octets, digest_size=16, key=initial_value).digest()


def zero_digest(initial_value, octets):
    return bytes(16)


class Course:
    """A pair in the course of a list of events."""

    def __init__(self, changes, promises):
        self.pair, self.changes, self.promises = Pair(changes), changes, promises
        self.digest = zero_digest if 'live_without_the_length_of_the_code' in changes else quick_digest
        self.is_faithful = True

    def happens(self, event):
        """Applies an event; returns whether it was accepted."""
        what, side, now, *rest = event
        if what == 'open':
            changed, first = rest
            full = (what, side, now, Settings(digest=self.digest, **{**SIDES[side], **changed}), first)
        elif what == 'deliver':
            octets = self.octets(side, rest[0])
            if octets is None:
                return False
            full = (what, side, now, octets)
        else:
            full = event
        self.is_faithful &= self.keeps_faith(what, side, rest)
        if self.pair.apply(full) is not None:
            return False
        end = self.pair.present(side)
        self.is_faithful &= end.red.wait.is_near and end.red.wait.is_in_time and not end.machine.guard_left
        return True

    def breaks_premise(self, event):
        """Whether the event breaks the premise at once; a deferred part may break it later."""
        if event[0] != 'deliver':
            return False
        octets = self.octets(event[1], event[3])
        return octets is not None and self.pair.breaks_premise(event[1], octets)

    def octets(self, side, datagram):
        if datagram[0] == 'rubbish':
            return red_text(datagram[1], b'rubbish')
        makers = self.pair.ends[other(side)]
        back, index, number = (0,) + datagram[1:] if datagram[0] == 'stranger' else datagram
        if back >= len(makers) or index >= len(makers[-1 - back].texts):
            return None
        maker = makers[-1 - back]
        return red_text(number, of_stranger(maker, index) if datagram[0] == 'stranger' else maker.texts[index])

    def keeps_faith(self, what, side, rest):
        """Whether each end is opened once, with the other's code, and not closed by its caller, and each number comes with the PDU of that index."""
        if what == 'open':
            peer = self.pair.present(other(side))
            return not self.pair.ends[side] and (peer is None or peer.settings.code == rest[0].get('code', 8))
        return what != 'close' and (what != 'deliver' or rest[0][0] == 0 and rest[0][1] == rest[0][2])

    def broken(self):
        for promise in self.promises if self.pair.last else ():
            clause = promise(self.pair)
            if clause:
                return clause
        return None

    def is_within(self):
        """Whether the premise of the promises in question holds."""
        return self.pair.is_genuine and (nothing_lost not in self.promises or self.is_faithful)


def run(events, changes, promises):
    """Returns the first broken clause and how many events it took; None if the premise is broken or every promise holds. Refused events do not count."""
    course = Course(changes, promises)
    for count, event in enumerate(events):
        course.happens(event)
        if not course.is_within():
            return None
        clause = course.broken()
        if clause:
            return clause, count + 1
    return None


class Maker:
    """Makes a list event by event."""

    def __init__(self, seed, changes, promises):
        self.rng = random.Random(seed)
        self.course, self.events = Course(changes, promises), []
        self.pair = self.course.pair
        self.is_over, self.clause, self.puts = False, None, 0

    def add(self, *event):
        """Adds an event if it is accepted; the list ends before one that breaks the premise, and after one that breaks a promise."""
        if self.is_over or self.course.breaks_premise(event) or not self.course.happens(event):
            return
        if not self.course.is_within():
            self.is_over = True
            return
        self.events.append(event)
        self.clause = self.course.broken()
        self.is_over = self.clause is not None

    def made(self, steps):
        self.begin()
        for _ in range(steps):
            if self.is_over:
                break
            self.step()
        self.finish()
        return self.events

    def time(self, side):
        end = self.pair.present(side)
        return end.time if end else 0

    def settings(self):
        r = self.rng
        t_max = r.choice((100, 150, 1800, 1800))
        return dict(n_sendmax=r.randint(1, 4), n_maxpacket=r.randint(1, 3), q=r.randint(1, 3), t_max=t_max, t_h=r.choice((10, 30, t_max - 1)),
                    t_seq=r.choice((10, 50)), mwa=r.randint(1, 4), code=8)

    def both_settings(self):
        """Returns settings for il and fe; they match in most lists."""
        il, fe = self.settings(), self.settings()
        how = self.rng.random()
        if how < 0.03:
            fe['versions'] = self.rng.choice(((4,), (4, 3)))
        elif how < 0.06:
            fe['name'] = b'FE2'
        elif how < 0.09:
            il['protocol'] = 2
        elif how < 0.12 or 'live_without_the_length_of_the_code' in self.course.changes and how < 0.7:
            self.rng.choice((il, fe))['code'] = 16
        return il, fe

    def first(self):
        return self.rng.choice((100, 500, 2 ** 32 - 3))

    def begin(self):
        r = self.rng
        il, fe = self.both_settings()
        now = r.choice((0, 0, 2 ** 32 - 60))
        opening = [('open', 'fe', now, fe, self.first()), ('open', 'il', now + r.choice((0, 7)), il, self.first())]
        for event in opening if r.random() < 0.9 else opening[::-1]:
            self.add(*event)
        if r.random() < 0.7:
            self.establish()

    def establish(self):
        self.flow()
        self.add('init_done', 'fe', self.time('fe'))
        if self.rng.random() < 0.8:
            self.flow()

    def flow(self):
        """Delivers all PDUs that have not come yet, in order."""
        for _ in range(200):
            before = len(self.events)
            for side in ('fe', 'il'):
                end, peer = self.pair.present(side), self.pair.present(other(side))
                if end and peer and not end.is_shut() and end.red.wait.missing < len(peer.texts):
                    self.add('deliver', side, self.time(side), (0, end.red.wait.missing, end.red.wait.missing))
            if self.is_over or len(self.events) == before:
                return

    def finish(self):
        pass

    def put(self, side):
        self.puts += 1
        kind = 0x0100 if side == 'il' else 0x0200
        self.add('put', side, self.time(side), kind, (self.puts % 65536).to_bytes(2, 'big'))


class GenuineMaker(Maker):
    """Genuine lists: losses, repeats, delays, damaged numbers, reopenings, closings, times just at their limits."""

    def step(self):
        r, side = self.rng, self.rng.choice(('il', 'fe'))
        x = r.random()
        if self.is_stuck(side) and r.random() < 0.2:
            self.reopen(side)
        elif x < 0.66:
            self.deliver(side)
        elif x < 0.86:
            self.put(side)
        elif x < 0.93:
            self.add('tick', side, self.later(side))
        elif x < 0.95:
            self.add('init_done', 'fe', self.time('fe'))
        elif x < 0.954:
            self.add('close', side, self.time(side))
        elif x < 0.96:
            self.reopen(side)
        else:
            self.flow()

    def is_stuck(self, side):
        """Whether the end is closed, or waits for a request that can no longer come."""
        end = self.pair.present(side)
        return end and (end.is_shut() or end.machine.state == 'Down' and self.pair.dead['il'] > 0)

    def later(self, side):
        r, end = self.rng, self.pair.present(side)
        if end is None or r.random() < 0.7:
            return self.time(side)
        marks = [end.time + 1, end.time + 5, end.time + 30]
        marks += [end.red.since + end.settings.t_seq] * 2 if end.red.waiting else []
        marks += [end.machine.confirmed_at + end.settings.t_max - r.choice((0, 1))] if r.random() < 0.2 else []
        return max(end.time, r.choice(marks))

    def deliver(self, side):
        r, end, makers = self.rng, self.pair.present(side), self.pair.ends[other(side)]
        if end is None or not makers:
            return
        back = 1 if len(makers) > 1 and r.random() < 0.1 else 0
        last = len(makers[-1 - back].texts) - 1
        if last < 0:
            return
        if r.random() < 0.7:
            index = min(last, end.red.expected + r.choice((0, 0, 0, 0, 1, 1, 2)))
        else:
            index = r.randint(max(0, last - 6), last) if r.random() < 0.7 else r.randint(0, last)
        number = end.red.expected if r.random() < 0.3 else index
        asking = [i for i, p in enumerate(makers[-1 - back].machine.made) if p.kind in ('RetrReq', 'RetrResp')]
        if asking and r.random() < (0.4 if end.machine.state == 'RetrReq' else 0.05):
            index, number = r.choice(asking), end.red.expected
        datagram = (back, index, number)
        if r.random() < 0.04:
            datagram = r.choice((('rubbish', number), ('stranger', index, number)))
        self.add('deliver', side, self.later(side), datagram)

    def reopen(self, side):
        """Opens one end, or both in either order."""
        r = self.rng
        settings = dict(zip(('il', 'fe'), self.both_settings()))
        order = r.choice((('fe', 'il'), ('fe', 'il'), ('fe', 'il'), ('il', 'fe'), (side,)))
        for end in order:
            self.add('open', end, self.time(end), settings[end], self.first())
        if len(order) > 1 and r.random() < 0.7:
            self.establish()


class FaithfulMaker(Maker):
    """Faithful lists: each PDU comes in time and under its number, out of order and repeated."""

    def both_settings(self):
        il, fe = super().both_settings()
        il['code'] = fe['code'] = self.rng.choice((8, 16))
        return il, fe

    def step(self):
        r, side = self.rng, self.rng.choice(('il', 'fe'))
        x = r.random()
        if x < 0.7:
            self.deliver(side)
        elif x < 0.9:
            self.put(side)
        elif x < 0.95:
            self.add('tick', side, self.later(side))
        elif x < 0.97:
            self.add('init_done', 'fe', self.time('fe'))
        else:
            self.flow()

    def finish(self):
        self.flow()

    def later(self, side):
        """Returns a time at which no deadline has passed."""
        end, r = self.pair.present(side), self.rng
        if r.random() < 0.6:
            return end.time
        until = [end.machine.confirmed_at + end.settings.t_max] if end.machine.state not in ('Down', 'Closed') else []
        until += [end.red.wait.began + end.settings.t_seq] if end.red.wait.began is not None else []
        latest = min(until) - 1 if until else end.time + 20
        return max(end.time, min(latest, r.choice((end.time + 1, end.time + 5, end.time + 10, latest))))

    def deliver(self, side):
        r, end, peer = self.rng, self.pair.present(side), self.pair.present(other(side))
        if end is None or peer is None or not peer.texts:
            return
        wait = end.red.wait
        index = min(len(peer.texts) - 1, wait.missing + r.choice((0, 0, 1, 1, 2, 3, -1, -2)))
        index = max(0, min(index, wait.missing + end.settings.q))
        self.add('deliver', side, self.later(side), (0, index, index))


def simpler(events, runs):
    """Returns the list with default settings, if it still breaks a clause."""
    for place, event in enumerate(events):
        for key in event[3] if event[0] == 'open' else ():
            what, side, now, changed, first = events[place]
            less = events[:place] + [(what, side, now, {k: v for k, v in changed.items() if k != key}, first)] + events[place + 1:]
            if runs(less):
                events = less
    return events


def told(event):
    """Returns an event as a line of text."""
    what, side, now, *rest = event
    if what == 'open':
        changed, first = rest
        return '%s opens at %d, first number %d %s' % (side, now, first, ' '.join('%s %s' % item for item in changed.items()))
    if what == 'deliver' and rest[0][0] == 'rubbish':
        return '%s hears at %d rubbish under the number %d' % (side, now, rest[0][1])
    if what == 'deliver' and rest[0][0] == 'stranger':
        return '%s hears at %d a PDU of another connection like PDU %d under the number %d' % (side, now, *rest[0][1:])
    if what == 'deliver':
        back, index, number = rest[0]
        under = '' if number == index else ' under the number %d' % number
        return '%s hears at %d the PDU %d%s%s' % (side, now, index, ' of the opening before' if back else '', under)
    if what == 'put':
        return '%s puts in at %d %04x:%s' % (side, now, rest[0], rest[1].hex())
    return '%s at %d: %s' % (side, now, what)
