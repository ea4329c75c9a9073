#!/usr/bin/env python3
"""Reads a capture in the model, and prints what `rasta follow` must print: a line for each datagram, or its events, and the sums.

    tests/model/follow.py follow [--code 0|8|16] [--only WORD] [--ports PORTS] [--t-max MS] [--time FORM] [--from INSTANT] [--to INSTANT] [--every N] [--choose] [--json] [--events] FILE
"""
import argparse
import datetime
import ipaddress
import json
import re
import sys

sys.dont_write_bytecode = True
from settings import Settings  # noqa: E402
from texts import OPENINGS, red_seen, safe_seen  # noqa: E402

KEPT, PASSED_MAX, CHANNELS, CONNECTIONS, WRAP = 32, 65535, 4, 256, 2 ** 32
DAMAGES = 8  # damaged datagrams of an end that are kept
SESSIONS, TIMEOUT = 64, 3  # sessions that have ended and are printed
CLASSES, MOMENTS = 24, 8  # classes of times, and PDUs of an end that are kept with their times
MEASURED = ('round_trip', 'skew', 'silence', 'waits')
LINE_MAX, PAYLOAD_MAX = 8192, 2048
ONLY = ('opens', 'repeat', 'differs', 'ahead', 'late', 'stale', 'anew', 'resent', 'age', 'waits', 'reason', 'fault')
FAULTS = {'red': ('Short', 'Length', 'Reserve'), 'safe': ('Short', 'Length', 'Code', 'Type', 'Body')}
REASONS = ('closed by user', 'unexpected PDU', 'sequence error', 'timeout', 'service not allowed', 'wrong version',
           'retransmission impossible', 'protocol error')
DETAILS = {4: ('version differs', 'out of order', 'not of this pair'),
           7: ('limit of PDUs', 'bad unit', 'confirmed number', 'confirmed timestamp')}


class Numbers:
    """The numbers received or skipped lately: for each its line and octets, or that it is missing."""

    def __init__(self):
        self.heard = self.missing = self.late = self.repeats = self.differing = self.stale = 0
        self.begin()

    def begin(self):
        self.newest, self.known = None, {}

    def repeats_as(self, number, octets):
        """Whether a number is kept with these octets."""
        return (self.known.get(number) or (0, None))[1] == octets

    def note(self, number, line, octets):
        """Returns the remark on its order; empty if it is the first or the next."""
        if self.known.get(number):
            first = self.known[number]
            if first[1] == octets:
                self.repeats += 1
                return 'repeat of line %d' % first[0]
            self.differing += 1
            return 'differs from line %d' % first[0]
        if number in self.known:
            self.missing, self.late = self.missing - 1, self.late + 1
            self.keep(number, line, octets)
            return 'late'
        steps = 1 if self.newest is None else (number - self.newest) % WRAP
        if steps >= WRAP // 2:
            self.stale += 1
            return 'stale'
        self.heard += 1
        said = 'anew' if steps > PASSED_MAX + 1 else 'ahead %d' % (steps - 1) if steps > 1 else ''
        if said == 'anew':
            self.begin()
        elif said:
            self.missing += steps - 1
            self.known.update({(number - back) % WRAP: None for back in range(1, min(steps, KEPT))})
        self.newest = number
        self.keep(number, line, octets)
        return said

    def keep(self, number, line, octets):
        """Keeps a received number until one is received that is a multiple of KEPT away; a skipped one for KEPT numbers."""
        self.known = {known: first for known, first in self.known.items()
                      if ((number - known) % KEPT if first else (self.newest - known) % WRAP < KEPT)}
        self.known[number] = (line, octets)

    def sums(self):
        return 'PDUs %d missing %d repeats %d late %d differs %d stale %d' % self.counts()

    def counts(self):
        return self.heard, self.missing, self.repeats, self.late, self.differing, self.stale

    def members(self):
        return dict(zip(('PDUs', 'missing', 'repeats', 'late', 'differs', 'stale'), self.counts()))


class Direction:
    """The PDUs that one end of a connection sent."""

    def __init__(self):
        self.opening = self.stamp = self.left = self.parting = None
        self.damages = {}  # by remainder of the redundancy number: number and line of the last damaged datagram
        self.since, self.confirming = None, {}  # the own timestamp last confirmed; by remainder of SN: SN, TS and CTS of the last PDU
        self.channels = [Numbers() for _ in range(CHANNELS)]
        self.together, self.sequence, self.damaged = Numbers(), Numbers(), [0] * CHANNELS
        self.openings = self.oldest = self.longest = self.last = self.silence = self.opened = 0
        self.kinds = {'HB': 0, 'RetrReq': 0, 'RetrData': 0, 'DiscReq': 0}

    def opens(self, opening, time):
        self.opening, self.openings, self.left, self.opened = opening, self.openings + 1, None, time
        self.since, self.confirming, self.damages = opening[2], {}, {}
        for numbers in self.channels + [self.together, self.sequence]:
            numbers.begin()

    def is_copy(self, channel, number, octets):
        """Whether this opening was received already, and nothing else of its end on its channel since."""
        newest = self.channels[channel].newest if channel < CHANNELS else None
        return self.together.repeats_as(number, octets) and newest in (None, number)

    def follow(self, time, line, channel, number, p, octets, peer):
        """Returns the remarks on a PDU; `peer` is the direction of the other end."""
        words = []
        if p.kind in OPENINGS and not self.is_copy(channel, number, octets):
            self.opens((p.kind, p.sn, p.ts), time)
            words.append('opens')
        if channel < CHANNELS:
            words.append(named('channel', self.channels[channel].note(number, line, octets)))
        together = self.together.note(number, line, octets)
        is_new = not together.startswith(('repeat', 'differs', 'stale'))
        words += [named('all', together), named('sn', self.sequence.note(p.sn, line, octets)) if is_new else '']
        if is_new and together != 'late':
            self.stamp = p.ts
        again = ['resent' if p.kind == 'RetrData' else '']
        if is_new:
            damaged, damage = self.damages.get(number % DAMAGES, (None, None))
            asked = peer.sequence.known.get((p.cs + 1) % WRAP) if p.kind == 'RetrReq' else None
            again += ['after damage in line %d' % damage if damaged == number else '', 'asks for line %d' % asked[0] if asked else '']
        age = None if self.confirms_nothing(p) or peer.opening and after(peer.opening[2], p.cts) is None else after(p.cts, peer.stamp)
        waits = self.waits(p, peer) if is_new else None
        left = leaving(*p.body[::-1]) if p.kind == 'DiscReq' else None
        if is_new:
            self.counts(time, p.kind, age, waits, left)
            self.parting = (time, *p.body[::-1]) if left else self.parting
        words += again + ['' if age is None else 'age %d ms' % age, '' if waits is None else 'waits %d ms' % waits, left]
        return [word for word in words if word], is_new

    def waits(self, p, peer):
        """Returns the time since the own timestamp that was last confirmed: by the PDU of the other end that this one confirms."""
        sn, ts, cts = peer.confirming.get(p.cs % KEPT, (None, None, None))
        if (sn, ts) == (p.cs, p.cts) and not self.confirms_nothing(p):
            self.since = cts
        self.confirming[p.sn % KEPT] = (None, None, None) if p.kind == 'ConnReq' else (p.sn, p.ts, p.cts)
        return after(self.since, p.ts)

    def confirms_nothing(self, p):
        """Whether it is a ConnReq, or the DiscReq of an end that before sent only its ConnReq."""
        is_behind = self.opening is not None and self.opening[0] == 'ConnReq' and p.sn == (self.opening[1] + 1) % WRAP
        return p.kind == 'ConnReq' or p.kind == 'DiscReq' and is_behind

    def silent(self, until):
        """Returns the longest time without a PDU."""
        return max(self.silence, until - self.last) if self.last else self.silence

    def counts(self, time, kind, age, waits, left):
        if kind in self.kinds:
            self.kinds[kind] += 1
        self.oldest, self.longest = max(self.oldest, age or 0), max(self.longest, waits or 0)
        self.silence = self.silent(time)
        self.last, self.left = time, left or self.left

    def members(self, until):
        """Returns the sums as members of a JSON object; silence lasts up to the last PDU of either end."""
        left = dict(zip(('time', 'reason', 'detail'), self.parting)) if self.left else None
        return {'opening': self.opening and self.opening[0], 'openings': self.openings, 'opened': self.opened or None, **self.together.members(),
                'heartbeats': self.kinds['HB'], 'requests': self.kinds['RetrReq'], 'resent': self.kinds['RetrData'],
                'disconnects': self.kinds['DiscReq'], 'silence': self.silent(until), 'age': self.oldest, 'waits': self.longest, 'last': self.last or None, 'left': left}

    def sums(self, first, t_max, until):
        opened = 'opened by %s times %d' % (self.opening[0], self.openings) if self.opening else 'opening not seen'
        kinds = 'heartbeats %d requests %d resent %d disconnects %d' % tuple(self.kinds.values())
        near = ' '.join('%s %d of %d%s' % (word, most, t_max, ' reached' if most >= t_max else '') for word, most in (('age', self.oldest), ('waits', self.longest)))
        last = 'last ' + first.said(self.last) if self.last else 'not heard'
        return ' '.join((opened, self.together.sums(), kinds, 'silence ' + seconds(self.silent(until)), near, last,
                         'DiscReq ' + self.left if self.left else 'no DiscReq'))


def is_near(newest, number):
    """Whether a number is not further from the newest one than over the largest gap."""
    return newest is not None and min((number - newest) % WRAP, (newest - number) % WRAP) <= PASSED_MAX + 1


def after(first, stamp):
    """Returns how far a timestamp is after another, or None if it is before it or one is unknown."""
    steps = None if first is None or stamp is None else (stamp - first) % WRAP
    return steps if steps is not None and steps < WRAP // 2 else None


def named(name, said):
    return name + ' ' + said if said else ''


def leaving(reason, detail):
    why, more = REASONS[reason:reason + 1], DETAILS.get(reason, ())[detail - 1:detail] if detail else ()
    return ' '.join(('reason', str(reason), *why, 'detail', str(detail), *more))


class Side:
    """What one end did in a session, by the remarks on its PDUs."""

    def __init__(self):
        self.left, self.waits, self.resent, self.repeats = None, 0, 0, 0
        self.missing, self.lost = [0] * CHANNELS, 0

    def take(self, time, channel, p, words, is_new, other):
        for word in words:
            first, _, rest = word.partition(' ')
            if first == 'channel':
                self.repeats += rest.startswith('repeat')
                self.missing[channel] = missed(self.missing[channel], rest)
            elif first == 'all':
                self.lost = missed(self.lost, rest)
            elif first == 'waits':
                self.waits = max(self.waits, int(rest.split()[0]))
        if is_new:
            self.resent += p.kind == 'RetrData'
            if p.kind == 'DiscReq' and self.left is None:
                self.left = (time, *p.body[::-1], other.left is not None)

    def alone(self):
        """Returns how many datagrams one channel lost whose PDU came on another."""
        return sum(max(0, missing - self.lost) for missing in self.missing)

    def members(self):
        return {'left': dict(zip(('time', 'reason', 'detail', 'follows'), self.left)) if self.left else None, 'waits': self.waits,
                'lost_on_every_channel': self.lost, 'lost_on_one_channel': self.alone(), 'resent': self.resent, 'repeats': self.repeats}


def missed(count, said):
    """Returns how many numbers are missing after one that followed as the remark says."""
    word, *number = said.split()
    return count + int(number[0]) if word == 'ahead' else max(0, count - 1) if word == 'late' else count


class Session:
    """What happened from an opening to the next one."""

    def __init__(self, number, asked=None, up=None):
        self.number, self.asked, self.up, self.sides = number, asked, up, (Side(), Side())

    def is_unanswered(self):
        return self.asked is not None and self.up is None and self.sides[1 - self.asked[1]].left is None

    def is_timeout(self):
        return any(side.left and side.left[1] == TIMEOUT for side in self.sides)

    def line(self, ends, route, first):
        def at(time):
            return first.said(time)

        words = ['session %d of %d-%d' % (self.number, *ends) + (' at %s-%s' % route if route else ''),
                 '%d asked at %s' % (ends[self.asked[1]], at(self.asked[0])) if self.asked else 'its ConnReq was not recorded',
                 'came up at ' + at(self.up) if self.up is not None else 'nobody answered' if self.is_unanswered() else 'was not seen to come up']
        left = ['%d left at %s %s %s' % (end, at(side.left[0]), 'after the other' if side.left[3] else 'by itself', leaving(*side.left[1:3]))
                for end, side in zip(ends, self.sides) if side.left]
        words += left or ['nobody left']
        words += ['%d waited %d ms' % (end, side.waits) for end, side in zip(ends, self.sides)]
        return ', '.join(words + [losses(sum(side.lost for side in self.sides), sum(side.alone() for side in self.sides)),
                                  'sent again %d' % sum(side.resent for side in self.sides),
                                  'repeats on one channel %d' % sum(side.repeats for side in self.sides)])

    def members(self, ends):
        return {'session': self.number, 'asked': self.asked and self.asked[0], 'asked_by': self.asked and ends[self.asked[1]], 'up': self.up,
                'unanswered': self.is_unanswered(), 'low': self.sides[0].members(), 'high': self.sides[1].members()}


class Measured:
    """The times that are measured of an end, in milliseconds, and its last PDUs in this session."""

    def __init__(self):
        self.values, self.units, self.busiest = {name: [] for name in MEASURED}, 0, 0
        self.begin()

    def begin(self):
        self.sent, self.last, self.confirmed = {}, 0, 0

    def take(self, time, channel, p, words, is_new, peer):
        """Adds a PDU, by the remarks on it; `peer` is what is measured of the other end."""
        if 'opens' in words:
            self.begin()
        if is_new:
            if p.kind not in ('RetrReq', 'RetrResp', 'RetrData') and has(words, 'age ') and not has(words, 'all late') and p.cts != self.confirmed:
                self.add('round_trip', peer.moment(p.cs, p.cts), time)
                self.confirmed = p.cts
            self.add('silence', self.last, time)
            self.values['waits'] += [int(word.split()[1]) for word in words if word.startswith('waits ')]
            self.units = (self.units if time // 10 ** 6 == self.last // 10 ** 6 else 0) + (p.kind == 'Data')
            self.busiest, self.last = max(self.busiest, self.units), time
            self.sent[p.sn % MOMENTS] = p.ts, time
        elif has(words, 'all repeat') and channel < CHANNELS and not has(words, 'channel repeat'):
            self.add('skew', self.moment(p.sn, p.ts), time)

    def moment(self, sn, ts):
        """Returns when a PDU was recorded first; 0 if it is not kept."""
        stamp, time = self.sent.get(sn % MOMENTS, (None, 0))
        return time if stamp == ts else 0

    def add(self, name, start, end):
        if start:
            self.values[name].append(min(max(0, end - start) // 1000, WRAP - 1))

    def counts(self, name):
        classes = [min(value.bit_length(), CLASSES - 1) for value in self.values[name]]
        return [classes.count(place) for place in range(CLASSES)]

    def lines(self, sender, receiver):
        for name in MEASURED:
            most = max(self.values[name], default=0)
            yield 'times %d->%d %s %d greatest %d ms, below 1, 2, 4, .. ms: %s' % (
                sender, receiver, name.replace('_', ' '), len(self.values[name]), most,
                ' '.join(map(str, self.counts(name)[:min(most.bit_length(), CLASSES - 1) + 1])))

    def members(self):
        return {name: {'greatest': max(self.values[name], default=0), 'counts': self.counts(name)} for name in MEASURED}


def has(words, start):
    return any(word.startswith(start) for word in words)


class Choice:
    """The settings that fit a connection, by the rule of docs/choosing.md."""

    def __init__(self, connection):
        self.ends, self.measured, directions = connection.ends, connection.measured, connection.directions
        self.pdus = sum(direction.together.heard for direction in directions)
        self.lost = max(n.missing * 10 ** 6 // max(1, n.heard + n.late + n.missing) for direction in directions for n in direction.channels)
        least = [next((2 ** place - 1 for place, count in enumerate(one.counts('round_trip')) if count), None) for one in self.measured]
        skews = [value for one in self.measured for value in one.values['skew']]
        self.has_trips, self.has_skews = None not in least, bool(skews)
        shortest = (sum(least) + 1) // 2 if self.has_trips else 5
        self.difference = max(skews) if skews else shortest
        self.delay = shortest + self.difference
        self.units = max(one.busiest for one in self.measured)
        self.t_seq = max(self.difference + max(self.difference // 4, 5), 10)
        self.t_h = max(2 * self.t_seq, 100)
        self.t_max = 4 * self.t_h + 2 * self.t_seq + 6 * self.delay
        self.fits = self.difference <= 800 and self.delay <= 8000

    def lines(self):
        for one, ends in zip(self.measured, (self.ends, self.ends[::-1])):
            yield from one.lines(*ends)
        few = ', too few to rely on: record some hundred with telegrams' if self.pdus < 300 else ''
        within = (2 * self.delay * self.units + 999) // 1000
        said = ['from %d PDUs%s; p %d of 1000000: the most that a channel lost' % (self.pdus, few, self.lost),
                'D %d ms: %s' % (self.difference, 'the greatest skew' if self.has_skews else
                                 'assumed to be the shortest time one way, since no copy came on another channel'),
                'd %d ms: D and %s' % (self.delay, 'half of the shortest round trips of both ends' if self.has_trips else
                                       '5 ms, assumed since an end has no round trip'),
                'busiest second %d units one way, %d within 2 d%s' % (
                    self.units, within, ': more than the window holds, so telegrams wait' if within > 7 else '')]
        said += ['n_sendmax 7 mwa 3 q 8: 7 - 1 + 7/3 is at most 8',
                 'T_seq %d ms: above D, %d ms, by a quarter and at least 5 ms' % (self.t_seq, self.difference),
                 'T_h %d ms: twice T_seq, and at least 100 ms' % self.t_h,
                 'T_max %d ms: 4 T_h + 2 T_seq + 6 d, for two repairs in a row' % self.t_max] if self.fits else [
                     'no settings: D may be 800 ms and d 8000 ms at most, for T_seq and T_max in their ranges']
        yield from ('choose %d-%d %s' % (*self.ends, one) for one in said)

    def members(self):
        return {'low': self.ends[0], 'high': self.ends[1], 'times': [one.members() for one in self.measured], 'PDUs': self.pdus, 'lost': self.lost,
                'units': self.units, 'round_trips_seen': self.has_trips, 'skews_seen': self.has_skews, 'difference': self.difference, 'delay': self.delay,
                'settings': {'n_sendmax': 7, 'mwa': 3, 'q': 8, 't_seq': self.t_seq, 't_h': self.t_h, 't_max': self.t_max} if self.fits else None}


def losses(everywhere, alone):
    return 'PDUs lost on every channel %d, datagrams lost on one channel whose PDU came on another %d' % (everywhere, alone)


class Connection:
    """Two ends, by their identifiers, the lower one first, and the channels between their addresses."""

    def __init__(self, ends):
        self.ends, self.routes, self.directions, self.last, self.sessions = ends, [], (Direction(), Direction()), 0, []
        self.measured = Measured(), Measured()

    def known(self, source, destination):
        """Returns the number of the channel between two addresses, in either direction."""
        return next((place for place, route in enumerate(self.routes) if set(route) == {source, destination}), None)

    def channel(self, source, destination, is_from_low):
        place = self.known(source, destination)
        if place is not None:
            return place
        if len(self.routes) < CHANNELS:
            self.routes.append((source, destination) if is_from_low else (destination, source))
            return len(self.routes) - 1
        return CHANNELS

    def is_continued(self, p):
        """Whether a PDU goes on with what its end and the other end sent: an opening by its SN and TS, another PDU by numbers that are near."""
        own, other = self.directions[::1 if p.sender == self.ends[0] else -1]
        if p.kind in OPENINGS:
            return own.opening is not None and own.opening[1:] == (p.sn, p.ts) or other.opening is not None and other.opening[1:] == (p.cs, p.cts)
        return is_near(own.sequence.newest, p.sn) or is_near(other.sequence.newest, p.cs)

    def damages(self, source, place, number, line):
        """Counts a datagram that is not a PDU for the end whose address sent it, and keeps its redundancy number if it has one."""
        direction = self.directions[self.routes[place][0] != source]
        direction.damaged[place] += 1
        if number is not None:
            direction.damages[number % DAMAGES] = number, line

    def up(self):
        """Returns the time of the reply to the last ConnReq."""
        asks, answers = ([d for d in self.directions if d.opening and d.opening[0] == kind] for kind in OPENINGS)
        return answers[0].opened if asks and answers and asks[0].opened <= answers[0].opened else None

    def takes(self, time, channel, is_from_low, p, words, is_new):
        """Adds a PDU to its session, by the remarks on it."""
        end = 0 if is_from_low else 1
        current = self.sessions[-1] if self.sessions else None
        if 'opens' in words and p.kind == 'ConnResp' and current and current.up is None and current.asked and current.asked[1] != end:
            current.up = time
        elif 'opens' in words or not current:
            asked, up = [time if 'opens' in words and p.kind == kind else None for kind in OPENINGS]
            self.sessions.append(Session(len(self.sessions) + 1, None if asked is None else (asked, end), up))
        session = self.sessions[-1]
        session.sides[end].take(time, channel, p, words, is_new, session.sides[1 - end])
        self.measured[end].take(time, channel, p, words, is_new, self.measured[1 - end])

    def session_sums(self):
        """Returns how many sessions there were, came up, were not answered, were left, were left by a timeout."""
        return (len(self.sessions), sum(one.up is not None for one in self.sessions), sum(one.is_unanswered() for one in self.sessions),
                sum(any(side.left for side in one.sides) for one in self.sessions), sum(one.is_timeout() for one in self.sessions))

    def losses(self):
        """Returns the PDUs lost on every channel, and the datagrams lost on one channel whose PDU came on another."""
        return (sum(direction.together.missing for direction in self.directions),
                sum(side.alone() for one in self.sessions for side in one.sides))

    def sentence(self, first, t_max):
        longest = max(direction.longest for direction in self.directions)
        return ', '.join((
            'connection %d-%d sessions %d, came up %d, nobody answered %d, ended by a DiscReq %d, by timeout %d' % (*self.ends, *self.session_sums()),
            'last PDU at ' + first.said(self.last), losses(*self.losses()),
            'waits %d of %d%s' % (longest, t_max, ' reached' if longest >= t_max else '')))

    def members(self):
        everywhere, alone = self.losses()
        directions = []
        for (sender, receiver), direction in zip((self.ends, self.ends[::-1]), self.directions):
            routes = [{'channel': place + 1, 'low': route[0], 'high': route[1],
                       'datagrams': sum(n.counts()) - n.missing + direction.damaged[place], **n.members(), 'damaged': direction.damaged[place]}
                      for place, (route, n) in enumerate(zip(self.routes, direction.channels))]
            directions.append({'from': sender, 'to': receiver, **direction.members(self.last), 'channels': routes})
        sessions = dict(zip(('number', 'up', 'unanswered', 'left', 'timeouts'), self.session_sums()))
        sessions['table'] = [one.members(self.ends) for one in self.sessions[-SESSIONS - 1:]]
        return {'low': self.ends[0], 'high': self.ends[1], 'up': self.up(), 'last': self.last, 'lost_on_every_channel': everywhere, 'lost_on_one_channel': alone,
                **{name: max(direction[name] for direction in directions) for name in ('age', 'waits')}, 'sessions': sessions, 'directions': directions}

    def sums(self, first, t_max, is_ambiguous):
        for (sender, receiver), direction in zip((self.ends, self.ends[::-1]), self.directions):
            yield 'sum %d->%d %s' % (sender, receiver, direction.sums(first, t_max, self.last))
            for place, route in enumerate(self.routes):
                n = direction.channels[place]
                yield 'sum %d->%d ch %d %s-%s datagrams %d %s damaged %d' % (
                    sender, receiver, place + 1, *route, sum(n.counts()) - n.missing + direction.damaged[place], n.sums(),
                    direction.damaged[place])
        for one in self.sessions[-SESSIONS - 1:]:
            yield one.line(self.ends, tuple(self.routes[0]) if is_ambiguous else None, first)
        yield self.sentence(first, t_max)

    def counts(self):
        return [sum(pair) for pair in zip(*(direction.together.counts() for direction in self.directions))]


class Follower:
    """All connections of a capture, in the order of their last PDUs."""

    def __init__(self, rule):
        self.rule, self.connections, self.damaged, self.forgotten, self.unreadable = rule, [], 0, 0, 0
        self.miscoded = 0  # datagrams with another safety code or too short for one; None once one has the right code
        self.frames, self.others = 0, [0, 0]  # lines, and how many of them have no chosen port, and another time than is asked for
        self.datagrams, self.gone = 0, [0] * 6
        self.events = []  # of the last datagram: the name and the members of each event

    def line(self, time, line, source, destination, octets):
        """Returns the contents of a datagram, and the words of its remarks."""
        self.datagrams += 1
        way, seen = '->'.join((source, destination)), red_seen(octets)
        number, p = (None, None) if isinstance(seen, str) else (seen[0], safe_seen(seen[1], self.rule))
        if p is None or isinstance(p, str):
            self.damages(source, destination, number, line)
            self.miscoded = self.coded(p)
            layer, name = ('red', seen) if p is None else ('safe', p)
            self.events = [('damaged', {'source': source, 'destination': destination, 'layer': layer, 'fault': FAULTS[layer].index(name) + 1, 'name': name})]
            return way if p is None else '%s red %d' % (way, number), [fault('red', seen) if p is None else fault('safe', p)]
        self.miscoded = None
        connection = self.connection(p, source, destination)
        connection.last = time
        is_from_low = p.sender == connection.ends[0]
        channel = connection.channel(source, destination, is_from_low)
        own, other = connection.directions[::1 if is_from_low else -1]
        words, is_new = own.follow(time, line, channel, number, p, seen[1], other)
        connection.takes(time, channel, is_from_low, p, words, is_new)
        place = {'from': p.sender, 'to': p.receiver, 'channel': channel + 1 if channel < CHANNELS else None}
        self.events = [(name, {**place, **more}) for name, more in events(p, words, is_new)]
        return '%d->%d ch %s red %d %s sn %d cs %d ts %d cts %d' % (
            p.sender, p.receiver, channel + 1 if channel < CHANNELS else 'other', number, p.kind, p.sn, p.cs, p.ts, p.cts), words

    def coded(self, fault):
        """Returns how many datagrams have another safety code, after one with this fault."""
        if self.miscoded is None or fault in (None, 'Length'):
            return self.miscoded
        return self.miscoded + 1 if fault in ('Code', 'Short') else None

    def damages(self, source, destination, number, line):
        """Handles a datagram that is not a PDU, on the channel of the latest connection that has it."""
        self.damaged += 1
        for connection in reversed(self.connections):
            place = connection.known(source, destination)
            if place is not None:
                return connection.damages(source, place, number, line)

    def closed(self):
        """Returns the place of the connection that is forgotten: the first that an end has left, or else the first."""
        return next((place for place, connection in enumerate(self.connections) if any(side.left for side in connection.sessions[-1].sides)), 0)

    def connection(self, p, source, destination):
        """Returns the connection of a PDU, now the last: between these addresses, or else the last one that it goes on with, or else a new one."""
        ends = sorted((p.sender, p.receiver))
        same = [connection for connection in self.connections if connection.ends == ends]
        known = ([one for one in same if one.known(source, destination) is not None] or [one for one in same if one.is_continued(p)])[-1:]
        if not known and len(self.connections) == CONNECTIONS:
            self.forgotten += 1
            self.gone = [sum(pair) for pair in zip(self.gone, self.connections.pop(self.closed()).counts())]
        others = [connection for connection in self.connections if connection not in known]
        self.connections = others + (known or [Connection(ends)])
        return self.connections[-1]

    def members(self, first, t_max, choose):
        """Returns all sums as one JSON object in one line."""
        counts = [sum(column) for column in zip(self.gone, *(connection.counts() for connection in self.connections))]
        names = ('PDUs', 'missing', 'repeats', 'late', 'differs', 'stale')
        return json.dumps({'first': first.first or None, 't_max': t_max, 'all': {
            'datagrams': self.datagrams, **dict(zip(names, counts)), 'damaged': self.damaged, 'forgotten': self.forgotten, 'unreadable': self.unreadable,
                    'frames': self.frames, 'passed': {'ports': self.others[0], 'times': self.others[1], **dict.fromkeys(('no_ip', 'no_udp', 'tunnels', 'fragments', 'truncated', 'lengths', 'links'), 0)}},
            'connections': [connection.members() for connection in self.connections],
            **({'choosing': [Choice(connection).members() for connection in self.connections]} if choose else {})}, separators=(',', ':'))

    def sums(self, first, t_max, choose):
        if first.first:
            yield 'sum first datagram at ' + utc(first.first)
        for connection in self.connections:
            yield from connection.sums(first, t_max, sum(connection.ends == other.ends for other in self.connections) > 1)
        counts = [sum(column) for column in zip(self.gone, *(connection.counts() for connection in self.connections))]
        assert sum(counts) - counts[1] + self.damaged == self.datagrams
        if any(self.others):
            yield 'sum passed over: other ports %d other times %d no IP 0 no UDP 0 tunnels 0 fragments 0 truncated 0 lengths 0 links 0' % tuple(self.others)
        yield 'sum all datagrams %d PDUs %d missing %d repeats %d late %d differs %d stale %d damaged %d forgotten %d unreadable %d' % (
            self.datagrams, *counts, self.damaged, self.forgotten, self.unreadable)
        if choose and not self.connections:
            yield 'choose nothing: no PDU of RaSTA was recorded; record both ends, and look at --ports and --code'
        for connection in self.connections if choose else []:
            yield from Choice(connection).lines()


def fault(layer, name):
    return '%s fault %d %s' % (layer, FAULTS[layer].index(name) + 1, name)


def events(p, words, is_new):
    """Returns the events of a PDU, by the remarks on it."""
    for word in words:
        first, _, rest = word.partition(' ')
        if first == 'opens':
            yield 'opens' if p.kind == 'ConnReq' else 'up', {}
        elif first in ('channel', 'all') and rest.startswith('ahead'):
            yield 'lost', {'on_every_channel': first == 'all', 'missing': int(rest.split()[1])}
        elif first in ('channel', 'all') and rest == 'late':
            yield 'late', {'on_every_channel': first == 'all'}
        elif first == 'waits' or first == 'resent' and is_new:
            yield first, {'waits': int(rest.split()[0])} if rest else {}
        elif first == 'reason' and is_new:
            yield 'left', dict(zip(('reason', 'detail'), p.body[::-1]))


def seconds(micros):
    return '%s%d.%06d' % ('-' if micros < 0 else '', abs(micros) // 1000000, abs(micros) % 1000000)


def utc(micros):
    days, rest = divmod(micros, 86400 * 10 ** 6)
    cycles, days = divmod(days, 146097)  # of 400 years, since the library ends with the year 9999
    day = datetime.date(1970, 1, 1) + datetime.timedelta(days)
    clock = rest // 10 ** 6
    return '%d-%02d-%02dT%02d:%02d:%02d.%06dZ' % (day.year + 400 * cycles, day.month, day.day, clock // 3600, clock // 60 % 60, clock % 60, rest % 10 ** 6)


class Times:
    """The time of the first datagram, and the form in which times are printed."""

    def __init__(self, form):
        self.form, self.first = form, None

    def said(self, time):
        return utc(time) if self.form == 'utc' else seconds(time if self.form == 'epoch' else time - (self.first or 0))


def instant(text):
    """Returns the microseconds that a text names, and whether they are since the first datagram; or None."""
    found = re.fullmatch(r'(@?)([0-9]+)(?:\.([0-9]{1,9}))?', text)
    if found:
        whole = number(found[2], 999999999999)
        return None if whole is None else (10 ** 6 * whole + int((found[3] or '').ljust(6, '0')[:6]), not found[1])
    found = re.fullmatch(r'([0-9]{4}-[0-9]{2}-[0-9]{2}T[0-9]{2}:[0-9]{2}:[0-9]{2})(?:\.([0-9]{1,9}))?Z?', text)
    try:
        time = datetime.datetime.fromisoformat(found[1] + '+00:00') if found else None
    except ValueError:
        time = None
    if time is None or time.year < 1970:
        return None
    return (time - datetime.datetime(1970, 1, 1, tzinfo=datetime.timezone.utc)) // datetime.timedelta(seconds=1) * 10 ** 6 + int(
        (found[2] or '').ljust(6, '0')[:6]), False


def is_reversed(start, end):
    """Whether both instants are given in one form, and the last is before the first."""
    return start is not None and end is not None and start[1] == end[1] and end[0] < start[0]


def is_within(first, time, start, end):
    """Whether a time is not before one instant, and not after the other."""
    from_time, to_time = (None if limit is None else limit[0] + (first if limit[1] else 0) for limit in (start, end))
    return (from_time is None or from_time <= time) and (to_time is None or time <= to_time)


def number(text, most):
    """Reads decimal digits up to a limit."""
    digits = text.lstrip('0') or text[:1]
    return int(digits) if re.fullmatch('[0-9]{1,20}', digits) and int(digits) <= most else None


def time(text):
    """Reads microseconds: seconds, a point, and six to nine digits, of which the first six count."""
    found = re.fullmatch(r'([0-9]+)\.([0-9]{6})[0-9]{0,3}', text)
    whole = number(found[1], 999999999999) if found else None
    return None if whole is None else 1000000 * whole + int(found[2])


def address(host, port):
    seen, port = host_v6(host) if ':' in host else host_v4(host), number(port, 65535)
    return None if seen is None or port is None else '%s:%d' % (seen, port)


def host_v4(host):
    octets = [number(word, 255) for word in host.split('.')]
    return None if len(octets) != 4 or None in octets else '%d.%d.%d.%d' % tuple(octets)


def host_v6(host):
    """Writes an IPv6 address as in RFC 5952, in brackets; an embedded IPv4 address has points."""
    try:
        seen = ipaddress.IPv6Address(host if re.fullmatch('[0-9a-fA-F:.]*', host) else '')
    except ValueError:
        return None
    return '[%s]' % ('::ffff:%s' % seen.ipv4_mapped if seen.ipv4_mapped else seen.compressed)


def read(raw):
    """Returns time, source, destination and payload of a line, or its first fault."""
    if len(raw) > LINE_MAX:
        return 'too long'
    fields = re.sub('\r?\n$', '', raw.decode('latin-1')).split('\t')
    if len(fields) != 6:
        return 'not six fields'
    seen = time(fields[0]), address(*fields[1:3]), address(*fields[3:5])
    for value, name in zip(seen, ('time', 'source', 'destination')):
        if value is None:
            return name
    if len(fields[5]) > 2 * PAYLOAD_MAX:
        return 'too long'
    return (*seen, bytes.fromhex(fields[5])) if re.fullmatch('([0-9a-fA-F]{2})*', fields[5]) else 'payload'


def is_wanted(only, t_max, words):
    """Whether a line with these words is printed."""
    if only in ('opens', 'resent', 'reason'):
        return any(word.split()[0] == only for word in words)
    if only == 'age':
        return any(int(word.split()[1]) >= t_max for word in words if word.startswith('age '))
    if only == 'waits':
        return any(is_long(word, t_max) for word in words)
    return only is None or any(word.split()[1] == only for word in words if word.startswith(('channel ', 'all ', 'sn ', 'red ', 'safe ')))


def is_long(word, t_max):
    """Whether this remark is a wait of half of T_max or more; a shorter one is not printed."""
    return word.startswith('waits ') and 2 * int(word.split()[1]) >= t_max


def ranges(text):
    """Returns the ports that a text names, or None."""
    found = [re.fullmatch('([0-9]+)(?:-([0-9]+))?', piece) for piece in text.split(',')]
    pairs = [(number(piece[1], 65535), number(piece[2] or piece[1], 65535)) for piece in found if piece]
    if len(pairs) < len(found) or len(pairs) > 4 or any(None in pair or pair[0] > pair[1] for pair in pairs):
        return None
    return [range(low, high + 1) for low, high in pairs]


FOREIGN = {b'\x1f\x8b': 'it is compressed by gzip; use gzip -dc FILE | rasta follow -',
           b'\x28\xb5\x2f\xfd': 'it is compressed by zstd; use zstd -dc FILE | rasta follow -',
           b'snoo': 'it is a snoop file; use editcap -F pcapng FILE NEW',
           b'\xa1\xb2\xcd\x34': 'it is a modified pcap file; use editcap -F pcapng FILE NEW',
           b'\x34\xcd\xb2\xa1': 'it is a modified pcap file; use editcap -F pcapng FILE NEW'}


def foreign(front):
    """Returns why a file that begins with these octets is not followed, or None."""
    return next((why for octets, why in FOREIGN.items() if front.startswith(octets)), None)


def followed(raws, code=8, only=None, t_max=1800, ports=None, as_json=False, time='since', start=None, end=None, every=None, as_events=False, choose=False):
    """Returns standard output, standard error and exit status."""
    follower, times, due, out, err = Follower(Settings(code=code).rule), Times(time), None, [], []

    def sums():
        return [said + '\n' for said in ([follower.members(times, t_max, choose)] if as_json or as_events else follower.sums(times, t_max, choose))]

    raws = list(raws)
    why = foreign(raws[0]) if raws else None
    if why:
        follower.unreadable, raws = 1, []
        err.append('recording: unreadable behind frame 0: %s\n' % why)
    for line, raw in enumerate(raws, 1):
        seen, follower.frames = read(raw), line
        if isinstance(seen, str):
            follower.unreadable += 1
            err.append('line %d: unreadable: %s\n' % (line, seen))
            continue
        if ports and not any(int(end.rpartition(':')[2]) in some for end in seen[1:3] for some in ports):
            follower.others[0] += 1
            continue
        if times.first is None:
            times.first, due = seen[0], seen[0] + (every or 0) * 10 ** 6
        if not is_within(times.first, seen[0], start, end):
            follower.others[1] += 1
            continue
        said, words = follower.line(seen[0], line, *seen[1:])
        if is_wanted(only, t_max, words) and as_events:
            said = times.said(seen[0])
            out += ['{"event":"%s","time":%s,%s\n' % (name, '"%s"' % said if time == 'utc' else said,
                                                      json.dumps({'line': line, **more}, separators=(',', ':'))[1:])
                    for name, more in follower.events if name != 'waits' or 2 * more['waits'] >= t_max]
        elif is_wanted(only, t_max, words) and not as_json:
            words = [word for word in words if not word.startswith('waits ') or is_long(word, t_max)]
            out.append(' '.join([times.said(seen[0]), 'line', str(line), said] + words) + '\n')
        if every and due <= seen[0]:
            out += sums()
            due = times.first + (max(0, seen[0] - times.first) // (every * 10 ** 6) + 1) * every * 10 ** 6
    out += sums()
    if follower.forgotten:
        err.append('connections: %d were forgotten, since more than %d were recorded at once; choose some by --ports\n' % (follower.forgotten, CONNECTIONS))
    if follower.miscoded:
        err.append('datagrams: all %d of RaSTA have another safety code; choose it by --code or --iv\n' % follower.miscoded)
    return ''.join(out), ''.join(err), 1 if err else 0


def main(words):
    parser = argparse.ArgumentParser(usage=__doc__)
    parser.add_argument('word', choices=['follow'])
    parser.add_argument('--code', type=int, choices=(0, 8, 16), default=8)
    parser.add_argument('--only', choices=ONLY)
    parser.add_argument('--ports', type=ranges)
    parser.add_argument('--json', action='store_true')
    parser.add_argument('--events', action='store_true')
    parser.add_argument('--t-max', type=int, default=1800)
    parser.add_argument('--time', choices=('since', 'epoch', 'utc'), default='since')
    parser.add_argument('--from', dest='start', type=instant)
    parser.add_argument('--to', dest='end', type=instant)
    parser.add_argument('--every', type=int)
    parser.add_argument('--choose', action='store_true')
    parser.add_argument('file')
    asked = parser.parse_args(words)
    if is_reversed(asked.start, asked.end):
        parser.error("'--to' is before '--from'")
    with open(asked.file, 'rb') as file:
        out, err, status = followed(file, asked.code, asked.only, asked.t_max, asked.ports, asked.json, asked.time, asked.start, asked.end, asked.every, asked.events, asked.choose)
    sys.stdout.write(out)
    sys.stderr.write(err)
    return status


if __name__ == '__main__':
    sys.exit(main(sys.argv[1:]))
