"""Both ends of the plain model (tests/model) over channels that lose, delay, repeat and swap datagrams, in virtual time.

Time is counted in microseconds; an end gets whole milliseconds. Every deadline is met at its time, and the work of an end takes no time. The
same seed gives the same run on any machine.
"""
import hashlib
import heapq
import os
import random
import sys

HERE = os.path.dirname(os.path.abspath(__file__))
sys.path.insert(0, os.path.join(os.path.dirname(HERE), 'tests', 'model'))
import promises  # noqa: E402
from end import End  # noqa: E402
from machine import LIVE  # noqa: E402
from pair import Pair, other  # noqa: E402
from settings import Settings  # noqa: E402
from texts import red_seen, red_text  # noqa: E402

MS, SECOND = 1000, 1000000
KINDS = {'il': 0x0100, 'fe': 0x0200}
OWN = {'il': dict(own=1, peer=2, name=b'IL1', peer_name=b'FE1'), 'fe': dict(own=2, peer=1, name=b'FE1', peer_name=b'IL1')}
FIRST = {'il': 100, 'fe': 500}
WAITING_MAX = 64
TIMEOUT = 3  # the reason of a DiscReq


class Broken(Exception):
    """A promise that is false in a run."""


def quick_digest(initial_value, octets):
    """A replacement for MD4, which is slow here; no rule depends on the digest."""
    return hashlib.blake2b(octets, digest_size=16, key=initial_value).digest()


class Network:
    """What happens to a datagram on a channel. `delays` has for each channel the milliseconds that every datagram takes. In addition a share
    of datagrams is lost, comes again later, comes later, or changes places with the next one of its channel and direction; later is up to
    `jitter` milliseconds. `damaged` has for each channel the share of datagrams that come with one bit changed. The first `spared` datagrams of
    each channel and direction are only delayed."""

    def __init__(self, delays, loss=0.0, repeated=0.0, later=0.0, swapped=0.0, jitter=0.0, spared=6, damaged=()):
        self.delays, self.jitter, self.spared = delays, jitter, spared
        self.damaged = damaged or [0] * len(delays)
        self.lost, self.repeated = loss, loss + repeated
        self.later = self.repeated + later
        self.swapped = self.later + swapped


class Direction:
    """One direction of one channel."""

    def __init__(self, network, channel, rng):
        self.network, self.delay, self.damaged, self.rng = network, round(network.delays[channel] * MS), network.damaged[channel], rng
        self.spared, self.held = network.spared, None

    def carries(self, octets, now):
        """Returns which datagrams come, and when, now that this one is sent."""
        came = now + self.delay
        if self.spared > 0:
            self.spared -= 1
            return [(came, octets)]
        network, fate = self.network, self.rng.random()
        if fate < network.lost:
            return []
        if fate < network.repeated:
            arrivals = [(came, octets), (came + self.longer(), octets)]
        elif fate < network.later:
            arrivals = [(came + self.longer(), octets)]
        elif fate < network.swapped and self.held is None:
            self.held = octets
            return []
        else:
            arrivals = [(came, octets)]
        if self.held is not None:
            arrivals.append((came + 1, self.held))
            self.held = None
        return [(when, self.hit(copy)) for when, copy in arrivals] if self.damaged else arrivals

    def hit(self, octets):
        """Returns a datagram as it comes: a share of them has one bit changed."""
        if self.rng.random() >= self.damaged:
            return octets
        place, bit = divmod(self.rng.randrange(8 * len(octets)), 8)
        return octets[:place] + bytes([octets[place] ^ 1 << bit]) + octets[place + 1:]

    def longer(self):
        return round(self.rng.random() * self.network.jitter * MS)


class Load:
    """`count` telegrams, each way or only from the interlocking: at a rate (telegrams a second, each way), or, without a rate, as fast as the end
    accepts them."""

    def __init__(self, count, rate=None, is_one_way=False):
        self.counts, self.rate = {'il': count, 'fe': 0 if is_one_way else count}, rate

    def patience(self):
        """Returns after how many microseconds a run ends that has neither taken all nor been given up."""
        return round((60 + (self.counts['il'] / self.rate if self.rate else 0)) * SECOND)


class Run:
    """One connection. `outcome` is `taken`, `given up` or `late`. If it was given up, `cause` is `lost` if a retransmission request or its reply
    came on no channel; `not let through` if it came and the deferral queue did not pass it; `nothing confirmed` if T_max passed otherwise; or
    `other`."""

    def __init__(self, settings, network, load, seed):
        self.load, self.rng = load, random.Random(seed)
        self.pair, self.now, self.queue, self.count = Pair(), 0, [], 0
        self.ways = {side: [Direction(network, channel, self.rng) for channel in range(len(network.delays))] for side in KINDS}
        self.sent = {side: 0 for side in KINDS}  # how many PDUs were sent
        self.wished = {side: [] for side in KINDS}  # when the application wanted to put each of its telegrams
        self.up = {side: set() for side in KINDS}  # the parts that went up
        self.began = set()  # the ends whose application puts
        self.delays = []  # of each telegram taken, from put to take
        self.age = self.oldest = 0  # the greatest age of the last confirmed time, and of the time confirmed by a taken unit
        self.outcome, self.cause = 'late', None
        for side in ('fe', 'il'):
            full = Settings(digest=quick_digest, channels=len(network.delays), **OWN[side], **settings)
            refusal = self.pair.apply(('open', side, 0, full, FIRST[side]))
            if refusal:
                raise ValueError(refusal)
            self.sends(side)
        self.ends = {side: self.pair.present(side) for side in KINDS}
        self.runs()
        self.keeps_promises()

    def runs(self):
        limit = self.load.patience()
        while self.outcome == 'late' and self.now <= limit:
            when, side = min((self.deadline(side), side) for side in KINDS)
            if self.queue and self.queue[0][0] <= when:
                self.now, _, what, side, octets = heapq.heappop(self.queue)
                what(side, octets)
            else:
                self.now = max(self.now, when)
                self.calls(side, End.tick)

    def later(self, when, what, side, octets=None):
        self.count += 1
        heapq.heappush(self.queue, (when, self.count, what, side, octets))

    def deadline(self, side):
        """Returns when a tick of this end next does something."""
        end = self.ends[side]
        machine, red, settings = end.machine, end.red, end.settings
        times = [machine.confirmed_at + settings.t_max] if machine.state in LIVE else []
        if machine.state in ('Up', 'RetrReq', 'RetrRun'):
            times.append(machine.made[-1].time + settings.t_h)
        if red.waiting and machine.state != 'Closed':
            times.append(red.since + settings.t_seq)
        return min(times) * MS if times else 2 ** 62

    def arrives(self, side, octets):
        self.calls(side, lambda end, now: end.deliver(octets, now, red_seen(octets)[0]))

    def calls(self, side, call):
        """Makes a call of an end, and handles its effects. For speed it bypasses the pair, whose checks of each event are not needed here."""
        end = self.ends[side]
        before, state, now = len(end.session.taken), end.machine.state, self.now // MS
        if state in LIVE:
            self.age = max(self.age, now - end.machine.confirmed_at)
        call(end, now)
        self.sends(side)
        self.up[side].update(end.went_up)
        for number in range(before, len(end.session.taken)):
            self.delays.append(self.now - self.wished[other(side)][number])
        for when, pdu in reversed(end.machine.fresh):
            if when != now:
                break
            self.oldest = max(self.oldest, now - pdu.cts)
            if now - pdu.cts >= end.settings.t_max:
                raise Broken('%s took at %d what confirms a time of %d' % (side, now, pdu.cts))
        if end.machine.state == 'Closed':
            self.outcome, self.cause = 'given up', self.why(side, state)
            return
        if side == 'fe' and end.session.phase == 'Initialising':
            self.calls(side, End.init_done)
        if side not in self.began and end.session.phase == 'Established':
            self.begins(side)
        self.fills(side)
        if all(len(each.session.taken) == self.load.counts[other(each.side)] for each in self.ends.values()):
            self.outcome = 'taken'

    def begins(self, side):
        """Lets the application of this end begin to put."""
        self.began.add(side)
        load, count = self.load, self.load.counts[side]
        if load.rate:
            phase = self.rng.random()
            for number in range(count):
                self.later(round(self.now + (phase + number) / load.rate * SECOND), self.wants, side)
        else:
            self.wished[side] = [self.now] * count

    def wants(self, side, _):
        self.wished[side].append(self.now)
        self.fills(side)

    def fills(self, side):
        """Puts what may be put. Without a rate the delay of a telegram counts from when there was room for it."""
        end = self.ends[side]
        while len(end.session.put_in) < len(self.wished[side]) and len(end.session.waiting) < WAITING_MAX:
            number = len(end.session.put_in)
            if not self.load.rate:
                self.wished[side][number] = self.now
            end.put(KINDS[side], number.to_bytes(4, 'big'), self.now // MS)
            self.sends(side)

    def sends(self, side):
        """Sends the PDUs that the end made on every channel."""
        end = self.pair.present(side)
        for number in range(self.sent[side], len(end.texts)):
            for way in self.ways[side]:
                for when, octets in way.carries(red_text(number, end.texts[number]), self.now):
                    self.later(when, self.arrives, other(side), octets)
        self.sent[side] = len(end.texts)

    def why(self, side, state):
        """Returns why the connection is over, after an end closed that was in this state: from the fate of the retransmission request that an end
        waits for, and of its reply."""
        end, peer = self.ends[side], self.ends[other(side)]
        if end.machine.made[-1].kind != 'DiscReq' or end.machine.made[-1].body[1] != TIMEOUT:
            return 'other'
        if state != 'RetrReq':
            end, peer = peer, end
            if end.machine.state != 'RetrReq':
                return 'nothing confirmed'
        request = latest(end, 'RetrReq')
        if end.texts[request] not in self.up[peer.side]:
            return 'lost' if request not in peer.red.wait.arrived else 'not let through'
        answer = latest(peer, 'RetrResp')
        if answer is None or peer.texts[answer] in self.up[end.side]:
            return 'nothing confirmed'
        return 'lost' if answer not in end.red.wait.arrived else 'not let through'

    def keeps_promises(self):
        request = self.ends['fe'].request
        self.pair.joined = [self.pair.latest_maker(request) if request else None]
        for promise in (promises.headline, promises.confirmed_taken, promises.settled, promises.bounded):
            false = promise(self.pair)
            if false:
                raise Broken(false)

    def made(self, kind):
        return sum(p.kind == kind for end in self.ends.values() for p in end.machine.made)

    def made_in_all(self):
        return sum(len(end.texts) for end in self.ends.values())


def latest(end, kind):
    """Returns the index of the last PDU of this type that it made, or None."""
    return max((index for index, made in enumerate(end.machine.made) if made.kind == kind), default=None)
