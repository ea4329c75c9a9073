"""Two machines and the network between them, with the clauses of their law (docs/protocol.md, two machines)."""
import copy

from machine import Machine
from settings import Settings

NUMBERS = ('n_sendmax', 't_max', 't_h', 'mwa', 'pdu_limit')

class World:
    """Both ends with all their incarnations. An event that is not genuine, or goes back in time, is refused."""

    def __init__(self, changes=()):
        self.changes = changes
        self.ends = {'il': [], 'fe': []}
        self.joined, self.dead, self.clock = [], {'il': 0, 'fe': 0}, {'il': 0, 'fe': 0}

    def peer(self, end):
        return 'fe' if end == 'il' else 'il'

    def now(self, end):
        return self.ends[end][-1] if self.ends[end] else None

    def happens(self, event):
        kind, end, now, rest = event
        if now < self.clock[end] or (kind != 'open' and not self.ends[end]):
            return False
        self.clock[end] = now
        if kind == 'open':
            numbers, first = rest
            settings = Settings(own=0, peer=0, **dict(zip(NUMBERS, numbers)))  # no strangers
            self.ends[end].append(Machine(end == 'il', settings, first, now, self.changes))
            other = self.now(self.peer(end))
            self.dead[end], self.dead[self.peer(end)] = 0, len(other.made) if other else 0
            if end == 'fe':
                self.joined.append(None)
            return True
        machine = self.now(end)
        if kind == 'arrive':
            return self.arrives(end, machine, rest, now)
        {'send': lambda: machine.send(rest, now), 'tick': lambda: machine.tick(now),
         'guard': lambda: machine.guard(now), 'close': lambda: machine.leave(now)}[kind]()
        return True

    def arrives(self, end, machine, index, now):
        maker = self.now(self.peer(end))
        alive = 0 if 'lets_dead_pdus_in' in self.changes else self.dead[self.peer(end)]
        if maker is None or not alive <= index < len(maker.made):
            return False
        before = machine.state
        machine.arrive(maker.made[index], now)
        if end == 'fe' and before == 'Down' and machine.state == 'Start':
            self.joined[-1] = len(self.ends['il']) - 1
        return True

    def broken(self):
        """Returns the first clause of the law that does not hold, or None."""
        il, fe = self.ends['il'], self.ends['fe']
        partners = [g for g in self.joined if g is not None]
        if len(partners) != len(set(partners)):
            return 'no interlocking is joined to two'
        for f, g in zip(fe, self.joined):
            if g is None:
                if f.taken:
                    return 'an end with no partner has taken nothing'
                continue
            for taker, maker in ((f, il[g]), (il[g], f)):
                if maker.units()[:len(taker.taken)] != taker.taken:
                    return 'beginnings: taken %s of sent %s' % (taker.taken, maker.units())
                if maker.state != 'Closed' and len(maker.units()) > len(taker.taken) + len(maker.unconfirmed()):
                    return 'nothing lost: sent %s, taken %s, unconfirmed %s' % (maker.units(), taker.taken, maker.unconfirmed())
                for now, p in taker.fresh:
                    behind = p.behind
                    if behind < 1 or now >= taker.made[behind - 1].time + taker.settings.t_max:
                        return 'freshness: taken at %d, basis made at %d, t_max %d' % (now, taker.made[behind - 1].time, taker.settings.t_max)
        for i, g in enumerate(il):
            if i not in partners and g.taken:
                return 'an end with no partner has taken nothing'
        return None


def run(events, changes=()):
    """Returns the first broken clause over the events and how many it took; None if an event is refused or the law holds."""
    world = World(changes)
    for count, event in enumerate(events):
        if not world.happens(copy.copy(event)):
            return None
        clause = world.broken()
        if clause:
            return clause, count + 1
    return None
