"""The promises of a pair, as sentences that hold or not: a translation of crates/stack_engine/specs.

Each function returns None if its promise holds, and otherwise the false sentence.
"""
from texts import tele_seen, unit_seen
from pair import other
from session import RESERVED


def is_beginning(front, whole):
    return whole[:len(front)] == front


def headline(pair):
    """The telegrams an application takes are a prefix of those put at the joined end."""
    ils, fes = pair.ends['il'], pair.ends['fe']
    partners = [g for g in pair.joined if g is not None]
    if any(later <= earlier for earlier, later in zip(partners, partners[1:])):
        return 'headline, joins: later field elements are joined to later interlockings (joined to %s)' % partners
    for f, g in zip(fes, pair.joined):
        if g is None and f.session.taken:
            return 'headline, joined to none: a field element that is joined to none took %s' % shown(f.session.taken)
        for taker, maker in ((f, ils[g]), (ils[g], f)) if g is not None else ():
            if not is_beginning(taker.session.taken, maker.session.put_in):
                return 'headline, %s: %s took %s of %s put in' % ('commands' if taker is f else 'status', taker.side, shown(taker.session.taken), shown(maker.session.put_in))
    for place, g in enumerate(ils):
        if g.session.taken and place not in partners:
            return 'headline, nobody joined: an interlocking to which none is joined took %s' % shown(g.session.taken)
    return None


def freshness(pair):
    """Every telegram taken in the last call came in a PDU that confirms one this end made less than T_max ago."""
    end, peer = pair.present(pair.last), pair.present(other(pair.last))
    for now, part in end.takings:
        found = [stale(end, now, part, made) for made in (peer.machine.made if peer else ())]
        if None not in found:
            clause = max(found, key=STALE.index, default='made')
            return 'freshness, %s: %s took at %d what came upon no PDU of its own made after %d' % (clause, end.side, now, now - end.settings.t_max)
    return None


STALE = ('made', 'basis', 'number', 'stamp', 'recent')


def stale(end, now, part, made):
    """Returns the first of STALE that does not hold: the part is this PDU of the peer, made upon a basis of this end, whose number and
    timestamp it confirms, and which is recent."""
    if end.reads(part).seen() != made.seen():
        return 'made'
    if not 1 <= made.behind <= len(end.machine.made):
        return 'basis'
    basis = end.machine.made[made.behind - 1]
    if basis.sn != made.cs:
        return 'number'
    if basis.ts != made.cts:
        return 'stamp'
    return None if now < basis.time + end.settings.t_max else 'recent'


def items_of(messages):
    telegrams = [tele_seen(message) for message in messages]
    return [(t[1], t[4]) for t in telegrams if not isinstance(t, str) and t[1] not in RESERVED]


def messages_in(units):
    return [message for unit in units if not isinstance(unit_seen(unit), str) for message in unit_seen(unit)]


def taken_by_joined(pair, side):
    """Returns what the end joined to the present one took."""
    ils, fes = pair.ends['il'], pair.ends['fe']
    if side == 'fe':
        return ils[pair.joined[-1]].session.taken if pair.joined[-1] is not None else []
    takers = [f for f, g in zip(fes, pair.joined) if g == len(ils) - 1]
    return takers[-1].session.taken if takers else []


def confirmed_taken(pair):
    """The telegrams put are a prefix of: those the joined end took, then the unconfirmed ones, then those that wait."""
    for side in ('il', 'fe'):
        end = pair.present(side)
        if end is None or end.is_shut():
            continue
        taken, put = taken_by_joined(pair, side), end.session.put_in
        rest = items_of(messages_in(end.machine.unconfirmed())) + items_of(end.session.waiting)
        front = put[:len(put) - len(rest)] if len(rest) <= len(put) else None
        if front is None or front + rest != put or not is_beginning(front, taken):
            return 'confirmed is taken: put in at %s %s, taken %s, unconfirmed and waiting %s' % (side, shown(put), shown(taken), shown(rest))
    return None


def settled(pair):
    """If an end is settled, every telegram put was taken."""
    for side in ('il', 'fe'):
        end = pair.present(side)
        if end and end.is_settled() and not is_beginning(end.session.put_in, taken_by_joined(pair, side)):
            return 'settled: put in at %s %s, taken %s' % (side, shown(end.session.put_in), shown(taken_by_joined(pair, side)))
    return None


def bounded(pair):
    """The queues of an end have their bounds (for one end, without a premise)."""
    for side in ('il', 'fe'):
        end = pair.present(side)
        if end and len(end.red.waiting) > end.settings.q:
            return 'bounded: %d parts are deferred at %s, q is %d' % (len(end.red.waiting), side, end.settings.q)
        if end and len(end.machine.unconfirmed()) > end.machine.window:
            return 'bounded: %d units are unconfirmed at %s, the window is %d' % (len(end.machine.unconfirmed()), side, end.machine.window)
        if end and len(end.session.waiting) > 64:
            return 'bounded: %d messages wait at %s' % (len(end.session.waiting), side)
    return None


def nothing_lost(pair):
    """Over faithful lists: no retransmission is requested, and if all PDUs arrived, every telegram was taken except those that wait for the window."""
    il, fe = pair.present('il'), pair.present('fe')
    for end in (il, fe):
        if end and any(p.kind == 'RetrReq' for p in end.machine.made):
            return 'nothing lost, asks nothing: %s asked for a retransmission' % end.side
    if il is None or fe is None or not (has_all(il, fe) and has_all(fe, il)):
        return None
    for end, peer in ((il, fe), (fe, il)):
        if end.session.waiting and len(end.machine.unconfirmed()) < end.machine.window:
            return 'nothing lost, waits: a message waits at %s, and its window is not full' % end.side
        there = peer.session.taken + items_of(end.session.waiting)
        if end.session.put_in != there:
            return 'nothing lost, all there: put in at %s %s, taken and waiting %s' % (end.side, shown(end.session.put_in), shown(there))
        if match(il, fe) and end.machine.state != 'Up':
            return 'nothing lost, up: %s is %s' % (end.side, end.machine.state)
    phases = (il.session.phase, fe.session.phase)
    wanted = 'Established' if fe.session.was_established else 'Initialising'
    if match(il, fe) and not il.session.waiting and not fe.session.waiting and phases != (wanted, wanted):
        return 'nothing lost, phases: in phases %s and %s' % phases
    return None


def has_all(end, peer):
    """Whether every PDU that the peer made has arrived at an open end."""
    return end.is_shut() or end.red.wait.arrived >= set(range(len(peer.texts)))


def match(il, fe):
    a, b = il.settings, fe.settings
    return (a.rule.same(b.rule) and a.protocol == b.protocol and a.versions[0] in b.versions and (a.own, a.peer) == (b.peer, b.own)
            and (a.name, a.peer_name) == (b.peer_name, b.name))


def shown(items):
    return '[' + ' '.join('%04x:%s' % (kind, payload.hex()) for kind, payload in items) + ']'
