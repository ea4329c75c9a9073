"""Two ends with all their incarnations, and the effect of an event on them.

An event is (what, side, now, ..): ('open', side, now, settings, first), ('close', ..), ('put', .., kind, payload), ('init_done', ..),
('tick', ..) and ('deliver', .., octets, mark).
"""
from end import End
from settings import are_fit
from texts import HEADER, has_code, red_seen

TIME_MAX = 2 ** 62


def other(side):
    return 'fe' if side == 'il' else 'il'


class Pair:
    def __init__(self, changes=()):
        self.changes = changes
        self.ends = {'il': [], 'fe': []}  # the incarnations, oldest first
        self.joined = []  # for each field element the index of the interlocking whose ConnReq it took
        self.dead = {'il': 0, 'fe': 0}  # how many PDUs the present incarnation made before the later of both openings
        self.is_genuine = True  # whether every event so far was genuine
        self.last = None  # the end of the last accepted event

    def present(self, side):
        return self.ends[side][-1] if self.ends[side] else None

    def apply(self, event):
        """Applies an event. If it is refused, returns the name of the refusal and changes nothing."""
        refusal = self.refusal(event)
        if refusal:
            return refusal
        what, side, now, *rest = event
        self.last = side
        if what == 'open':
            self.open(side, now, *rest)
            return None
        end = self.present(side)
        if what == 'deliver':
            self.deliver(side, end, now, *rest)
        else:
            {'close': end.close, 'put': end.put, 'init_done': end.init_done, 'tick': end.tick}[what](*rest, now)
        self.is_genuine &= all(self.is_live(side, part) or not is_asked(end, part) for part in end.went_up)
        return None

    def refusal(self, event):
        """Returns the first refusal that holds: EndNotOpen, BadConfig, Clock, then the session's own."""
        what, side, now, *rest = event
        end = self.present(side)
        if what == 'open' and not are_fit(side, rest[0]):
            return 'BadConfig'
        if what != 'open' and end is None:
            return 'EndNotOpen'
        if now > TIME_MAX or end and now < end.time:
            return 'Clock'
        if what == 'put':
            return end.session.put_refusal(*rest)
        return end.session.init_refusal() if what == 'init_done' else None

    def open(self, side, now, settings, first):
        before = self.present(side)
        end = End(side, settings, first, now, self.changes)
        if before:
            self.keeps(before, end)
        self.ends[side].append(end)
        peer = self.present(other(side))
        self.dead[side], self.dead[other(side)] = 0, len(peer.texts) if peer else 0
        if side == 'fe':
            self.joined.append(None)

    def keeps(self, before, end):
        """Returns what a reopened end keeps of the incarnation before: nothing, except under a change."""
        if 'reopened_end_keeps_its_expected_number' in self.changes:
            end.red.expected = before.red.expected
        if 'reopened_machine_keeps_its_expected_number' in self.changes:
            end.machine.last_sn, end.machine.last_ts = before.machine.last_sn, before.machine.last_ts
        if 'reopened_end_keeps_its_phase' in self.changes and not before.is_shut():
            end.session.phase = before.session.phase

    def deliver(self, side, end, now, octets, mark=None):
        self.is_genuine &= not self.breaks_premise(side, octets)
        requested = end.request
        end.deliver(octets, now, mark)
        if side == 'fe' and end.request and not requested:
            self.joined[-1] = self.latest_maker(end.request)
        if side == 'fe' and 'joined_overwritten_by_a_later_request' in self.changes:
            self.joins_later(end)

    def joins_later(self, end):
        """Under a change, each ConnReq with this end's identifiers joins it again."""
        for part in end.went_up:
            if is_asked(end, part) and end.reads(part).kind == 'ConnReq':
                self.joined[-1] = self.latest_maker(part)

    def latest_maker(self, octets):
        """Returns the index of the latest interlocking that has made a PDU of these octets, or None."""
        for place in range(len(self.ends['il']) - 1, -1, -1):
            if octets in self.ends['il'][place].numbers:
                return place
        return None

    def is_live(self, side, part):
        """Whether the peer made a PDU of these octets since the later opening, under a code of the same length."""
        end, peer = self.present(side), self.present(other(side))
        if peer is None or part not in peer.numbers:
            return False
        if end.settings.code != peer.settings.code and 'live_without_the_length_of_the_code' not in self.changes:
            return False
        return peer.numbers[part][-1] >= self.dead[other(side)] or 'pdus_before_the_later_opening_stay_live' in self.changes

    def breaks_premise(self, side, octets):
        """Whether the delivery of a datagram would break the premise at once."""
        end, seen = self.present(side), red_seen(octets)
        if end is None or end.is_shut() or isinstance(seen, str):
            return False
        return is_asked(end, seen[1]) and not self.is_live(side, seen[1])


def is_asked(end, part):
    """Whether it is long enough, has both identifiers of this connection, and a valid code at its end."""
    s = end.settings
    identifiers = s.own.to_bytes(4, 'little') + s.peer.to_bytes(4, 'little')
    return len(part) >= HEADER + s.code and part[4:12] == identifiers and has_code(part, s.rule)
