"""The safety machine: its rules and its state are those of docs/protocol.md, with changes that can be switched on.

It keeps every PDU that it made, and no queue: the unconfirmed ones are found among them. Only in PDUs do numbers and times wrap at 2^32.
"""
from texts import CARRIERS, VERSION, Pdu

WRAP = 2 ** 32
REACH = 10
LIVE = ('Start', 'Up', 'RetrReq', 'RetrRun')
IN_TURN = ('Up', 'RetrRun')

TABLE = {  # (state, next): the action for each type; a number is the reason to disconnect
    ('Start', True): {'HB': 'take'},
    ('Start', False): {'HB': 2, 'Data': 2},
    ('Up', True): {'HB': 'take', 'Data': 'take', 'RetrReq': 'answer'},
    ('Up', False): {'HB': 'gap', 'Data': 'gap', 'RetrReq': 'answer'},
    ('RetrRun', True): {'HB': 'take', 'Data': 'take', 'RetrData': 'take', 'RetrReq': 'answer'},
    ('RetrRun', False): {'HB': 'gap', 'Data': 'gap', 'RetrData': 'gap', 'RetrReq': 'answer'},
    ('RetrReq', True): {'HB': 'drop', 'Data': 'drop', 'RetrData': 'drop', 'RetrReq': 'answer', 'RetrResp': 'resume'},
    ('RetrReq', False): {'HB': 'drop', 'Data': 'drop', 'RetrData': 'drop', 'RetrReq': 'answer', 'RetrResp': 'resume'},
}


def ahead(start, number):
    return (number - start) % WRAP


class Machine:
    """One end in one incarnation."""

    def __init__(self, client, settings, first, now, changes=()):
        self.client, self.settings, self.first, self.changes = client, settings, first, changes
        self.made, self.taken, self.fresh = [], [], []
        self.since = self.expected = self.last_sn = self.last_ts = 0
        self.confirmed, self.confirmed_at, self.answered, self.window = 0, now, 0, 0
        self.state = 'Start' if client else 'Down'
        self.guard_left = False  # a timeout check found its time passed or its limit reached
        if client:
            self.make('ConnReq', now, (VERSION, settings.n_sendmax))

    def arrive(self, p, now):
        """Handles a PDU, or the name of the fault of octets that are not a PDU. Returns the cause if it is dropped."""
        self.guard(now, True)
        if self.state == 'Closed':
            return None
        if isinstance(p, str):
            return p
        if (p.receiver, p.sender) != (self.settings.own, self.settings.peer) and 'takes_strangers' not in self.changes:
            return 'stranger'
        if self.state == 'Down':
            return self.in_down(p, now)
        if p.kind == 'DiscReq':
            self.state = 'Closed'
            return None
        if self.state == 'Start' and self.client:
            return self.as_client(p, now)
        return self.by_table(p, now)

    def tick(self, now):
        self.guard(now)
        if self.state in ('Up', 'RetrReq', 'RetrRun') and now >= self.made[-1].time + self.settings.t_h:
            self.make('HB', now)

    def guard(self, now, in_arrival=False):
        if in_arrival and 'deadline_in_tick_only' in self.changes:
            return
        passed = now - self.confirmed_at - self.settings.t_max
        if 'deadline_by_greater' in self.changes or in_arrival and 'arrivals_test_deadline_by_greater' in self.changes:
            passed -= 1
        if self.state in LIVE and (passed >= 0 or len(self.made) >= self.settings.pdu_limit):
            self.guard_left = True
            self.leave(now, 3, 0) if passed >= 0 else self.leave(now, 7, 1)

    def leave(self, now, reason=0, detail=0):
        if self.state in LIVE:
            self.make('DiscReq', now, (detail, reason))
        self.state = 'Closed'

    def may_send(self):
        window = self.settings.n_sendmax if 'own_window_in_place_of_the_peers' in self.changes else self.window
        return self.state in IN_TURN and len(self.unconfirmed()) < window

    def send(self, unit, now):
        if self.may_send():
            self.make('Data', now, unit)
            if 'confirms_what_was_sent' in self.changes:
                self.confirmed = len(self.made) - 1

    def make(self, kind, now, body=b''):
        self.made.append(Pdu(kind=kind, receiver=self.settings.peer, sender=self.settings.own, sn=(self.first + len(self.made)) % WRAP,
                             cs=self.last_sn, ts=now % WRAP, cts=self.last_ts, body=body, time=now, behind=self.expected))
        self.since = 0

    def units(self):
        return [p.body for p in self.made if p.kind == 'Data']

    def unconfirmed(self):
        run = []
        for p in self.made[self.confirmed + 1:]:
            if p.kind == 'RetrResp':
                run = []
            elif p.kind in CARRIERS:
                run.append(p.body)
        return run

    def in_down(self, p, now):
        if p.kind != 'ConnReq':
            return 'down'
        self.move(p, 0)
        if p.body[0] != VERSION:
            self.make('DiscReq', now, (0, 5))
            self.state = 'Closed'
            return None
        self.window = p.body[1]
        self.make('ConnResp', now, (VERSION, self.settings.n_sendmax))
        self.confirmed, self.confirmed_at, self.state = 0, now, 'Start'
        return None

    def as_client(self, p, now):
        if p.kind != 'ConnResp':
            self.leave(now, 1)
        elif p.body[0] != VERSION:
            self.leave(now, 5)
        elif self.fits(p, now):
            self.move(p, 0)
            self.window = p.body[1]
            self.make('HB', now)
            self.state = 'Up'

    def by_table(self, p, now):
        distance = ahead(self.last_sn + 1, p.sn)
        if 'takes_repeat_again' in self.changes and p.sn == self.last_sn:
            distance = 0
        if 'compares_without_wrap' in self.changes and p.sn <= self.last_sn:
            return 'number'
        if distance > REACH * self.settings.n_sendmax:
            if not ('takes_stale_response' in self.changes and self.state == 'RetrReq' and p.kind == 'RetrResp'):
                return 'number'
            distance -= WRAP
        done = TABLE[self.state, distance == 0].get(p.kind, 1)
        if done == 'gap' and 'takes_data_out_of_turn' in self.changes and self.state == 'Up' and p.kind == 'Data':
            done = 'take'
        if done in (1, 2):
            return self.leave(now, done)
        if done == 'drop':
            return 'request'
        if done == 'gap':
            self.make('RetrReq', now)
            self.state = 'RetrReq'
            return 'gap'
        if done == 'answer':
            return self.answer(p, distance, now)
        if self.fits(p, now):
            self.move(p, distance)
            self.resume_or_take(done, p, now)
        return None

    def resume_or_take(self, done, p, now):
        if done == 'resume':
            self.state = 'RetrRun'
        elif p.kind != 'RetrData':
            self.state = 'Up'
        if p.kind in CARRIERS:
            self.hand_up(p, now)

    def hand_up(self, p, now):
        self.taken.append(p.body)
        self.fresh.append((now, p))
        self.since += 1
        if self.since >= self.settings.mwa and 'no_heartbeat_at_the_mwa_th_unit' not in self.changes:
            self.make('HB', now)

    def move(self, p, distance):
        self.expected += distance + 1
        if 'forgets_the_number_of_a_heartbeat' not in self.changes or p.kind not in ('Heartbeat', 'HB'):
            self.last_sn = p.sn
        if 'confirms_the_first_timestamp' not in self.changes or not self.last_ts:
            self.last_ts = p.ts

    def cs_step(self, p):
        return ahead(self.first + self.confirmed, p.cs)

    def cts_step(self, p):
        return ahead(self.confirmed_at, p.cts)

    def fits(self, p, now):
        """Makes both confirmation tests: if they pass, number and time are confirmed, otherwise the end disconnects."""
        if not self.cs_step(p) < len(self.made) - self.confirmed:
            self.leave(now, 7, 3)
            return False
        if not self.cts_step(p) <= now - self.confirmed_at:
            self.leave(now, 7, 4)
            return False
        self.confirmed, self.confirmed_at = self.confirmed + self.cs_step(p), self.confirmed_at + self.cts_step(p)
        return True

    def answer(self, p, distance, now):
        if self.expected + distance <= self.answered and 'answers_repeated_request' not in self.changes:
            return 'answered'
        step = self.cs_step(p)
        if not step < len(self.made) - self.confirmed:
            return 'below' if step >= WRAP // 2 else self.leave(now, 6)
        in_turn = self.state in IN_TURN
        self.answered = self.expected + distance
        skips = 'moves_past_a_gap' in self.changes and in_turn and distance > 0
        if distance == 0 and in_turn:
            if not self.cts_step(p) <= now - self.confirmed_at:
                return self.leave(now, 7, 4)
            self.confirmed_at += self.cts_step(p)
            self.move(p, 0)
        elif skips:
            self.move(p, distance)
        self.confirmed += step
        self.resend(now)
        if distance > 0 and in_turn and not skips:
            self.make('RetrReq', now)
            self.state = 'RetrReq'
        return None

    def resend(self, now):
        again = self.unconfirmed()
        self.make('RetrResp', now)
        for unit in again[1:] if 'resends_without_the_first' in self.changes else again:
            self.make('RetrData', now, unit)
        self.make('HB', now)
