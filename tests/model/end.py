"""One end: redundancy layer, safety machine and session, in the order of docs/protocol.md.

A call records its results in the order of a trace: ('made', index), ('state', S), ('phase', P), ('takes', kind, payload),
('wait', mark) and ('drop', mark, cause). A mark is any value that identifies a datagram; a deferred part has the mark of its datagram.
"""
from machine import Machine
from redundancy import Receiver
from session import Session
from texts import red_text, safe_seen, safe_text, unit_text


class End:
    """One incarnation."""

    def __init__(self, side, settings, first, now, changes=()):
        self.side, self.settings, self.changes = side, settings, changes
        self.time = now  # of the last call
        self.told = []  # the results of that call
        self.went_up = []  # the parts that went up in that call while the end was not closed
        self.takings = []  # those parts in which a telegram was taken, with the time
        self.texts, self.numbers = [], {}  # the octets of the PDUs made, and for octets the indexes of their PDUs
        self.request = None  # the octets of the ConnReq that it took in Down
        self.is_up_late = False  # only by a change: the session has not gone up yet
        self.red = Receiver(settings.q, settings.t_seq, changes)
        self.session = Session(side, settings, self.tell, changes)
        self.machine = Machine(side == 'il', settings, first, now, changes)
        self.note_made()
        self.tell(('state', self.machine.state))

    def is_shut(self):
        return self.machine.state == 'Closed'

    def is_settled(self):
        return not self.is_shut() and not self.session.waiting and not self.machine.unconfirmed()

    def datagram(self, index):
        return red_text(index, self.texts[index])

    def close(self, now):
        self.begin(now)
        self.moves(lambda: self.machine.leave(now))

    def put(self, kind, payload, now):
        self.begin(now)
        self.session.put(kind, payload)
        self.packs(now)

    def init_done(self, now):
        self.begin(now)
        self.session.init_done()
        self.packs(now)

    def tick(self, now):
        self.begin(now)
        if not self.is_shut():
            self.moves(lambda: self.machine.tick(now))
        if not self.is_shut():
            self.parts(self.red.released(now), now)
            self.packs(now)

    def deliver(self, octets, now, mark=None):
        self.begin(now)
        if not self.is_shut():
            self.moves(lambda: self.machine.guard(now, True))
        if not self.is_shut():
            released = self.red.released(now)
            answer, passed = self.red.arrives(octets, now, mark)
            self.parts(released, now)
            if answer == 'wait':
                self.tell(('wait', mark))
            elif answer != 'passed':
                self.tell(('drop', mark, answer))
            self.parts(passed, now)
            self.packs(now)

    def begin(self, now):
        self.time, self.told, self.went_up, self.takings = now, [], [], []

    def tell(self, what):
        self.told.append(what)

    def note_made(self):
        """Records the PDUs made since the last note."""
        for index in range(len(self.texts), len(self.machine.made)):
            octets = safe_text(self.machine.made[index], self.settings.rule)
            self.texts.append(octets)
            self.numbers.setdefault(octets, []).append(index)
            self.tell(('made', index))

    def moves(self, move):
        """Makes one step of the machine; if the machine closes, the session ends."""
        before = self.machine.state
        move()
        self.note_made()
        if self.machine.state != before:
            self.tell(('state', self.machine.state))
        if self.is_shut():
            self.session.closes()

    def parts(self, parts, now):
        for number, octets, mark in parts:
            if not self.is_shut():
                self.went_up.append(octets)
                self.part(octets, now, mark)

    def part(self, octets, now, mark):
        """Handles a part that goes up: machine, then session, then the disconnect if one of them requests it."""
        before, had, items = self.machine.state, len(self.machine.taken), len(self.session.taken)
        cause = self.machine.arrive(self.reads(octets), now)
        if cause:
            self.tell(('drop', mark, cause))
        leaving = None
        for unit in self.machine.taken[had:]:
            leaving = leaving or self.session.judge_unit(unit)
        self.note_made()
        state = self.machine.state
        if state != before:
            self.tell(('state', state))
        if (before, state) == ('Down', 'Start') and 'notes_no_request' not in self.changes:
            self.request = octets
        if (before, state) == ('Start', 'Up'):
            self.comes_up()
        if leaving:
            self.moves(lambda: self.machine.leave(now, *leaving))
        if self.is_shut():
            self.session.closes()
        if len(self.session.taken) > items:
            self.takings.append((now, octets))

    def reads(self, octets):
        return safe_seen(octets, self.settings.rule)

    def comes_up(self):
        if 'up_at_the_end_of_the_call' in self.changes:
            self.is_up_late = True
        else:
            self.session.up()

    def packs(self, now):
        """Packs and sends while messages wait and the machine may send; each unit takes at least one message."""
        if self.is_up_late:
            self.is_up_late = False
            self.session.up()
        most = self.settings.n_maxpacket
        for _ in range(len(self.session.waiting)):
            if not self.session.waiting or not self.machine.may_send():
                return
            self.machine.send(unit_text(self.session.waiting[:most]), now)
            del self.session.waiting[:self.leaves_waiting(most)]
            self.note_made()

    def leaves_waiting(self, most):
        """Returns how many sent messages leave the queue: all of them, except under two changes."""
        if 'sent_messages_stay_waiting' in self.changes:
            return 0
        return 1 if 'later_messages_of_a_unit_stay_waiting' in self.changes else most
