"""The receiving half of the redundancy layer, and the condition for masking on what it receives.

A deferred part keeps the mark of its datagram, which identifies it in traces.
"""
from texts import red_seen

REACH = 10


class Receiver:
    def __init__(self, q, t_seq, changes=()):
        self.q, self.t_seq, self.changes = q, t_seq, changes
        self.expected, self.waiting, self.since = 0, {}, 0  # the deferred parts by number, and since when they wait
        self.wait = Wait(q, t_seq)

    def due(self, now):
        early = 1 if 'deferral_deadline_a_millisecond_early' in self.changes else 0
        return bool(self.waiting) and now >= self.since + self.t_seq - early

    def released(self, now):
        """Releases at the deadline the lowest deferred number and those that follow it."""
        self.wait.time(now)
        return self.follow(min(self.waiting), now) if self.due(now) else []

    def follow(self, number, now):
        """Passes up the parts with consecutive numbers from this one on."""
        run = []
        while number in self.waiting:
            run.append((number,) + self.waiting.pop(number))
            number += 1
        self.expected, self.since = number, now
        return run

    def arrives(self, octets, now, mark):
        """Handles a datagram, after the deadline was checked: returns the result, and the parts that go up as (number, part, mark)."""
        seen = red_seen(octets)
        if isinstance(seen, str):
            return 'red-' + seen, []
        number, part = seen
        self.wait.arrival(number, now)
        if number < self.expected:
            return 'old', []
        if number == self.expected:
            return 'passed', [(number, part, mark)] + self.follow(number + 1, now)
        if number > self.expected + REACH * self.q:
            return 'far', []
        if 'passes_early_parts' in self.changes:
            return 'passed', [(number, part, mark)]
        if number in self.waiting:
            return 'again', []
        if len(self.waiting) == self.room():
            return 'full', []
        if not self.waiting:
            self.since = now
        self.waiting[number] = (part, mark)
        return 'wait', []

    def room(self):
        return self.q + ('queue_of_one_more' in self.changes) - ('queue_of_one_less' in self.changes)


class Wait:
    """Watches what came, without a receiver: whether all was near, and no deferral deadline passed."""

    def __init__(self, q, t_seq):
        self.q, self.t_seq = q, t_seq
        self.arrived, self.missing, self.greatest, self.began = set(), 0, -1, None
        self.is_near = self.is_in_time = True

    def time(self, now):
        self.is_in_time &= self.allows(now)

    def allows(self, now):
        return self.began is None or now < self.began + self.t_seq

    def arrival(self, number, now):
        self.is_near &= number <= self.missing + self.q
        self.arrived.add(number)
        self.greatest, before = max(self.greatest, number), self.missing
        while self.missing in self.arrived:
            self.missing += 1
        if self.greatest < self.missing:
            self.began = None
        elif self.began is None or self.missing != before:
            self.began = now
