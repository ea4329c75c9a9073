"""The SCI session: the two tables of docs/protocol.md, with the messages that wait to be sent."""
from texts import PAYLOAD_MAX, tele_seen, tele_text, unit_seen

VERSION_CHECK, VERSION_ANSWER = 0x24, 0x25
REQUEST, BEGIN, COMPLETED = 0x21, 0x22, 0x23
RESERVED = (VERSION_CHECK, VERSION_ANSWER, REQUEST, BEGIN, COMPLETED)
WAITING_MAX = 64
VERSION_DIFFERS, OUT_OF_ORDER, NOT_OF_THIS_PAIR = (4, 1), (4, 2), (4, 3)  # reasons to disconnect, with their details
BAD_UNIT = (7, 2)


class Session:
    """Reports the telegrams it takes and its new phases to `tell`."""

    def __init__(self, side, settings, tell, changes=()):
        self.side, self.settings, self.tell, self.changes = side, settings, tell, changes
        self.phase, self.was_established = 'Idle', False
        self.waiting, self.put_in, self.taken = [], [], []

    def goes(self, phase):
        if phase != self.phase:
            self.phase = phase
            self.was_established |= phase == 'Established'
            self.tell(('phase', phase))

    def add(self, kind, payload=b''):
        s = self.settings
        self.waiting.append(tele_text(s.protocol, kind, s.name, s.peer_name, payload))

    def up(self):
        """Handles the connection going up."""
        if self.phase == 'Idle' and self.side == 'il':
            self.add(VERSION_CHECK, bytes(self.settings.versions[:1]))
            self.goes('Checking')
        elif self.phase == 'Idle':
            self.goes('AwaitCheck')

    def closes(self):
        self.goes('Ended')

    def put_refusal(self, kind, payload):
        """Returns the first refusal that holds."""
        if self.phase != 'Established' and not (self.side == 'fe' and self.phase == 'Initialising'):
            return 'NotEstablished'
        if len(self.waiting) >= WAITING_MAX:
            return 'Full'
        if kind in RESERVED:
            return 'ReservedType'
        return 'TooLong' if len(payload) > PAYLOAD_MAX else None

    def init_refusal(self):
        if not (self.side == 'fe' and self.phase == 'Initialising'):
            return 'NotInitialising'
        return 'Full' if len(self.waiting) >= WAITING_MAX else None

    def put(self, kind, payload):
        if not ('holds_back_initial_status' in self.changes and self.phase == 'Initialising'):
            self.add(kind, payload)
        self.put_in.append((kind, payload))

    def init_done(self):
        self.add(COMPLETED)
        self.goes('Established')

    def judge_unit(self, unit):
        """Checks the telegrams of a unit. If the end must disconnect, returns reason and detail; no further message is then checked."""
        messages = unit_seen(unit)
        if isinstance(messages, str):
            return BAD_UNIT
        leaving = None
        for message in messages:
            why = self.judge(tele_seen(message))
            leaving = leaving or why
            if leaving and 'session_judged_on_after_it_ended' not in self.changes:
                return leaving
        return leaving

    def judge(self, telegram):
        if isinstance(telegram, str):
            return NOT_OF_THIS_PAIR
        protocol, kind, sender, receiver, payload = telegram
        s = self.settings
        if (protocol, sender, receiver) != (s.protocol, s.peer_name, s.name):
            return self.ends(NOT_OF_THIS_PAIR)
        return self.as_interlocking(kind, payload) if self.side == 'il' else self.as_field_element(kind, payload)

    def ends(self, why):
        if 'session_judged_on_as_if_it_had_not_ended' in self.changes:
            return None
        self.goes('Ended')
        return why

    def takes(self, kind, payload):
        self.taken.append((kind, payload))
        if 'makes_up_command' in self.changes and kind == 0x0100:
            self.taken.append((kind, b'made up'))
        self.tell(('takes', kind, payload))

    def as_interlocking(self, kind, payload):
        own = self.settings.versions[0]
        answer = payload if kind == VERSION_ANSWER and is_answer(payload) else None
        if self.phase == 'Checking' and answer and answer[0] == 1:
            return self.ends(VERSION_DIFFERS)
        if self.phase == 'Checking' and answer and answer[1] == own:
            self.add(REQUEST)
            self.goes('Requesting')
        elif self.phase == 'Requesting' and (kind, payload) == (BEGIN, b''):
            self.goes('Initialising')
        elif self.phase == 'Initialising' and (kind, payload) == (COMPLETED, b''):
            self.goes('Established')
        elif self.phase in ('Initialising', 'Established') and kind not in RESERVED:
            self.takes(kind, payload)
        else:
            return self.ends(OUT_OF_ORDER)
        return None

    def taking_phases(self):
        """Returns the phases in which a field element takes commands."""
        return ('Established', 'Initialising') if 'takes_before_established' in self.changes else ('Established',)

    def as_field_element(self, kind, payload):
        versions, checksum = self.settings.versions, self.settings.checksum
        if self.phase == 'AwaitCheck' and kind == VERSION_CHECK and len(payload) == 1 and payload[0] in versions:
            version = versions[0] if 'answers_first_version' in self.changes else payload[0]
            self.add(VERSION_ANSWER, bytes([2, version, len(checksum)]) + checksum)
            self.goes('AwaitRequest')
        elif self.phase == 'AwaitCheck' and kind == VERSION_CHECK and len(payload) == 1:
            self.add(VERSION_ANSWER, bytes([1, versions[0], 0]))
            self.goes('Refused')
        elif self.phase == 'AwaitRequest' and (kind, payload) == (REQUEST, b''):
            self.add(BEGIN)
            self.goes('Initialising')
        elif self.phase in self.taking_phases() and kind not in RESERVED:
            self.takes(kind, payload)
        else:
            return self.ends(OUT_OF_ORDER)
        return None


def is_answer(payload):
    """Whether it has result 1 or 2, a version, the length of a checksum, and the checksum."""
    return len(payload) >= 3 and payload[0] in (1, 2) and payload[2] <= 16 and len(payload) == 3 + payload[2]
