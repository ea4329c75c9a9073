"""One end by docs/protocol.md: redundancy layer, safety machine and session. It has no clock and no sockets: calls get times and bytes.

Its author, an engineer of another maker, had read only docs/protocol.md and docs/glossary.md, and no source, definition or model. That is why it is
kept beside tests/model: the model was written with the definitions, so both can have the same thing wrong, and neither shows what the page says. It
was changed for two findings about the page: a RetrResp out of reach is dropped, and a Data with fewer than 45 bytes has the fault Body. **It is not
corrected to agree with the program: a difference is a finding, of the page or of the program.** If a rule of the page changes, change it here from the page.
"""
import struct

from md4 import RFC_1320, md4

MASK = 0xffffffff
TYPES = {'ConnReq': 6200, 'ConnResp': 6201, 'RetrReq': 6212, 'RetrResp': 6213, 'DiscReq': 6216, 'HB': 6220, 'Data': 6240, 'RetrData': 6241}
NAMES = {number: name for name, number in TYPES.items()}
FAULTS = {1: 'Short', 2: 'Length', 3: 'Code', 4: 'Type', 5: 'Body'}
RESERVED = 0x21, 0x22, 0x23, 0x24, 0x25
DEFAULTS = {'protocol': 1, 'versions': [1], 'checksum': b'', 'code': 8, 'iv': RFC_1320, 'first_sn': 1, 'n_sendmax': 20, 'n_maxpacket': 3, 'q': 4,
            't_seq': 50, 't_max': 1800, 't_h': 300, 'mwa': 10, 'pdu_limit': 4294901760}


class Settings:
    """The keys of a settings file: id, peer_id, name, peer_name, and those with defaults."""

    def __init__(self, is_client, **chosen):
        self.is_client = is_client
        self.__dict__.update({**DEFAULTS, **chosen})


class Pdu:
    """The fields of a safety PDU."""


def decoded(octets, settings):
    """Returns the safety PDU, or the number of its first fault."""
    code = settings.code
    if len(octets) < 28 + code:
        return 1
    if struct.unpack_from('<H', octets)[0] != len(octets) or len(octets) > 1234 + code:
        return 2
    front = octets[:len(octets) - code]
    if md4(front, settings.iv)[:code] != octets[len(octets) - code:]:
        return 3
    pdu = Pdu()
    _, number, pdu.receiver, pdu.sender, pdu.sn, pdu.cs, pdu.ts, pdu.cts = struct.unpack_from('<HHIIIIII', front)
    if number not in NAMES:
        return 4
    pdu.type, body = NAMES[number], front[28:]
    return pdu if with_body(pdu, body) else 5


def with_body(pdu, body):
    """Reads the body, and returns whether it fits the type."""
    if pdu.type in ('ConnReq', 'ConnResp'):
        if len(body) != 14 or not body[:4].isdigit() or body[6:] != bytes(8):
            return False
        pdu.version, pdu.window = body[:4], struct.unpack_from('<H', body, 4)[0]
        return 1 <= pdu.window <= 32
    if pdu.type in ('RetrReq', 'RetrResp', 'HB'):
        return not body
    if pdu.type == 'DiscReq':
        if len(body) == 4:
            pdu.detail, pdu.reason = struct.unpack('<HH', body)
        return len(body) == 4
    pdu.unit = body
    return 45 <= len(body) <= 1206


def filled(name):
    return name.encode().ljust(20, b'_')


def is_name(octets):
    text = octets.rstrip(b'_')
    return len(text) > 0 and all(0x21 <= octet <= 0x7e and octet != 0x5f for octet in text)


class Redundancy:
    """The receiving half of the redundancy layer."""

    def __init__(self, settings):
        self.q, self.t_seq = settings.q, settings.t_seq
        self.expected, self.waiting, self.since, self.label = 0, {}, 0, None

    def following(self):
        """Yields the deferred parts that follow without a gap."""
        while self.expected in self.waiting:
            part, self.label = self.waiting.pop(self.expected)
            self.expected += 1
            yield part

    def call(self, now, datagram, tell, label=None):
        """Yields the parts that go up, in a tick if there is no datagram. What becomes of a datagram is told; its label is for logs."""
        before = self.expected
        if self.waiting and now - self.since >= self.t_seq:
            self.expected = min(self.waiting)
            yield from self.following()
        if datagram is not None:
            self.label = label
            yield from self.judged(now, datagram, tell, label)
        if self.expected != before and self.waiting:
            self.since = now

    def judged(self, now, datagram, tell, label):
        if len(datagram) < 8:
            return tell('red-Short')
        if struct.unpack_from('<H', datagram)[0] != len(datagram) or len(datagram) > 1258:
            return tell('red-Length')
        if datagram[2:4] != b'\0\0':
            return tell('red-Reserve')
        number = struct.unpack_from('<I', datagram, 4)[0]
        if number < self.expected:
            return tell('old')
        if number == self.expected:
            self.expected += 1
            yield datagram[8:]
            yield from self.following()
        elif number - self.expected > 10 * self.q:
            tell('far')
        elif number in self.waiting:
            tell('again')
        elif len(self.waiting) >= self.q:
            tell('full')
        else:
            if not self.waiting:
                self.since = now
            self.waiting[number] = datagram[8:], label
            tell('wait')


class End:
    """One end. The datagrams that it makes are in `out`; each goes to every channel. Its events are methods to override."""

    def __init__(self, settings, now):
        self.s, self.now = settings, now
        self.out, self.redundancy = [], Redundancy(settings)
        self.made, self.last_made, self.since = 0, now, 0
        self.expected, self.last_sn, self.last_ts = None, 0, 0
        self.confirmed, self.confirmed_at, self.answered, self.window = -1, now, -1, 0
        self.unconfirmed, self.messages = [], []
        self.state, self.phase, self.reason = 'Down', 'Idle', None
        if settings.is_client:
            self.make('ConnReq', self.opening_body())
            self.enter('Start')
        else:
            self.entered('Down')

    # Events.

    def entered(self, state):
        """There is a new state."""

    def went(self, phase):
        """There is a new phase."""

    def took(self, kind, payload):
        """The application takes a telegram."""

    def drop(self, cause):
        """A datagram is dropped, or waits."""

    def enter(self, state):
        if state != self.state:
            self.state = state
            self.entered(state)

    def go(self, phase):
        if phase != self.phase:
            self.phase = phase
            self.went(phase)

    # PDUs made.

    def opening_body(self):
        return b'0303' + struct.pack('<H8x', self.s.n_sendmax)

    def make(self, kind, body=b''):
        index, self.made, self.last_made, self.since = self.made, self.made + 1, self.now, 0
        front = struct.pack('<HHIIIIII', 28 + len(body) + self.s.code, TYPES[kind], self.s.peer_id, self.s.id,
                            (self.s.first_sn + index) & MASK, self.last_sn, self.now & MASK, self.last_ts) + body
        octets = front + md4(front, self.s.iv)[:self.s.code]
        self.out.append(struct.pack('<HHI', 8 + len(octets), 0, index & MASK) + octets)
        return index

    def leave(self, reason, detail=0):
        if self.state in ('Down', 'Closed') and not (self.state == 'Down' and reason == 5):
            return self.shut('own', reason, detail)
        self.make('DiscReq', struct.pack('<HH', detail, reason))
        return self.shut('own', reason, detail)

    def shut(self, by, reason, detail):
        if self.state != 'Closed':
            self.reason = by, reason, detail
            self.enter('Closed')
            self.go('Ended')

    # Safety machine.

    def is_guarded(self):
        """The guard: whether it disconnects."""
        if self.state in ('Down', 'Closed'):
            return False
        if self.now - self.confirmed_at >= self.s.t_max:
            self.leave(3)
        elif self.made >= self.s.pdu_limit:
            self.leave(7, 1)
        return self.state == 'Closed'

    def cs_step(self, pdu):
        return (pdu.cs - (self.s.first_sn + self.confirmed)) & MASK

    def passes_tests(self, pdu):
        """Both confirmation tests: what they confirm is confirmed, or the end disconnects."""
        step = self.cs_step(pdu)
        if self.confirmed + step >= self.made or self.confirmed + step < 0:
            self.leave(7, 3)
            return False
        if not self.passes_time_test(pdu):
            return False
        self.confirm(self.confirmed + step)
        self.confirmed_at += (pdu.cts - self.confirmed_at) & MASK
        return True

    def passes_time_test(self, pdu):
        if self.confirmed_at + ((pdu.cts - self.confirmed_at) & MASK) > self.now:
            self.leave(7, 4)
            return False
        return True

    def confirm(self, index):
        self.confirmed = index
        self.unconfirmed = [kept for kept in self.unconfirmed if kept[0] > index]

    def expect_after(self, pdu, index):
        self.expected, self.last_sn, self.last_ts = index + 1, pdu.sn, pdu.ts

    def arrive_part(self, octets):
        if self.state == 'Closed' or self.is_guarded():
            return
        pdu = decoded(octets, self.s)
        if isinstance(pdu, int):
            self.drop(FAULTS[pdu])
        elif pdu.receiver != self.s.id or pdu.sender != self.s.peer_id:
            self.drop('stranger')
        elif self.state == 'Down':
            self.in_down(pdu)
        elif pdu.type == 'DiscReq':
            self.shut('peer', pdu.reason, pdu.detail)
        elif self.s.is_client and self.state == 'Start':
            self.as_client(pdu)
        else:
            self.by_table(pdu)

    def in_down(self, pdu):
        if pdu.type != 'ConnReq':
            self.drop('down')
            return
        self.expect_after(pdu, pdu.sn)
        if pdu.version != b'0303':
            self.leave(5)
            return
        self.window, self.confirmed_at = pdu.window, self.now
        self.make('ConnResp', self.opening_body())
        self.enter('Start')

    def as_client(self, pdu):
        if pdu.type != 'ConnResp':
            self.leave(1)
        elif pdu.version != b'0303':
            self.leave(5)
        elif self.passes_tests(pdu):
            self.expect_after(pdu, pdu.sn)
            self.window = pdu.window
            self.make('HB')
            self.up()

    def by_table(self, pdu):
        distance = (pdu.sn - self.last_sn - 1) & MASK
        index, is_next, kind = self.expected + distance, distance == 0, pdu.type
        if distance > 10 * self.s.n_sendmax:  # of a RetrResp too
            self.drop('number')
        elif self.state == 'RetrReq' and kind == 'RetrResp':
            if self.passes_tests(pdu):
                self.expect_after(pdu, index)
                self.enter('RetrRun')
        elif kind in ('ConnReq', 'ConnResp'):
            self.leave(1)
        elif self.state == 'Start':
            self.in_start(pdu, index, is_next)
        elif kind == 'RetrReq':
            self.on_request(pdu, index, is_next)
        elif self.state == 'RetrReq':  # a heartbeat, Data or RetrData
            self.drop('request')
        elif kind == 'RetrResp' or kind == 'RetrData' and self.state == 'Up':
            self.leave(1)
        elif not is_next:
            self.drop('gap')
            self.make('RetrReq')
            self.enter('RetrReq')
        elif self.passes_tests(pdu):
            self.take(pdu, index)

    def in_start(self, pdu, index, is_next):
        if pdu.type == 'HB' and is_next:
            if self.passes_tests(pdu):
                self.expect_after(pdu, index)
                self.up()
        elif pdu.type in ('HB', 'Data'):
            self.leave(1 if is_next else 2)
        else:
            self.leave(1)

    def take(self, pdu, index):
        self.expect_after(pdu, index)
        if pdu.type != 'RetrData':
            self.enter('Up')
        if pdu.type != 'HB':
            self.since += 1
            if self.since >= self.s.mwa:
                self.make('HB')
            self.take_unit(pdu.unit)

    def on_request(self, pdu, index, is_next):
        step, takes = self.cs_step(pdu), self.state in ('Up', 'RetrRun')
        if index <= self.answered:
            self.drop('answered')
            return
        if step >= 1 << 31:
            self.drop('below')
            return
        if self.confirmed + step >= self.made:
            self.leave(6)
            return
        if is_next and takes:
            if not self.passes_time_test(pdu):
                return
            self.confirmed_at += (pdu.cts - self.confirmed_at) & MASK
            self.expect_after(pdu, index)
        self.answered = index
        self.confirm(self.confirmed + step)
        self.make('RetrResp')
        self.unconfirmed = [(self.make('RetrData', unit), unit) for _, unit in self.unconfirmed]
        self.make('HB')
        if not is_next and takes:
            self.make('RetrReq')
            self.enter('RetrReq')

    # Session.

    def up(self):
        self.enter('Up')
        if self.phase == 'Idle' and self.s.is_client:
            self.queue(0x24, bytes([self.s.versions[0]]))
            self.go('Checking')
        elif self.phase == 'Idle':
            self.go('AwaitCheck')

    def queue(self, kind, payload):
        self.messages.append(struct.pack('<BH', self.s.protocol, kind) + filled(self.s.name) + filled(self.s.peer_name) + payload)

    def take_unit(self, unit):
        messages, place = [], 0
        while place < len(unit):
            size = struct.unpack_from('<H', unit, place)[0] if len(unit) - place >= 2 else 0
            if len(messages) == 3 or not 43 <= size <= 400 or place + 2 + size > len(unit):
                self.leave(7, 2)
                return
            messages.append(unit[place + 2:place + 2 + size])
            place += 2 + size
        for message in messages:
            if self.state == 'Closed' or not self.takes_message(message):
                return

    def takes_message(self, message):
        """Judges a message, and returns whether the session goes on."""
        protocol, kind = struct.unpack_from('<BH', message)
        if not is_name(message[3:23]) or not is_name(message[23:43]) or protocol != self.s.protocol \
                or message[3:23] != filled(self.s.peer_name) or message[23:43] != filled(self.s.name):
            return self.end_session(3)
        return (self.as_interlocking if self.s.is_client else self.as_field_element)(self.phase, kind, message[43:])

    def as_interlocking(self, phase, kind, payload):
        if phase == 'Checking' and kind == 0x25 and len(payload) >= 3 and payload[0] in (1, 2) and payload[2] <= 16 and len(payload) == 3 + payload[2]:
            if payload[0] == 1:
                return self.end_session(1)
            if payload[1] != self.s.versions[0]:
                return self.end_session(2)
            self.queue(0x21, b'')
            self.go('Requesting')
        elif phase == 'Requesting' and kind == 0x22 and not payload:
            self.go('Initialising')
        elif phase == 'Initialising' and kind == 0x23 and not payload:
            self.go('Established')
        elif phase in ('Initialising', 'Established') and kind not in RESERVED:
            self.took(kind, payload)
        else:
            return self.end_session(2)
        return True

    def as_field_element(self, phase, kind, payload):
        if phase == 'AwaitCheck' and kind == 0x24 and len(payload) == 1:
            if payload[0] in self.s.versions:
                self.queue(0x25, bytes([2, payload[0], len(self.s.checksum)]) + self.s.checksum)
                self.go('AwaitRequest')
            else:
                self.queue(0x25, bytes([1, self.s.versions[0], 0]))
                self.go('Refused')
        elif phase == 'AwaitRequest' and kind == 0x21 and not payload:
            self.queue(0x22, b'')
            self.go('Initialising')
        elif phase == 'Established' and kind not in RESERVED:
            self.took(kind, payload)
        else:
            return self.end_session(2)
        return True

    def end_session(self, detail):
        self.go('Ended')
        self.leave(4, detail)
        return False

    # Calls.

    def put(self, kind, payload):
        """Puts a telegram, and returns the name of a refusal, or None."""
        if self.phase != 'Established' and (self.phase != 'Initialising' or self.s.is_client):
            return 'NotEstablished'
        if len(self.messages) >= 64:
            return 'Full'
        if kind in RESERVED:
            return 'ReservedType'
        if len(payload) > 357:
            return 'TooLong'
        self.queue(kind, payload)
        return None

    def init_done(self):
        if self.s.is_client or self.phase != 'Initialising':
            return 'NotInitialising'
        if len(self.messages) >= 64:
            return 'Full'
        self.queue(0x23, b'')
        self.go('Established')
        return None

    def arrive(self, now, datagram, label=None):
        self.now = now
        if self.state != 'Closed' and not self.is_guarded():
            for part in self.redundancy.call(now, datagram, self.drop, label):
                self.arrive_part(part)
            self.send()

    def tick(self, now):
        self.now = now
        if self.state == 'Closed' or self.is_guarded():
            return
        if self.state in ('Up', 'RetrReq', 'RetrRun') and now - self.last_made >= self.s.t_h:
            self.make('HB')
        for part in self.redundancy.call(now, None, self.drop):
            self.arrive_part(part)
        self.send()

    def send(self):
        """Packs and sends the messages that wait, while the machine may send."""
        while self.messages and self.state in ('Up', 'RetrRun') and len(self.unconfirmed) < self.window:
            first, self.messages = self.messages[:self.s.n_maxpacket], self.messages[self.s.n_maxpacket:]
            unit = b''.join(struct.pack('<H', len(message)) + message for message in first)
            self.unconfirmed.append((self.make('Data', unit), unit))
