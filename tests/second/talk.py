"""One connection with an end under test: what it sends is examined by the rules of docs/protocol.md, and what it is sent may be odd."""
import select
import socket
import struct
import time

from end import FAULTS, MASK, RESERVED, TYPES, Settings, decoded, filled, is_name
from md4 import RFC_1320, md4

OPENING = 'ConnReq', 'ConnResp'
LATE = 250  # milliseconds that a loaded system may add


class Findings:
    """What is known of each rule: held, or broken and by what."""

    def __init__(self):
        self.held, self.broken = set(), {}

    def judge(self, rule, is_kept, why=''):
        if is_kept:
            self.held.add(rule)
        else:
            self.broken.setdefault(rule, why)
        return is_kept


def as_pairs(addresses):
    return [(host.strip('[]'), int(port)) for host, port in (address.rsplit(':', 1) for address in addresses)]


def hint_of_code(part, settings):
    """What is wrong with a code, if that can be seen."""
    for size in (8, 16):
        for start, name in ((settings.iv, 'iv'), (RFC_1320, "RFC 1320's start value")):
            if md4(part[:-size], start)[:size] == part[-size:]:
                return f' (it is one of {size} bytes by {name})'
    return ''


class Channels:
    """The own sockets and the peer's addresses."""

    def __init__(self, local, remote):
        self.remote = as_pairs(remote)
        self.socks, self.pending = [], []
        for host, port in as_pairs(local):
            self.socks.append(socket.socket(socket.AF_INET6 if ':' in host else socket.AF_INET, socket.SOCK_DGRAM))
            self.socks[-1].bind((host, port))

    def send(self, datagram, socks=None):
        for sock, address in zip(socks or self.socks, self.remote):
            sock.sendto(datagram, address)

    def receive(self, seconds):
        """Returns channel and datagram, or None after this time."""
        if self.pending:
            return self.pending.pop(0)
        ready = select.select(self.socks, [], [], max(0, seconds))[0]
        return (self.socks.index(ready[0]), ready[0].recv(4096)) if ready else None

    def empty(self):
        """Passes over what came, except an opening that came last."""
        kept = []
        while came := self.receive(0):
            is_first = came[1][4:8] == bytes(4)
            kept = kept + [came] if is_first and kept and kept[0][1] == came[1] else [came] if is_first else []
        self.pending = kept


class Talk:
    """One incarnation of the own end. `told` are the PDUs of the peer that were not yet asked for."""

    def __init__(self, settings, channels, findings, first_sn):
        self.s, self.channels, self.findings = settings, channels, findings
        self.began, self.sn, self.number = time.monotonic(), first_sn, 0
        self.made, self.last_sent, self.sent_text = {0: 0}, 0, 'nothing'
        self.next_number, self.seen, self.told, self.copies, self.basis = 0, [], [], {}, -1
        self.messages, self.window, self.has_left = [], None, False

    def now(self):
        return int((time.monotonic() - self.began) * 1000) + 5

    # Sending.

    def part(self, kind, body=b'', is_odd=False, code=None, **changes):
        """A safety PDU. An odd one is not expected to be taken, so it takes no sequence number."""
        last = self.seen[-1] if self.seen else None
        fields = {'type': TYPES[kind], 'receiver': self.s.peer_id, 'sender': self.s.id, 'sn': self.sn, 'cs': last.sn if last else 0, 'ts': self.now(),
                  'cts': last.ts if last else 0, **changes}
        if not is_odd:
            self.made[self.sn & MASK] = fields['ts'] & MASK
            self.last_sent = self.now()
            self.sn = fields['sn'] + 1
        front = struct.pack('<HHIIIIII', 28 + len(body) + self.s.code, *(value & MASK for value in fields.values())) + body
        shown = ', '.join(f'{key} {value}' for key, value in changes.items())
        self.sent_text = kind + (f' ({shown})' if shown else '') + (f', body {body.hex()[:60]}' if is_odd and body else '')
        return front + (code or md4(front, self.s.iv)[:self.s.code])

    def send(self, kind, body=b'', number=None, socks=None, **changes):
        part = self.part(kind, body, **changes)
        self.send_part(part, number, socks)

    def send_part(self, part, number=None, socks=None):
        if number is None:
            number, self.number = self.number, self.number + 1
        self.channels.send(struct.pack('<HHI', 8 + len(part), 0, number) + part, socks)

    def opening(self, version=b'0303', window=20):
        return version + struct.pack('<H8x', window)

    def unit(self, kind, payload=b'', protocol=None, names=None, fill=b'_'):
        own, peer = names or (self.s.name, self.s.peer_name)
        text = struct.pack('<BH', self.s.protocol if protocol is None else protocol, kind)
        text += own.encode().ljust(20, fill) + peer.encode().ljust(20, fill) + payload
        return struct.pack('<H', len(text)) + text

    # Receiving.

    def is_over(self):
        return bool(self.seen) and (self.has_left or self.seen[-1].type == 'DiscReq')

    def wait(self, seconds, until=lambda: False, is_kept=True):
        """Receives for this time, or until something; heartbeats keep the connection."""
        end = time.monotonic() + seconds
        while not until() and (rest := end - time.monotonic()) > 0:
            came = None if self.is_over() and self.channels.pending else self.channels.receive(min(rest, 0.02))
            if self.is_over() and self.channels.pending:
                time.sleep(min(rest, 0.02))
            if came:
                self.examine(*came)
            if is_kept and self.seen and self.made and self.now() - self.last_sent >= self.s.t_h and self.seen[-1].type not in ('DiscReq', *OPENING):
                self.send('HB')

    def examine(self, channel, datagram):
        if datagram in self.copies:
            self.copies[datagram].add(channel)
            return
        judge = self.findings.judge
        if len(datagram) < 8 or struct.unpack_from('<H', datagram)[0] != len(datagram):
            hint = ': most significant byte first' if len(datagram) > 1 and struct.unpack_from('>H', datagram)[0] == len(datagram) else ''
            judge('R1', False, f'the length of {datagram.hex()[:40]} is not {len(datagram)}{hint}')
            return
        if not judge('R1', datagram[2:4] == b'\0\0', f'the reserve is {datagram[2:4].hex()}'):
            return
        number = struct.unpack_from('<I', datagram, 4)[0]
        if number == 0 and self.is_over():  # the next incarnation
            self.channels.pending.append((channel, datagram))
            return
        pdu = decoded(datagram[8:], self.s)
        if not self.seen and not self.s.is_client and not isinstance(pdu, int) and pdu.type != 'ConnReq':  # of an incarnation before
            return
        self.copies[datagram] = {channel}
        judge('R2', number == self.next_number, f'redundancy number {number} came, not {self.next_number}')
        self.next_number = number + 1
        if isinstance(pdu, int):
            self.examine_fault(pdu, datagram[8:])
        else:
            judge('F2', True)
            judge('F3', True)
            self.examine_pdu(pdu)

    def examine_fault(self, fault, part):
        judge, text = self.findings.judge, FAULTS[fault]
        if fault == 3:
            judge('F2', False, f'the code of {part.hex()} is another' + hint_of_code(part, self.s))
        elif fault == 2 and len(part) > 1 and struct.unpack_from('>H', part)[0] == len(part):
            judge('F1', False, f'fault Length: most significant byte first in {part[:28].hex()}')
        else:
            judge('F1', False, f'fault {text}: {part.hex()}')

    def examine_pdu(self, pdu):
        judge, last, now = self.findings.judge, self.seen[-1] if self.seen else None, self.now()
        if not judge('F1', (pdu.receiver, pdu.sender) == (self.s.id, self.s.peer_id),
                     f'{pdu.type} from {pdu.sender} for {pdu.receiver}, not from {self.s.peer_id} for {self.s.id}'):
            return
        if last:
            judge('N1', pdu.sn == last.sn + 1 & MASK, f'{pdu.type} has SN {pdu.sn} after {last.sn}')
            judge('C1', abs((pdu.ts - last.ts & MASK) - (now - last.at)) <= LATE + self.s.t_h, f'TS {pdu.ts} came {now - last.at} ms after TS {last.ts}')
        order = list(self.made)
        basis = order.index(pdu.cs) if pdu.cs in self.made and self.made[pdu.cs] == pdu.cts else None
        if judge('F1', basis is not None, f'{pdu.type} has CS {pdu.cs} and CTS {pdu.cts}: no PDU sent has both'):
            judge('F1', basis >= self.basis, f'{pdu.type} has CS {pdu.cs}, older than before')
            self.basis = max(basis, self.basis)
        pdu.at = now
        self.seen.append(pdu)
        self.told.append(pdu)
        if pdu.type in OPENING:
            self.window = pdu.window
        if pdu.type in ('Data', 'RetrData'):
            self.examine_unit(pdu.unit)

    def examine_unit(self, unit):
        judge, place, count = self.findings.judge, 0, 0
        while place < len(unit):
            size = struct.unpack_from('<H', unit, place)[0] if len(unit) - place > 1 else 0
            count += 1
            if not judge('U1', 43 <= size <= 400 and place + 2 + size <= len(unit) and count <= 3, f'in the unit {unit.hex()} no message begins at {place}'):
                return
            self.examine_message(unit[place + 2:place + 2 + size])
            place += 2 + size

    def examine_message(self, message):
        judge = self.findings.judge
        protocol, kind = struct.unpack_from('<BH', message)
        judge('U4', is_name(message[3:23]) and is_name(message[23:43]), f'a name in {message[3:43]!r} is not filled with 0x5f')
        names = message[3:23].rstrip(b'_\0 '), message[23:43].rstrip(b'_\0 ')
        judge('A2', (protocol, *names) == (self.s.protocol, self.s.peer_name.encode(), self.s.name.encode()),
              f'protocol {protocol}, names {names}, not {self.s.protocol}, {self.s.peer_name}, {self.s.name}')
        swapped = kind >> 8 | (kind & 255) << 8
        if kind not in RESERVED and swapped in RESERVED:
            judge('U3', False, f'message type {kind:04x}: most significant byte first of {swapped:04x}')
        else:
            judge('U3', True)
        self.messages.append((kind, message[43:]))

    # Expecting.

    def next_of(self, kinds, seconds, is_kept=True):
        """Waits for a PDU of these types and returns it, or None; others before it are passed over."""
        def has():
            return any(pdu.type in kinds for pdu in self.told)
        self.wait(seconds, has, is_kept)
        while self.told:
            pdu = self.told.pop(0)
            if pdu.type in kinds:
                return pdu
        return None

    def next_message(self, kind, seconds):
        def has():
            return any(told == kind for told, _ in self.messages) or bool(self.told and self.told[-1].type == 'DiscReq')
        self.wait(seconds, has)
        while self.messages:
            told, payload = self.messages.pop(0)
            if told == kind:
                return payload
        return None

    def came(self):
        """What came and was not asked for, in words."""
        return ', '.join(pdu.type + (f' with reason {pdu.reason}, detail {pdu.detail}' if pdu.type == 'DiscReq' else '') for pdu in self.told) or 'nothing'

    def leaves(self, rules, reason, detail=0, seconds=1.0):
        """The peer must disconnect with this reason and detail."""
        sent = self.sent_text
        self.wait(seconds, lambda: any(pdu.type == 'DiscReq' for pdu in self.told), False)
        found = next((pdu for pdu in self.told if pdu.type == 'DiscReq'), None)
        is_right = found is not None and (found.reason, found.detail) == (reason, detail)
        for rule in (*rules, *(['M2'] if found else [])):
            self.findings.judge(rule, is_right, f'sent {sent}; due a DiscReq with reason {reason}, detail {detail}; came {self.came()}')

    def is_silent(self, rules, seconds=0.15):
        """The peer must send nothing but heartbeats."""
        sent, self.told = self.sent_text, []
        self.wait(seconds)
        for rule in rules:
            self.findings.judge(rule, all(pdu.type in ('HB', 'Data') for pdu in self.told), f'sent {sent}; due nothing; came {self.came()}')

    def sends(self, rules, kinds, seconds=1.0):
        """The peer must send PDUs of these types, in this order."""
        sent = self.sent_text

        def is_complete():
            while self.told and self.told[0].type == 'HB' != kinds[0]:  # one that was due by T_h
                self.told.pop(0)
            return len(self.told) >= len(kinds)
        self.wait(seconds, is_complete)
        is_right = [pdu.type for pdu in self.told[:len(kinds)]] == kinds
        for rule in rules:
            self.findings.judge(rule, is_right, f'sent {sent}; due {", ".join(kinds)}; came {self.came()}')
        found, self.told = self.told[:len(kinds)], self.told[len(kinds):]
        return found if is_right else None

    def end(self):
        """Closes, and judges the copies on other channels."""
        if self.seen and not self.is_over():
            self.send('DiscReq', bytes(4))
            self.has_left = True

        def missing():
            return [datagram for datagram, channels in self.copies.items() if len(channels) < len(self.channels.socks)]
        self.wait(0.03, is_kept=False)
        self.wait(0.5, lambda: not missing() or bool(self.channels.pending), False)
        if len(self.channels.socks) > 1 and self.copies:
            self.findings.judge('T3', not missing(), f'{len(missing())} of {len(self.copies)} datagrams did not come on every channel')


def read_settings(text, is_client):
    """The own settings of a settings file, and both lists of addresses."""
    keys = dict(text)
    local, remote = keys.pop('local'), keys.pop('remote')
    keys['versions'] = keys.pop('versions', None) or [keys.pop('version', 1)]
    for key in ('iv', 'checksum'):
        if key in keys:
            keys[key] = bytes.fromhex(keys[key])
    keys.pop('puts', None)
    keys.pop('first_sn', None)
    return Settings(is_client, **keys), local, remote
