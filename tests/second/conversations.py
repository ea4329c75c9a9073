"""Conversations of crafted PDUs: the program is one end over the loopback, and an end of this folder follows it.

The deadlines are so long that none passes. The time of an answer is in its timestamp.
"""
import copy
import os
import random
import socket
import struct
import subprocess
import sys
import time

from end import MASK, TYPES, End, Settings, decoded, filled
from md4 import md4

sys.path.insert(0, os.path.dirname(os.path.dirname(os.path.abspath(__file__))))
from program import await_ports  # noqa: E402

HOST = '127.0.0.1'
ESTABLISHMENT = {'fe': [('HB', None), (0x24, b'\3'), (0x21, b'')], 'il': [(0x25, b'\2\3\0'), (0x22, b''), (0x23, b'')]}
PAYLOADS = b'', b'\3', b'\1', b'\2\3\0', b'\1\3\1z', b'\2\1\0', b'\2\3\2z'


def free_port():
    with socket.socket(socket.AF_INET, socket.SOCK_DGRAM) as sock:
        sock.bind((HOST, 0))
        return sock.getsockname()[1]


def shown(octets, settings):
    """A datagram in words, for a difference."""
    pdu = decoded(octets[8:], settings)
    if isinstance(pdu, int):
        return octets.hex()
    why = f' reason {pdu.reason} detail {pdu.detail}' if pdu.type == 'DiscReq' else ''
    return f'{pdu.type} sn {pdu.sn} cs {pdu.cs} ts {pdu.ts} cts {pdu.cts}{why}'


class Following(End):
    """The end that follows the program, with the program's own puts."""

    def __init__(self, settings, now, puts):
        self.puts, self.taken = list(puts), []
        super().__init__(settings, now)

    def took(self, kind, payload):
        self.taken.append(f'{kind:04x} {payload.hex() or "-"}')

    def turn(self, now, datagram):
        """A turn of the program in which this datagram comes."""
        self.arrive(now, datagram)
        self.tick(now)
        while self.puts and self.put(*self.puts[0]) is None:
            self.puts.pop(0)
            self.send()
        if not self.puts and self.init_done() is None:
            self.send()


class Conversation:
    """One run of the program as this side."""

    def __init__(self, side, seed, program, path):
        r = self.rng = random.Random(seed)
        self.side, own = side, 1 if side == 'il' else 2
        chosen = {'code': r.choice((8, 16)), 'n_sendmax': r.choice((1, 3, 20)), 'n_maxpacket': r.randint(1, 3), 'q': r.choice((1, 4, 8)), 't_seq': 1000,
                  't_max': 60000, 't_h': 50000, 'mwa': r.choice((1, 2, 5)), 'first_sn': r.choice((0, 0xfffffffa, 1 << 31, 7))}
        names = ('IL1', 'FE1') if side == 'il' else ('FE1', 'IL1')
        self.settings = Settings(side == 'il', id=own, peer_id=3 - own, name=names[0], peer_name=names[1], versions=[3] if side == 'il' else [3, 1],
                                 checksum=b'' if side == 'il' else b'\xc0\xff', **chosen)
        self.puts = [(0x200 + number, bytes([number])) for number in range(r.choice((0, 3, 9)))]
        self.sock, self.port = socket.socket(socket.AF_INET, socket.SOCK_DGRAM), free_port()
        self.sock.bind((HOST, 0))
        self.sock.settimeout(10)
        self.write_settings(path, chosen)
        self.output = open(path + '.out', 'w+', encoding='ascii')
        self.run = subprocess.Popen([*program, side, path, '--turns', '1000000'], stdin=subprocess.DEVNULL, stdout=self.output, stderr=subprocess.DEVNULL)
        self.seen, self.told = [], []
        self.sn, self.peer_ts = r.choice((50, 0xfffffffc)), 0

    def write_settings(self, path, chosen):
        s = self.settings
        texts = {'name': s.name, 'peer_name': s.peer_name, **({'checksum': s.checksum.hex()} if self.side == 'fe' else {})}
        lines = [f'{key} = {value}' for key, value in {**chosen, 'id': s.id, 'peer_id': s.peer_id}.items()]
        lines += [f'{key} = "{text}"' for key, text in texts.items()]
        lines += ['version = 3' if self.side == 'il' else 'versions = [3, 1]', f'local = ["{HOST}:{self.port}"]',
                  f'remote = ["{HOST}:{self.sock.getsockname()[1]}"]',
                  'puts = [%s]' % ', '.join(f'"{kind:04x}:{payload.hex()}"' for kind, payload in self.puts)]
        with open(path, 'w', encoding='ascii') as file:
            file.write('\n'.join(lines) + '\n')

    def open(self):
        """Waits for the program's opening, and opens the end that follows it. Returns a difference, or None."""
        came = [self.sock.recv(4096)] if self.side == 'il' else []
        if self.side == 'fe':
            await_ports(self.run, [self.port], 10)
        now = struct.unpack_from('<I', came[0], 28)[0] if came else 0
        self.now, self.offset = now, time.monotonic() * 1000 - now
        self.end = Following(self.settings, now, self.puts)
        return self.difference(came)

    def difference(self, came):
        due, self.end.out = self.end.out, []
        self.seen += [pdu for octets in came if not isinstance(pdu := decoded(octets[8:], self.settings), int)]
        if came == due:
            return None
        return '\n'.join([f'{self.side}, after: ' + ', '.join(self.told[-4:]), *('    program: ' + shown(octets, self.settings) for octets in came),
                          *('    second:  ' + shown(octets, self.settings) for octets in due)])

    def step(self, datagram):
        """The datagram goes to the program and to the end that follows. Returns a difference, or None."""
        self.sock.sendto(datagram, (HOST, self.port))
        now = max(self.now, int(time.monotonic() * 1000 - self.offset))
        guess = copy.deepcopy(self.end)
        guess.turn(now, datagram)
        came = []
        try:
            for _ in guess.out:
                came.append(self.sock.recv(4096))
        except socket.timeout:
            pass
        if came:
            now = struct.unpack_from('<I', came[0], 28)[0]  # a guess of a turn without an answer may have been late
            self.offset = min(self.offset, time.monotonic() * 1000 - now)
        phase, self.now = self.end.phase, now
        self.end.turn(now, datagram)
        if not came and self.end.phase != phase:
            time.sleep(0.02)  # what the program puts then, it puts before the next comes
        return self.difference(came)

    def finished(self):
        """Nothing more came, and the program printed what was taken. Returns a difference, or None."""
        until, due = time.monotonic() + 5, ''.join(f'{self.side} takes {line}\n' for line in self.end.taken)
        while self.printed() != due and time.monotonic() < until:
            time.sleep(0.005)
        self.sock.setblocking(False)
        try:
            return 'a further datagram: ' + shown(self.sock.recv(4096), self.settings)
        except BlockingIOError:
            pass
        return None if self.printed() == due else f'{self.side} printed {self.printed()!r}, not {due!r}'

    def printed(self):
        self.output.seek(0)
        return self.output.read()

    def close(self):
        self.run.kill()
        self.run.wait()
        self.sock.close()
        self.output.close()

    # What is sent.

    def part(self, kind, body, is_odd):
        """A safety PDU, with odd fields if that is asked."""
        r, s, odd = self.rng, self.settings, lambda chance: is_odd and self.rng.random() < chance
        cs, cts = (self.seen[-1].sn, self.seen[-1].ts) if self.seen else (0, 0)
        if self.seen and odd(0.12):
            earlier = r.choice(self.seen[-6:])
            cs, cts = earlier.sn, earlier.ts
        elif odd(0.02):
            cs += r.choice((1, 100, -50))
        elif odd(0.01):
            cts += r.choice((1000000, -100000))
        distance = r.choice((1, 1, 1, 2, 10 * s.n_sendmax, 10 * s.n_sendmax + 1, -1, -2, 1 << 30)) if odd(0.25) else 0
        self.peer_ts = r.getrandbits(32) if r.random() < 0.2 else self.peer_ts + 1
        fields = (6242 if odd(0.01) else TYPES[kind], s.id + 5 * odd(0.02), s.peer_id + 5 * odd(0.02), self.sn + distance, cs, self.peer_ts, cts)
        front = struct.pack('<HHIIIIII', 28 + len(body) + s.code, *(field & MASK for field in fields)) + body
        octets = front + md4(front)[:s.code]
        return octets[:-1] + bytes([octets[-1] ^ 1]) if odd(0.02) else octets

    def datagram(self, kind, body, is_odd):
        r, expected, part = self.rng, self.end.redundancy.expected, self.part(kind, body, is_odd)
        if is_odd and r.random() < 0.1:
            expected = max(0, expected + r.choice((-1, 1, 2, 3, 10 * self.settings.q, 10 * self.settings.q + 1)))
        octets = struct.pack('<HHI', 8 + len(part), 0, expected) + part
        return r.choice((octets[:7], octets[:2] + b'\1' + octets[3:], octets + b'\0', b'')) if is_odd and r.random() < 0.02 else octets

    def message(self, kind, payload, is_odd=False):
        s = self.settings
        text = struct.pack('<BH', 2 if is_odd and self.rng.random() < 0.01 else 1, kind) + filled(s.peer_name) + filled(s.name) + payload
        return struct.pack('<H', len(text)) + text

    def opening(self, is_odd):
        r, body = self.rng, b'0303' + struct.pack('<H8x', self.rng.choice((1, 2, 5, 32)))
        if is_odd and r.random() < 0.15:
            return r.choice((b'0302' + body[4:], b'03a3' + body[4:], body[:-1], body[:4] + b'\0\0' + body[6:], body[:-1] + b'\1',
                             body[:4] + b'\x21\0' + body[6:]))
        return body

    def body_of(self, kind, is_odd):
        r = self.rng
        if kind in ('ConnReq', 'ConnResp'):
            return self.opening(is_odd)
        if kind == 'DiscReq':
            return struct.pack('<HH', r.randint(0, 9), r.randint(0, 9))
        return b'x' if is_odd and r.random() < 0.05 else b''

    def unit(self, number, kind, payload, is_odd):
        r, body = self.rng, self.message(kind, payload, is_odd)
        if is_odd:
            body += b''.join(self.message(0x700 + number, b'zz') for _ in range(r.choice((0, 0, 0, 1, 2))))
            if r.random() < 0.04:
                body = r.choice((b'', body[:-1], body + b'\1', body[:20], body * 4, body + b'\0\0' + bytes(43)))
        return body

    def any_pdu(self, number):
        """Type and body of a PDU that may fit or not."""
        r, state = self.rng, self.end.state
        if state == 'RetrReq' and r.random() < 0.6:
            return 'RetrResp', b''
        if state == 'RetrRun' and r.random() < 0.4:
            return 'RetrData', self.unit(number, 0x600 + number, b'y', True)
        chosen = r.choice((*['Data'] * 20, *['HB'] * 9, *['RetrReq'] * 6, 'RetrResp', 'RetrData', 'rare'))
        if chosen == 'rare':
            chosen = r.choice(('DiscReq', 'ConnReq', 'ConnResp', 'Data', 'HB', 'HB'))
            if chosen == 'Data':
                return chosen, self.unit(number, r.choice((0x21, 0x22, 0x23, 0x24, 0x25)), r.choice(PAYLOADS), True)
        if chosen in ('Data', 'RetrData'):
            return chosen, self.unit(number, 0x500 + number, r.choice((b'', b'x', bytes([number]))), True)
        return chosen, self.body_of(chosen, True)

    def differs(self):
        """Holds the conversation: first a right beginning of some PDUs, then anything. Returns a difference, or None."""
        found, r = self.open(), self.rng
        right = [('ConnReq' if self.side == 'fe' else 'ConnResp', None), *ESTABLISHMENT[self.side]]
        right_count = r.choice((0, 1, 2, 3, *[4] * 8))
        for number in range(r.randint(10, 40)):
            if found or self.end.state == 'Closed':
                break
            is_odd = number >= right_count
            if number < len(right) and (not is_odd or r.random() < 0.8):
                kind, payload = right[number]
                kind, body = (kind, self.body_of(kind, is_odd)) if payload is None else ('Data', self.unit(number, kind, payload, is_odd))
            else:
                kind, body = self.any_pdu(number)
            self.told.append(f'{kind} in {self.end.state}')
            found = self.step(self.datagram(kind, body, is_odd))
            if self.end.state != 'Down':
                self.sn = self.end.last_sn + 1 & MASK
        return found or self.finished()
