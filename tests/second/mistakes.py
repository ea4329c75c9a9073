"""Interlockings with one typical mistake each, over the loopback, to try `against`."""
import socket
import struct
import threading
import time

from end import End, Settings
from md4 import md4

HOST = '127.0.0.1'
HEADER = '<HHIIIIII'


def coded(front, size=8, start=None):
    return front + (md4(front, start) if start else md4(front))[:size]


def in_redundancy(datagram, part):
    """The part under the number of a datagram."""
    return struct.pack('<HHI', 8 + len(part), 0, struct.unpack_from('<I', datagram, 4)[0]) + part


def with_fields(datagram, **fields):
    """The datagram with other fields, by their place in the header of the safety PDU, or with another body."""
    front = bytearray(datagram[8:-8])
    body = fields.pop('body', bytes(front[28:]))
    values = list(struct.unpack_from(HEADER, front))
    for place, value in fields.items():
        values[{'sn': 4, 'cs': 5, 'cts': 7}[place]] = value
    values[0] = 36 + len(body)
    return in_redundancy(datagram, coded(struct.pack(HEADER, *values) + body))


def with_unit(change):
    return lambda end, kind, index, datagram: with_fields(datagram, body=change(datagram[36:-8])) if kind == 'Data' else datagram


def most_significant_first(end, kind, index, datagram):
    front = datagram[8:-8]
    return in_redundancy(datagram, coded(struct.pack('>HHIIIIII', *struct.unpack_from(HEADER, front)) + front[28:]))


def swapped(end, kind, index, datagram):
    front = datagram[8:-8]
    return in_redundancy(datagram, coded(front[:4] + front[8:12] + front[4:8] + front[12:]))


def long_code(end, kind, index, datagram):
    return in_redundancy(datagram, coded(struct.pack('<H', len(datagram)) + datagram[10:-8], 16))


def wide_window(end, kind, index, datagram):
    return with_fields(datagram, body=b'0303' + struct.pack('<I8x', 20)) if kind == 'ConnReq' else datagram


# What is wrong, the rules that it breaks, and the change of a datagram; None: BadEnd does it.
MISTAKES = {
    'none': ('nothing', [], None),
    'start': ('another start value of MD4', ['F2'], lambda end, kind, index, datagram: in_redundancy(datagram, coded(datagram[8:-8], 8, bytes(16)))),
    'header': ('a safety header with the most significant byte first', ['F1'], most_significant_first),
    'redundancy': ('a redundancy header with the most significant byte first', ['R1'],
                   lambda end, kind, index, datagram: struct.pack('>HHI', *struct.unpack_from('<HHI', datagram)) + datagram[8:]),
    'identifiers': ('receiver and sender exchanged', ['F1'], swapped),
    'long': ('a code of 16 bytes', ['F2'], long_code),
    'over': ('a code over the redundancy header too', ['F2'], lambda end, kind, index, datagram: datagram[:-8] + md4(datagram[:-8])[:8]),
    'from_1': ('redundancy numbers from 1', ['R2'], lambda end, kind, index, datagram: datagram[:4] + struct.pack('<I', index + 1) + datagram[8:]),
    'nul': ('names filled with NUL', ['U4'], with_unit(lambda unit: unit.replace(b'_', b'\0'))),
    'spaces': ('names filled with spaces', ['U4'], with_unit(lambda unit: unit.replace(b'_', b' '))),
    'protocol': ('protocol type 2', ['A2'], with_unit(lambda unit: unit[:2] + b'\2' + unit[3:])),
    'cts': ('a CTS that is always 0', ['F1'], lambda end, kind, index, datagram: with_fields(datagram, cts=0)),
    'cs': ('the own SN as CS', ['F1'],
           lambda end, kind, index, datagram: with_fields(datagram, cs=struct.unpack_from('<I', datagram, 20)[0]) if index else datagram),
    'heartbeats': ('no heartbeats', ['M21'], None),
    'kind': ('a message type with the most significant byte first', ['U3'], with_unit(lambda unit: unit[:3] + unit[4:5] + unit[3:4] + unit[5:])),
    'first': ('Data instead of the first heartbeat', ['M9'], None),
    'length': ('no length before a message', ['U1', 'F1'], with_unit(lambda unit: unit[2:])),
    'restart': ('an SN that begins again after the ConnReq', ['N1'], lambda end, kind, index, datagram: with_fields(datagram, sn=index) if index else datagram),
    'window': ('n_sendmax in 4 bytes', ['F1'], wide_window),
}


class BadEnd(End):
    """An interlocking that makes one mistake."""

    def __init__(self, settings, now, mistake):
        self.mistake = mistake
        super().__init__(settings, now)

    def make(self, kind, body=b''):
        if kind == 'HB' and (self.mistake == 'heartbeats' and self.made > 1 or self.mistake == 'first' and self.made == 1):
            self.last_made = self.now
            return self.made
        index, change = super().make(kind, body), MISTAKES[self.mistake][2]
        if change:
            self.out[-1] = change(self, kind, index, self.out[-1])
        return index


class BadPeer:
    """A thread with such an end, which opens again T_max/2 after it is closed."""

    def __init__(self, mistake):
        self.mistake, both = mistake, {'t_max': 400, 't_h': 100, 'n_sendmax': 7, 'mwa': 3}
        self.settings = Settings(True, id=1, peer_id=2, name='IL1', peer_name='FE1', **both)
        self.other = Settings(False, id=2, peer_id=1, name='FE1', peer_name='IL1', **both)
        self.sock, held = (socket.socket(socket.AF_INET, socket.SOCK_DGRAM) for _ in range(2))
        for sock in (self.sock, held):
            sock.bind((HOST, 0))
        self.sock.settimeout(0.005)
        self.local, self.remote = ([f'{HOST}:{sock.getsockname()[1]}'] for sock in (self.sock, held))
        held.close()
        self.thread, self.is_running = threading.Thread(target=self.run, daemon=True), True

    def __enter__(self):
        self.thread.start()
        return self

    def __exit__(self, *_):
        self.is_running = False
        self.thread.join()
        self.sock.close()

    def run(self):
        began, host_port = time.monotonic(), self.remote[0].split(':')
        end, opens_at = None, began + 0.2
        while self.is_running:
            now = time.monotonic()
            if (end is None or end.state == 'Closed') and now >= opens_at:
                self.settings.first_sn = int(now * 1000) & 0xffffffff
                end = BadEnd(self.settings, int((now - began) * 1000), self.mistake)
            try:
                datagram = self.sock.recv(4096)
            except OSError:
                datagram = None
            if end:
                now = int((time.monotonic() - began) * 1000)
                if datagram:
                    end.arrive(now, datagram)
                end.tick(now)
                for sent in end.out:
                    self.sock.sendto(sent, (host_port[0], int(host_port[1])))
                end.out = []
                if end.state != 'Closed':
                    opens_at = time.monotonic() + 0.2
