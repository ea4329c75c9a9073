"""Datagrams with any content, and recordings of connections at random, for the tests of the dissector and of the page of a night."""
import os
import struct

import md4


def coded(part, code, initial=md4.RFC_1320):
    return part + md4.digest(initial, part)[:code]


def datagram(kind, body, code, seq=0, numbers=(2, 1, 100, 0, 0, 0), initial=md4.RFC_1320):
    size = 28 + len(body) + code
    return struct.pack('<HHI', 8 + size, 0, seq) + coded(struct.pack('<HH6I', size, kind, *numbers) + body, code, initial)


def message(kind, payload=b'', sender=b'IL1', receiver=b'FE1', protocol=1):
    return struct.pack('<BH', protocol, kind) + sender.ljust(20, b'_') + receiver.ljust(20, b'_') + payload


def unit(*messages):
    return b''.join(struct.pack('<H', len(one)) + one for one in messages)


def opening(version=b'0303', window=20, reserve=bytes(8)):
    return version + struct.pack('<H', window) + reserve


def right_code(octets, code):
    """Returns the datagram with a valid code."""
    return octets[:8] + coded(octets[8:len(octets) - code], code)


class End:
    """An end of a connection that is made at random: `ids` are its own identifier and that of the other end."""

    def __init__(self, ids, source):
        self.ids, self.source, self.heard, self.kind = ids, source, (0, 0), None
        self.open()

    def open(self):
        """Opens the end again; its ConnReq may have numbers that it heard, which confirm nothing."""
        self.seq, self.sn, self.begun = self.source.choice((0, 0, 2 ** 32 - 20)), self.source.randrange(2 ** 32), self.source.randrange(2 ** 32)
        self.heard = self.source.choice((self.heard, (0, 0)))

    def sends(self, now, kind, body):
        self.kind, self.seq, self.sn = kind, (self.seq + 1) % 2 ** 32, (self.sn + 1) % 2 ** 32
        if self.source.random() < 0.01:
            self.seq = (self.seq + self.source.choice((40, 70000, -3, -70000))) % 2 ** 32
        numbers = self.ids[1], self.ids[0], self.sn, self.heard[0], (self.begun + now // 1000) % 2 ** 32, self.heard[1]
        return datagram(kind, body, 8, self.seq, numbers)


def night(source, count):
    """Returns datagrams of two connections on the same two channels, of which networks lose, delay, double, damage and forge some."""
    addresses = [[((10, 0, channel, end), 46000 + 100 * end + channel) for channel in (1, 2)] for end in (1, 2)]
    pairs, waiting, made_at, now = [[End(ids, source), End(ids[::-1], source)] for ids in ((1, 2), (4, 3))], [], [], 1790370000000000
    bodies = {6220: b'', 6212: b'', 6213: b'', 6240: unit(message(0x100, b'x')), 6241: unit(message(0x100, b'y')), 6216: struct.pack('<HH', 0, 3)}
    while len(made_at) < count:
        now += source.choice((500, 20000, 300000))
        pair, way = source.choice(pairs), source.randrange(2)
        own, other = pair[way], pair[1 - way]
        kind = 6216 if own.kind == 6200 and source.random() < 0.3 else source.choices((*bodies, 6200, 6201), (40, 2, 2, 40, 4, 3, 2, 2))[0]
        if kind in (6200, 6201):
            own.open()
        body = bodies.get(kind, opening()) if source.random() < 0.98 else b'?'
        octets = own.sends(now, kind, body)
        if source.random() < 0.9:
            other.heard = own.sn, struct.unpack_from('<I', octets, 28)[0]
        for channel in (0, 1):
            sent = changed_in(octets, source)
            copies = source.choices((0, 1, 2), (10, 87, 3))[0]
            waiting += [(now + source.choices((channel, 900000), (95, 5))[0], addresses[way][channel], addresses[1 - way][channel], sent)] * copies
        waiting.sort(key=lambda row: row[0])
        made_at += [row for row in waiting if row[0] <= now]
        waiting = [row for row in waiting if row[0] > now]
    return made_at


def changed_in(octets, source):
    """Returns a datagram; of 100, two are damaged, and one has another number under a valid code."""
    chance = source.random()
    if chance < 0.02:
        return octets[:-1] + bytes([octets[-1] ^ 1])
    return right_code(octets[:24] + source.randbytes(1) + octets[25:], 8) if chance < 0.03 else octets


def recorded(folder, rows, name):
    """Writes a capture of datagrams, each after its time in microseconds, its two addresses and ports, and returns its path."""
    path = os.path.join(folder, name + '.pcap')
    with open(path, 'wb') as file:
        file.write(struct.pack('<IHHiIII', 0xa1b2c3d4, 2, 4, 0, 0, 262144, 101))
        for time, (source, source_port), (destination, destination_port), octets in rows:
            udp = struct.pack('>HHHH', source_port, destination_port, 8 + len(octets), 0) + octets
            packet = struct.pack('>BBHHHBBH4B4B', 0x45, 0, 20 + len(udp), 0, 0x4000, 64, 17, 0, *source, *destination) + udp
            file.write(struct.pack('<IIII', time // 10 ** 6, time % 10 ** 6, len(packet), len(packet)) + packet)
    return path
