"""The octets of all layers: redundancy PDU, safety PDU, unit, telegram (docs/protocol.md).

A reader returns what it has read, or the name of the first fault.
"""
import functools
import struct

RED_MAX, UNIT_MAX, MESSAGE_MIN, MESSAGE_MAX, PAYLOAD_MAX = 1258, 1206, 43, 400, 357
HEADER = 28
KINDS = {6200: 'ConnReq', 6201: 'ConnResp', 6212: 'RetrReq', 6213: 'RetrResp', 6216: 'DiscReq', 6220: 'HB', 6240: 'Data', 6241: 'RetrData'}
NUMBERS = {name: number for number, name in KINDS.items()}
OPENINGS, CARRIERS = ('ConnReq', 'ConnResp'), ('Data', 'RetrData')
VERSION = b'0303'


class Pdu:
    """A safety PDU. Its body is (version, N_sendmax) for an opening, (detail, reason) for a DiscReq, otherwise octets."""

    def __init__(self, **fields):
        self.__dict__.update(fields)

    def seen(self):
        return (self.kind, self.receiver, self.sender, self.sn, self.cs, self.ts, self.cts, self.body)


class Rule:
    """The rule of a safety code: it is the first octets of a digest of all octets before it."""

    def __init__(self, octets, digest, initial_value):
        self.octets, self.digest, self.initial_value = octets, digest, initial_value

    def code(self, octets):
        return self.digest(self.initial_value, octets)[:self.octets]

    def same(self, other):
        return (self.octets, self.initial_value) == (other.octets, other.initial_value)


def red_text(number, part):
    return struct.pack('<HHI', 8 + len(part), 0, number) + part


def red_seen(octets):
    """Returns number and upper part."""
    if len(octets) < 8:
        return 'Short'
    length, reserve, number = struct.unpack_from('<HHI', octets)
    if length != len(octets) or length > RED_MAX:
        return 'Length'
    return 'Reserve' if reserve else (number, octets[8:])


def body_text(kind, body):
    if kind in OPENINGS:
        return body[0] + struct.pack('<H', body[1]) + bytes(8)
    return struct.pack('<HH', *body) if kind == 'DiscReq' else body


def body_seen(kind, octets):
    """Returns the body; None if it does not fit the type."""
    if kind in OPENINGS:
        fits = len(octets) == 14 and octets[:4].isdigit() and octets[6:] == bytes(8) and 1 <= octets[4] + 256 * octets[5] <= 32
        return (octets[:4], octets[4]) if fits else None
    if kind == 'DiscReq':
        return struct.unpack('<HH', octets) if len(octets) == 4 else None
    if kind in CARRIERS:
        return octets if MESSAGE_MIN + 2 <= len(octets) <= UNIT_MAX else None
    return octets if octets == b'' else None


def safe_text(pdu, rule):
    body = body_text(pdu.kind, pdu.body)
    front = struct.pack('<HHIIIIII', HEADER + len(body) + rule.octets, NUMBERS[pdu.kind], pdu.receiver, pdu.sender, pdu.sn,
                        pdu.cs, pdu.ts, pdu.cts) + body
    return front + rule.code(front)


def has_code(octets, rule):
    """Whether the octets end in the code of those before it."""
    return octets[len(octets) - rule.octets:] == rule.code(octets[:len(octets) - rule.octets])


def safe_seen(octets, rule):
    if len(octets) < HEADER + rule.octets:
        return 'Short'
    length, number, *fields = struct.unpack_from('<HHIIIIII', octets)
    if length != len(octets) or length > HEADER + UNIT_MAX + rule.octets:
        return 'Length'
    if not has_code(octets, rule):
        return 'Code'
    if number not in KINDS:
        return 'Type'
    kind = KINDS[number]
    body = body_seen(kind, octets[HEADER:len(octets) - rule.octets])
    if body is None:
        return 'Body'
    return Pdu(kind=kind, body=body, **dict(zip(('receiver', 'sender', 'sn', 'cs', 'ts', 'cts'), fields)))


def unit_text(messages):
    return b''.join(struct.pack('<H', len(message)) + message for message in messages)


@functools.lru_cache(maxsize=20000)
def unit_seen(octets):
    """Returns the messages, as a tuple."""
    if not octets:
        return 'Empty'
    messages, place = [], 0
    while place < len(octets):
        if len(messages) == 3:
            return 'TooMany'
        length = int.from_bytes(octets[place:place + 2], 'little')
        message = octets[place + 2:place + 2 + length]
        if len(octets) - place < 2 or not MESSAGE_MIN <= length <= MESSAGE_MAX or len(message) < length:
            return 'Length'
        messages.append(message)
        place += 2 + length
    return tuple(messages)


def is_name(octets):
    """Whether it is 1 to 20 characters 21 to 7E other than the filling 5F."""
    return 1 <= len(octets) <= 20 and all(0x21 <= o <= 0x7e and o != 0x5f for o in octets)


def tele_text(protocol, kind, sender, receiver, payload):
    return struct.pack('<BH', protocol, kind) + sender.ljust(20, b'_') + receiver.ljust(20, b'_') + payload


@functools.lru_cache(maxsize=20000)
def tele_seen(octets):
    """Returns protocol, kind, sender, receiver, payload."""
    if len(octets) < MESSAGE_MIN:
        return 'Short'
    if len(octets) > MESSAGE_MAX:
        return 'Long'
    sender, receiver = octets[3:23].rstrip(b'_'), octets[23:43].rstrip(b'_')
    if not (is_name(sender) and is_name(receiver)):
        return 'Name'
    return octets[0], octets[1] + 256 * octets[2], sender, receiver, octets[43:]
