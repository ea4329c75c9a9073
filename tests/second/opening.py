"""An opening in bytes, as the ends of this folder make it: examples/opening.txt, and its table in docs/protocol.md.

The settings are those of examples/il.toml and examples/fe.toml; the first sequence numbers are 100 and 500. The clock of the interlocking begins at 0,
that of the field element at 1,000 ms, and each datagram takes 5 ms.
"""
import os
import struct
import sys

from end import End, Settings, decoded

sys.path.insert(0, os.path.dirname(os.path.dirname(os.path.abspath(__file__))))
from program import TOP, answered  # noqa: E402

FILE, PAGE = 'examples/opening.txt', 'docs/protocol.md'
HEAD = '| From | Number | Type | SN | CS | TS | CTS | Body |\n' + '|---' * 8 + '|\n'
BOTH = {'n_sendmax': 7, 'q': 8, 'mwa': 3}


class Ends:
    """Both ends, and the datagrams that were delivered."""

    def __init__(self):
        self.clocks, self.sent = {'il': 0, 'fe': 1000}, []
        self.il = End(Settings(True, id=1, peer_id=2, name='IL1', peer_name='FE1', first_sn=100, **BOTH), 0)
        self.fe = End(Settings(False, id=2, peer_id=1, name='FE1', peer_name='IL1', versions=[1, 2], checksum=b'\xc0\xff\xee', first_sn=500, **BOTH), 1000)

    def flow(self):
        """Delivers what the ends have made, until they make nothing more."""
        while self.il.out or self.fe.out:
            for side, own, peer, other in (('il', self.il, self.fe, 'fe'), ('fe', self.fe, self.il, 'il')):
                while own.out:
                    datagram = own.out.pop(0)
                    self.sent.append((side, datagram))
                    self.clocks[other] += 5
                    peer.arrive(self.clocks[other], datagram)

    def put(self, end, side, kind, payload):
        end.now = self.clocks[side]
        assert end.put(kind, payload) is None
        end.send()


def datagrams():
    """Returns who sends, and each datagram: an establishment with a status, a command, a heartbeat, and the end by the interlocking's user."""
    ends = Ends()
    ends.flow()
    ends.put(ends.fe, 'fe', 0x0200, b'\x1a')
    assert ends.fe.init_done() is None
    ends.fe.send()
    ends.flow()
    ends.put(ends.il, 'il', 0x0100, b'\x0a')
    ends.flow()
    ends.clocks['fe'] += 300
    ends.fe.tick(ends.clocks['fe'])
    ends.flow()
    ends.il.now = ends.clocks['il']
    ends.il.leave(0)
    ends.flow()
    assert (ends.il.state, ends.fe.state, ends.fe.reason) == ('Closed', 'Closed', ('peer', 0, 0))
    return ends.sent


def content(pdu):
    """What a body has, for the table."""
    if pdu.type in ('ConnReq', 'ConnResp'):
        return f'version {pdu.version.decode()}, window {pdu.window}'
    if pdu.type == 'DiscReq':
        return f'detail {pdu.detail}, reason {pdu.reason}'
    if pdu.type != 'Data':
        return ''
    kind, payload = struct.unpack_from('<H', pdu.unit, 3)[0], pdu.unit[45:]
    return f'{kind:04x}' + (' with ' + payload.hex() if payload else '')


def table():
    lines, settings = [], Settings(True)
    for side, datagram in datagrams():
        pdu = decoded(datagram[8:], settings)
        lines.append(f'| {side} | {struct.unpack_from("<I", datagram, 4)[0]} | {pdu.type} | {pdu.sn} | {pdu.cs} | {pdu.ts} | {pdu.cts} | {content(pdu)} |\n')
    return HEAD + ''.join(lines).replace('|  |', '| |')


def text(program):
    """The file: each datagram, and what `show` prints of it."""
    lines = []
    for side, datagram in datagrams():
        lines.append(f'{side} {datagram.hex()}')
        lines += ['   ' + line for line in answered([*program, 'show', '--code', '8', datagram.hex()])[0].splitlines()]
    return '\n'.join(lines) + '\n'


def read(path):
    with open(os.path.join(TOP, path), encoding='utf-8') as file:
        return file.read()


def write(program):
    with open(os.path.join(TOP, FILE), 'w', encoding='utf-8') as file:
        file.write(text(program))


def problems(program):
    """Yields what differs from the file and the page."""
    if read(FILE) != text(program):
        yield f'{FILE}: not what both ends make and `show` prints: tests/second/agrees --write'
    if table() not in read(PAGE):
        yield f'{PAGE}: does not have this table:\n{table()}'
