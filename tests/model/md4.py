"""MD4 (RFC 1320) under any initial value."""
import functools
import struct

RFC_1320 = bytes.fromhex('0123456789abcdeffedcba9876543210')
MASK = 0xffffffff


@functools.lru_cache(maxsize=200000)
def digest(initial_value, octets):
    """Returns the 16 octets of the digest."""
    length = len(octets)
    padded = octets + b'\x80' + bytes(-(length + 9) % 64) + struct.pack('<Q', 8 * length % 2 ** 64)
    state = struct.unpack('<4I', initial_value)
    for place in range(0, len(padded), 64):
        state = rounds(state, struct.unpack_from('<16I', padded, place))
    return struct.pack('<4I', *state)


def rounds(state, x):
    """Makes the three rounds over a block of 16 words."""
    a, b, c, d = state
    for i in (0, 4, 8, 12):
        a = turned(a + (b & c | ~b & d) + x[i], 3)
        d = turned(d + (a & b | ~a & c) + x[i + 1], 7)
        c = turned(c + (d & a | ~d & b) + x[i + 2], 11)
        b = turned(b + (c & d | ~c & a) + x[i + 3], 19)
    for i in (0, 1, 2, 3):
        a = turned(a + (b & c | b & d | c & d) + x[i] + 0x5a827999, 3)
        d = turned(d + (a & b | a & c | b & c) + x[i + 4] + 0x5a827999, 5)
        c = turned(c + (d & a | d & b | a & b) + x[i + 8] + 0x5a827999, 9)
        b = turned(b + (c & d | c & a | d & a) + x[i + 12] + 0x5a827999, 13)
    for i in (0, 2, 1, 3):
        a = turned(a + (b ^ c ^ d) + x[i] + 0x6ed9eba1, 3)
        d = turned(d + (a ^ b ^ c) + x[i + 8] + 0x6ed9eba1, 9)
        c = turned(c + (d ^ a ^ b) + x[i + 4] + 0x6ed9eba1, 11)
        b = turned(b + (c ^ d ^ a) + x[i + 12] + 0x6ed9eba1, 15)
    return [(old + new) & MASK for old, new in zip(state, (a, b, c, d))]


def turned(word, shift):
    """Returns its low 32 bits, rotated left."""
    word &= MASK
    return (word << shift | word >> 32 - shift) & MASK
