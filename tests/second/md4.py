"""MD4 (RFC 1320) from any start value of 16 bytes."""
import struct

RFC_1320 = bytes.fromhex('0123456789abcdeffedcba9876543210')
MASK = 0xffffffff
SHIFTS = (3, 7, 11, 19), (3, 5, 9, 13), (3, 9, 11, 15)
THIRD = (0, 8, 4, 12, 2, 10, 6, 14, 1, 9, 5, 13, 3, 11, 7, 15)


def md4(message, start=RFC_1320):
    padded = message + b'\x80' + bytes((55 - len(message)) % 64) + struct.pack('<Q', len(message) * 8)
    words = struct.unpack('<4I', start)
    for place in range(0, len(padded), 64):
        words = after_block(words, struct.unpack_from('<16I', padded, place))
    return struct.pack('<4I', *words)


def after_block(words, x):
    a, b, c, d = words
    for step in range(48):
        i = step % 16
        if step < 16:
            total = a + ((b & c) | (~b & d)) + x[i]
        elif step < 32:
            total = a + ((b & c) | (b & d) | (c & d)) + x[(i & 3) * 4 + (i >> 2)] + 0x5a827999
        else:
            total = a + (b ^ c ^ d) + x[THIRD[i]] + 0x6ed9eba1
        total &= MASK
        shift = SHIFTS[step // 16][i & 3]
        a, b, c, d = d, (total << shift | total >> 32 - shift) & MASK, b, c
    return [(old + new) & MASK for old, new in zip(words, (a, b, c, d))]
