#!/usr/bin/env python3
"""Two ends in one process, by capi/bindings/bekwidas.py: a test bench whose first channel loses every tenth datagram.

    BEKWIDAS_SO=PREFIX/lib/libbekwidas.so.0.3 python3 two_ends.py
"""
import os
import random
import sys

sys.path.insert(0, os.path.join(os.path.dirname(os.path.abspath(__file__)), "..", "bindings"))
import bekwidas
from bekwidas import ESTABLISHED, FIELD_ELEMENT, INITIALISING, INTERLOCKING


def settings(side, own, peer):
    s = bekwidas.Settings(versions=[1], side=side, id=side, peer_id=3 - side, protocol=1, first_sn=random.getrandbits(32), name=own, peer_name=peer)
    s.set_ample_rooms()
    return s


def main():
    chance, now, taken, put = random.Random(1), 0, [], 0
    wrong = settings(INTERLOCKING, b"IL1", b"FE1")
    wrong.t_h = 1800
    assert wrong.fault() == (-6, "t_h: expected 10 to 1799, found 1800"), wrong.fault()
    fe = bekwidas.End(settings(FIELD_ELEMENT, b"FE1", b"IL1"), now)
    il = bekwidas.End(settings(INTERLOCKING, b"IL1", b"FE1"), now)
    while len(taken) < 200 and now < 100_000:
        now += 1
        for one, other in ((il, fe), (fe, il)):
            for channel, octets in one.datagrams():
                if channel == 1 and chance.random() < 0.1:
                    continue
                other.arrive(channel, octets, now)
                taken += other.telegrams()
            one.tick(now)
        if fe.phase == INITIALISING:
            fe.init_done(now)
        if il.phase == ESTABLISHED and put < 200 and now % 5 == 0:
            try:
                il.put(0x0100, put.to_bytes(2, "little"), now)
                put += 1
            except bekwidas.Refused as refused:  # 64 wait: again later
                assert refused.code == bekwidas.ERR_FULL
    assert taken == [(0x0100, n.to_bytes(2, "little")) for n in range(200)], len(taken)
    il.close(now)
    confirmed, departure = il.confirmed, il.departure
    il.reopen(random.getrandbits(32), now)  # for another connection: a program does it when is_stale
    assert il.state == bekwidas.START and il.confirmed == 0 and il.departure.reason == 0
    print(f"python: 200 telegrams in order after {now} ms, at least {confirmed} confirmed; ended {departure}")


main()
