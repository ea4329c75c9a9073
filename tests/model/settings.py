"""The settings of an end, and which of them are BadConfig (docs/protocol.md, limits)."""
import md4
from texts import Rule, is_name

DEFAULTS = dict(
    own=1, peer=2, n_sendmax=20, t_max=1800, t_h=300, mwa=10, pdu_limit=4294901760, code=8, initial_value=md4.RFC_1320, digest=md4.digest,
    protocol=1, name=b'IL1', peer_name=b'FE1', versions=(3,), checksum=b'', channels=2, n_maxpacket=3, q=4, t_seq=50)


class Settings:
    def __init__(self, **changed):
        self.__dict__.update(DEFAULTS, **changed)
        self.rule = Rule(self.code, self.digest, self.initial_value)


def are_fit(side, s):
    machine = (1 <= s.n_sendmax <= 32 and 100 <= s.t_max <= 60000 and 10 <= s.t_h < s.t_max and 1 <= s.mwa <= 16
               and 100 <= s.pdu_limit <= 4294901760 and s.own != s.peer and s.code in (8, 16))
    others = 1 <= s.channels <= 4 and 1 <= s.n_maxpacket <= 3 and 1 <= s.q <= 8 and 10 <= s.t_seq <= 1000
    names = is_name(s.name) and is_name(s.peer_name) and 0 <= s.protocol < 256 and len(s.checksum) <= 16
    versions = len(s.versions) == 1 if side == 'il' else 1 <= len(s.versions) <= 4 and len(set(s.versions)) == len(s.versions)
    return machine and others and names and versions
