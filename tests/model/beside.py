"""Two recordings whose datagrams are paired, plain and slow: what `rasta follow HERE --beside THERE` must print.

A recording is a list of (time, way, payload) in the order of its file: a time in microseconds, a pair of addresses as they are printed, and octets, or
None for a frame without a datagram.
"""
import json

WAITING, WAYS, WIDTH, REACH = 4096, 64, 100, 10000


def is_rasta(payload):
    """Whether octets are a redundancy PDU."""
    return 8 <= len(payload) <= 1258 and int.from_bytes(payload[:2], 'little') == len(payload) and payload[2:4] == b'\0\0'


class Way:
    """The datagrams from one address to another. Of each recording it keeps those that wait, as (payload, time, number)."""

    def __init__(self):
        self.waiting, self.recorded, self.furthest, self.next = ([], []), [0, 0], [0, 0], [0, 0]
        self.alone, self.outside, self.reordered, self.differences = [0, 0], [0, 0], 0, []

    def arrive(self, site, payload, time, shift, extents):
        """Adds a datagram. Returns the difference of the pair, or None."""
        own, other = self.waiting[site], self.waiting[1 - site]
        arrived = payload, time, self.recorded[site]
        self.recorded[site] += 1
        begin = self.next[1 - site]
        place = next((place for place in (*range(begin, len(other)), *range(begin)) if place < len(other) and other[place][0] == payload), None)
        if place is None:
            if len(own) == WAITING:
                self.give_up(site, own.pop(0)[1], shift, extents)
                self.next[site] = max(0, self.next[site] - 1)
            own.append(arrived)
            return None
        self.next[1 - site], partner = place, other.pop(place)
        pair = (arrived, partner) if site == 0 else (partner, arrived)
        self.reordered += any(pair[one][2] < self.furthest[one] for one in (0, 1))
        self.furthest = [max(self.furthest[one], pair[one][2] + 1) for one in (0, 1)]
        self.differences.append(pair[1][1] - pair[0][1])
        return self.differences[-1]

    def give_up(self, site, time, shift, extents):
        """Counts a datagram that has no partner."""
        if self.differences:
            shift = self.differences[-1]
        extent = extents[1 - site]
        there = time + shift if site == 0 else time - shift
        if extent and extent[0] <= there <= extent[1]:
            self.alone[site] += 1
        else:
            self.outside[site] += 1

    def median(self):
        return self.quantile(sorted(self.differences), (len(self.differences) + 1) // 2)

    def quantile(self, ordered, rank):
        """The least difference of the bucket with this rank, from 1; buckets are counted from the first difference."""
        first = self.differences[0]
        return first + max(-REACH, min(REACH, (ordered[rank - 1] - first) // WIDTH)) * WIDTH

    def spread(self, origin):
        """The fastest one's difference, and how much longer half, 99 of 100, and the slowest took."""
        ordered = sorted(self.differences)
        count, span = len(ordered), ordered[-1] - ordered[0]
        ranks = (count + 1) // 2, count - count // 100
        if origin == 'there':
            return (-ordered[-1], *(max(0, ordered[-1] - self.quantile(ordered, count + 1 - rank) - (WIDTH - 1)) for rank in ranks), span)
        return (ordered[0], *(max(0, self.quantile(ordered, rank) - ordered[0]) for rank in ranks), span)


class Pairing:
    """Both recordings, read in step: next is the one whose datagram is earlier, less the difference of the last pair."""

    def __init__(self, here, there, ports=None):
        self.ways, self.shift, self.left_out = {}, 0, 0
        self.counts = [dict(datagrams=0, not_rasta=0, unreadable=0, frames=0) for _ in range(2)]
        self.extents, frames = [None, None], [iter(here), iter(there)]
        self.following = [self.following_of(site, frames[site], ports) for site in range(2)]
        while any(self.following):
            near, far = self.following
            site = 0 if far is None or near and near[0] + self.shift <= far[0] else 1
            self.arrive(site, *self.following[site])
            self.following[site] = self.following_of(site, frames[site], ports)
        for way in self.ways.values():
            for site in range(2):
                for _, time, _ in way.waiting[site]:
                    way.give_up(site, time, self.shift, self.extents)

    def following_of(self, site, frames, ports):
        """Reads up to the next datagram that is paired."""
        counts = self.counts[site]
        for time, way, payload in frames:
            counts['frames'] += 1
            first, last = self.extents[site] or (time, time)
            self.extents[site] = min(first, time), max(last, time)
            if payload is None or ports and not any(int(end.rsplit(':')[-1]) in ports for end in way):
                continue
            if is_rasta(payload):
                counts['datagrams'] += 1
                return time, way, payload
            counts['not_rasta'] += 1
        return None

    def arrive(self, site, time, way, payload):
        if way not in self.ways:
            if len(self.ways) == WAYS:
                self.left_out += 1
                return
            self.ways[way] = Way()
        difference = self.ways[way].arrive(site, payload, time, self.shift, self.extents)
        self.shift = self.shift if difference is None else difference

    def origin(self, way):
        """Where a way begins: the way from here has the greater difference of times."""
        back = self.ways.get((way[1], way[0]))
        if back is None or not back.differences or not self.ways[way].differences:
            return None
        forth, back = self.ways[way].median(), back.median()
        return 'here' if forth > back else 'there' if forth < back else None

    def found(self):
        """The JSON object."""
        ways = []
        for name, way in self.ways.items():
            origin = self.origin(name)
            spread = way.spread(origin) if way.differences else (None,) * 4
            ways.append({'source': name[0], 'destination': name[1], 'from': origin, 'both': len(way.differences), 'only_here': way.alone[0],
                         'only_there': way.alone[1], 'reordered': way.reordered, 'outside_here': way.outside[0], 'outside_there': way.outside[1],
                         **dict(zip(('least', 'median', 'most', 'greatest'), spread))})
        return {'here': self.counts[0], 'there': self.counts[1], 'left_out': self.left_out, 'ways': ways}

    def json(self):
        return json.dumps(self.found(), separators=(',', ':')) + '\n'

    def lines(self):
        """The text."""
        found = self.found()
        text = ''
        for way in found['ways']:
            text += (f"{way['source']}->{way['destination']} from {way['from'] or 'unknown'} both {way['both']} only here {way['only_here']} only there "
                     f"{way['only_there']} reordered {way['reordered']} outside here {way['outside_here']} there {way['outside_there']}")
            if way['both']:
                text += f" least {seconds(way['least'])} median {seconds(way['median'])} 99% {seconds(way['most'])} greatest {seconds(way['greatest'])}"
            text += '\n'
        for name in ('here', 'there'):
            counts = found[name]
            text += (f"sum {name}: datagrams {counts['datagrams']} not RaSTA {counts['not_rasta']} unreadable {counts['unreadable']} "
                     f"frames {counts['frames']}\n")
        return text

    def told(self):
        """Standard error."""
        text = '' if any(way.differences for way in self.ways.values()) else 'recordings: no datagram is in both\n'
        if self.left_out:
            text += (f'datagrams: {self.left_out} were left out, since more than {WAYS} pairs of addresses were recorded; '
                     'choose some by --ports\n')
        return text


def seconds(micros):
    return '%s%d.%06d' % ('-' if micros < 0 else '+', abs(micros) // 10 ** 6, abs(micros) % 10 ** 6)
