"""bekwidas.h for Python, by ctypes: for test benches, not for operation. Copy this file beside your program.

    import bekwidas
    end = bekwidas.End(settings, now)

It loads libbekwidas.so.0.3, or the file that the variable BEKWIDAS_SO names.
"""
import ctypes
import os
from ctypes import POINTER, byref, c_char, c_char_p, c_int, c_size_t, c_uint8, c_uint16, c_uint32, c_uint64, c_void_p

# Results.
OK, NOTHING, UNSENT, UNWISE = range(4)
(ERR_NULL, ERR_LENGTH, ERR_NOT_OPEN, ERR_ALREADY_OPEN, ERR_SETTINGS_SIZE, ERR_BAD_SETTINGS, ERR_ROOMS, ERR_NO_MEMORY, ERR_TIME, ERR_TAKE_FIRST,
 ERR_SEND_FIRST, ERR_LOST, ERR_TOO_SMALL, ERR_NOT_ESTABLISHED, ERR_FULL, ERR_RESERVED_KIND, ERR_TOO_LONG, ERR_NOT_INITIALISING) = range(-1, -19, -1)
ERR_PROCESSOR, ERR_COPIED = -20, -21
DATAGRAM_MAX, PAYLOAD_MAX = 1258, 357
INTERLOCKING, FIELD_ELEMENT = 1, 2
# States of the connection, and phases of the session.
CLOSED, DOWN, START, UP, RETR_REQ, RETR_RUN = range(6)
IDLE, CHECKING, REQUESTING, AWAIT_CHECK, AWAIT_REQUEST, REFUSED, INITIALISING, ESTABLISHED, ENDED = range(9)
# What a note is about, and what was done with a datagram or a PDU; who ended a connection.
NOTE_STATE, NOTE_PHASE, NOTE_DATAGRAM, NOTE_PDU, NOTE_TAKE, NOTE_LEFT_OUT = range(1, 7)
(DATAGRAM_PASSED, DATAGRAM_DEFERRED, DATAGRAM_OLD, DATAGRAM_REPEATED, DATAGRAM_FAR, DATAGRAM_FULL, DATAGRAM_DAMAGED) = range(7)
(PDU_TAKEN, PDU_GAP, PDU_LEFT, PDU_CLOSED, PDU_DAMAGED, PDU_STRANGER, PDU_UNOPENED, PDU_FAR, PDU_UNREQUESTED, PDU_ANSWERED, PDU_BELOW) = range(11)
BY_OWN, BY_PEER, NO_VERSION = 1, 2, 256

_library = ctypes.CDLL(os.environ.get("BEKWIDAS_SO", "libbekwidas.so.0.3"))


class _Handle(ctypes.Structure):
    _fields_ = [("station", c_void_p), ("is_open", c_uint32), ("place", c_void_p)]


def _number(what, value, bits):
    """Returns a number that fits this many bits: ctypes would cut it without a word."""
    if not 0 <= value < 1 << bits:
        raise ValueError(f"{what}: expected 0 to {(1 << bits) - 1}, found {value}")
    return value


class Settings(ctypes.Structure):
    """bek_settings, with its defaults. Names are given as bytes. A member that does not exist and a number that does not fit are errors."""

    __slots__ = ()
    _fields_ = [(name, c_uint32) for name in """size side id peer_id first_sn protocol code channels n_sendmax n_maxpacket q t_max t_h t_seq mwa pdu_limit
        telegram_room datagram_room version_count checksum_length""".split()] + [
        ("versions", c_uint8 * 4), ("checksum", c_uint8 * 16), ("initial_value", c_uint8 * 16), ("name", c_char * 24), ("peer_name", c_char * 24)]

    def __setattr__(self, name, value):
        if dict(self._fields_).get(name) is c_uint32:
            _number(name, value, 32)
        super().__setattr__(name, value)

    def __init__(self, versions=(), **members):
        super().__init__()
        _must("settings", _library.bek_settings_init(byref(self), ctypes.sizeof(self)))
        for name, value in members.items():
            setattr(self, name, value)
        self.version_count = len(versions)
        self.versions[: len(versions)] = [_number("versions", version, 8) for version in versions]

    def fault(self):
        """Returns the result of bek_settings_fault, and what is wrong."""
        field, text = c_uint32(), ctypes.create_string_buffer(200)
        return _library.bek_settings_fault(byref(self), byref(field), text, len(text)), text.value.decode()

    def set_ample_rooms(self):
        """Sets the rooms with which no call returns UNSENT."""
        telegrams, datagrams = c_uint32(), c_uint32()
        _must("rooms", _library.bek_rooms(byref(self), byref(telegrams), byref(datagrams)))
        self.telegram_room, self.datagram_room = telegrams.value, datagrams.value


class Counts(ctypes.Structure):
    _fields_ = [(name, c_uint64) for name in "telegrams datagrams unsent openings".split()]


class Reception(ctypes.Structure):
    """The datagrams of one channel; `last` is 2 ** 64 - 1 before the first."""

    _fields_ = [(name, c_uint64) for name in "received passed deferred old repeated far full damaged last".split()]


class ChannelFaults(ctypes.Structure):
    """The datagrams of one channel that are no redundancy PDU, by fault."""

    _fields_ = [(name, c_uint64) for name in "too_short bad_length reserve".split()]


class PartFaults(ctypes.Structure):
    """The PDUs that are no safety PDU with a valid safety code, by fault."""

    _fields_ = [(name, c_uint64) for name in "too_short bad_length bad_code bad_type bad_body".split()]


class Statistics(ctypes.Structure):
    """What an end has counted since it was opened, as in bekwidas.h."""

    _fields_ = [("channels", Reception * 4)] + [(name, c_uint64) for name in (
        "taken gaps damaged strangers unopened far unrequested answered below oldest longest_wait "
        "units resent heartbeats requests answers confirmed expired_deferrals").split()] + [
            ("channel_faults", ChannelFaults * 4), ("part_faults", PartFaults)]


class Leaving(ctypes.Structure):
    """Who ended a connection (1: this end, 2: the peer), why and when."""

    _fields_ = [("time", c_uint64), ("by", c_uint32), ("reason", c_uint32), ("detail", c_uint32), ("version", c_uint32)]

    def __str__(self):
        text = ctypes.create_string_buffer(200)
        _library.bek_leaving_text(byref(self), text, len(text))
        return text.value.decode()


class Agreement(ctypes.Structure):
    """The PDI version and the checksum that the two ends agreed on: bytes(it.checksum[:it.checksum_length])."""

    _fields_ = [("version", c_uint32), ("checksum_length", c_uint32), ("checksum", ctypes.c_uint8 * 16)]


class Note(ctypes.Structure):
    """One thing that an end did, as in bekwidas.h."""

    _fields_ = [("count", c_uint64), ("what", c_uint32), ("value", ctypes.c_int32), ("number", c_uint32), ("fault", c_uint32)]

    def __str__(self):
        text = ctypes.create_string_buffer(200)
        _library.bek_note_text(byref(self), text, len(text))
        return text.value.decode()


class Refused(Exception):
    """A call was refused: `code` is its result."""

    def __init__(self, what, code):
        super().__init__(f"{what}: {fault_text(code)}")
        self.code = code


def _must(what, code):
    if code < 0:
        raise Refused(what, code)
    return code


def fault_text(code):
    text = ctypes.create_string_buffer(200)
    _library.bek_fault_text(code, text, len(text))
    return text.value.decode()


def _declare(end, more):
    for name, words in more.items():
        function = getattr(_library, f"bek_{name}")
        function.argtypes, function.restype = [POINTER(end), *words], c_int
    _library.bek_free.argtypes, _library.bek_free.restype = [POINTER(end)], None
    _library.bek_fault_text.argtypes, _library.bek_fault_text.restype = [c_int, c_char_p, c_size_t], c_size_t
    _library.bek_leaving_text.argtypes, _library.bek_leaving_text.restype = [POINTER(Leaving), c_char_p, c_size_t], c_size_t
    _library.bek_note_text.argtypes, _library.bek_note_text.restype = [POINTER(Note), c_char_p, c_size_t], c_size_t
    _library.bek_settings_init.argtypes = [POINTER(Settings), c_size_t]
    _library.bek_settings_fault.argtypes = [POINTER(Settings), POINTER(c_uint32), c_char_p, c_size_t]
    _library.bek_rooms.argtypes = [POINTER(Settings), POINTER(c_uint32), POINTER(c_uint32)]
    _library.bek_version.restype = c_uint32
    _library.bek_version_text.argtypes, _library.bek_version_text.restype = [c_char_p, c_size_t], c_size_t


_declare(_Handle, {
    "open": [POINTER(Settings), c_uint64], "reopen": [c_uint32, c_uint64], "arrive": [c_uint32, c_char_p, c_size_t, c_uint64], "tick": [c_uint64],
    "next_deadline": [POINTER(c_uint64)], "put": [c_uint16, c_char_p, c_size_t, c_uint64], "init_done": [c_uint64], "close": [c_uint64],
    "take": [POINTER(c_uint16), c_char_p, c_size_t, POINTER(c_size_t)], "next_datagram": [POINTER(c_uint32), c_char_p, c_size_t, POINTER(c_size_t)],
    "state": [], "phase": [], "is_stale": [], "settled": [], "confirmed": [POINTER(c_uint64)], "confirmed_time": [POINTER(c_uint64)],
    "departure": [POINTER(Leaving), c_size_t], "agreed": [POINTER(Agreement), c_size_t], "counts_of": [POINTER(Counts), c_size_t],
    "statistics_of": [POINTER(Statistics), c_size_t], "totals_of": [POINTER(Statistics), c_size_t], "hear_notes": [c_int],
    "next_note": [POINTER(Note), c_size_t]})


def version():
    return _library.bek_version()


def version_text():
    text = ctypes.create_string_buffer(200)
    _library.bek_version_text(text, len(text))
    return text.value.decode()


class End:
    """One end. A refused call raises Refused; all others return their result, OK or UNSENT."""

    def __init__(self, settings, now):
        self._handle = _Handle()
        _must("open", _library.bek_open(self._handle, settings, _number("now", now, 64)))

    def reopen(self, first_sn, now):
        """Opens the end again with its settings, and with another first_sn."""
        return _must("reopen", _library.bek_reopen(self._handle, _number("first_sn", first_sn, 32), _number("now", now, 64)))

    def free(self):
        _library.bek_free(self._handle)

    __del__ = free

    def arrive(self, channel, octets, now):
        """Passes in a datagram: bytes, a bytearray or a memoryview."""
        octets = bytes(octets)
        return _must("arrive", _library.bek_arrive(self._handle, _number("channel", channel, 32), octets, len(octets), _number("now", now, 64)))

    def tick(self, now):
        return _must("tick", _library.bek_tick(self._handle, _number("now", now, 64)))

    def put(self, kind, payload, now):
        payload = bytes(payload)
        return _must("put", _library.bek_put(self._handle, _number("kind", kind, 16), payload, len(payload), _number("now", now, 64)))

    def init_done(self, now):
        return _must("init_done", _library.bek_init_done(self._handle, _number("now", now, 64)))

    def close(self, now):
        return _must("close", _library.bek_close(self._handle, _number("now", now, 64)))

    def telegrams(self):
        """Takes all telegrams that wait: pairs of kind and payload."""
        kind, length, buffer = c_uint16(), c_size_t(), ctypes.create_string_buffer(PAYLOAD_MAX)
        while _must("take", _library.bek_take(self._handle, byref(kind), buffer, len(buffer), byref(length))) == OK:
            yield kind.value, buffer.raw[: length.value]

    def datagrams(self):
        """Takes all datagrams that wait to be sent: pairs of channel and octets."""
        channel, length, buffer = c_uint32(), c_size_t(), ctypes.create_string_buffer(DATAGRAM_MAX)
        while _must("next_datagram", _library.bek_next_datagram(self._handle, byref(channel), buffer, len(buffer), byref(length))) == OK:
            yield channel.value, buffer.raw[: length.value]

    def next_deadline(self):
        """The time of the next tick that does something; None if nothing happens until a datagram arrives."""
        deadline = c_uint64()
        return deadline.value if _must("next_deadline", _library.bek_next_deadline(self._handle, byref(deadline))) == OK else None

    state = property(lambda self: _must("state", _library.bek_state(self._handle)))
    phase = property(lambda self: _must("phase", _library.bek_phase(self._handle)))
    is_stale = property(lambda self: _must("is_stale", _library.bek_is_stale(self._handle)) == 1)
    settled = property(lambda self: _must("settled", _library.bek_settled(self._handle)) == 1)

    def _told(self, name, value, *size):
        return value if _must(name, getattr(_library, f"bek_{name}")(self._handle, byref(value), *size)) == OK else None

    def _filled(self, name, value):
        return self._told(name, value, ctypes.sizeof(value))

    confirmed = property(lambda self: self._told("confirmed", c_uint64()).value)
    confirmed_time = property(lambda self: self._told("confirmed_time", c_uint64()).value)
    departure = property(lambda self: self._filled("departure", Leaving()))
    agreed = property(lambda self: self._filled("agreed", Agreement()))
    counts = property(lambda self: self._filled("counts_of", Counts()))
    statistics = property(lambda self: self._filled("statistics_of", Statistics()))
    totals = property(lambda self: self._filled("totals_of", Statistics()))

    def hear_notes(self, on):
        """Keeps notes from now on, or no longer."""
        return _must("hear_notes", _library.bek_hear_notes(self._handle, on))

    def notes(self):
        """Takes all notes that wait; str(note) says what each means."""
        while (note := self._filled("next_note", Note())) is not None:
            yield note
