//! bekwidas.h for Rust: copy this file into your project (`mod bekwidas;`), and link with `-l static=bekwidas` or `-l bekwidas`.
#![allow(dead_code)]
use std::ffi::{c_char, c_int, c_void};
use std::mem::size_of;

// Results.
pub const OK: c_int = 0;
pub const NOTHING: c_int = 1;
pub const UNSENT: c_int = 2;
pub const UNWISE: c_int = 3;
pub const ERR_NULL: c_int = -1;
pub const ERR_LENGTH: c_int = -2;
pub const ERR_NOT_OPEN: c_int = -3;
pub const ERR_ALREADY_OPEN: c_int = -4;
pub const ERR_SETTINGS_SIZE: c_int = -5;
pub const ERR_BAD_SETTINGS: c_int = -6;
pub const ERR_ROOMS: c_int = -7;
pub const ERR_NO_MEMORY: c_int = -8;
pub const ERR_TIME: c_int = -9;
pub const ERR_TAKE_FIRST: c_int = -10;
pub const ERR_SEND_FIRST: c_int = -11;
pub const ERR_LOST: c_int = -12;
pub const ERR_TOO_SMALL: c_int = -13;
pub const ERR_NOT_ESTABLISHED: c_int = -14;
pub const ERR_FULL: c_int = -15;
pub const ERR_RESERVED_KIND: c_int = -16;
pub const ERR_TOO_LONG: c_int = -17;
pub const ERR_NOT_INITIALISING: c_int = -18;
pub const ERR_PROCESSOR: c_int = -20;
pub const ERR_COPIED: c_int = -21;
// States of the connection, as `End::state` returns them.
pub const CLOSED: c_int = 0;
pub const DOWN: c_int = 1;
pub const START: c_int = 2;
pub const UP: c_int = 3;
pub const RETR_REQ: c_int = 4;
pub const RETR_RUN: c_int = 5;
// Phases of the session, as `End::phase` returns them.
pub const IDLE: c_int = 0;
pub const CHECKING: c_int = 1;
pub const REQUESTING: c_int = 2;
pub const AWAIT_CHECK: c_int = 3;
pub const AWAIT_REQUEST: c_int = 4;
pub const REFUSED: c_int = 5;
pub const INITIALISING: c_int = 6;
pub const ESTABLISHED: c_int = 7;
pub const ENDED: c_int = 8;
// What a note is about, and what was done with a datagram or a PDU.
pub const NOTE_STATE: u32 = 1;
pub const NOTE_PHASE: u32 = 2;
pub const NOTE_DATAGRAM: u32 = 3;
pub const NOTE_PDU: u32 = 4;
pub const NOTE_TAKE: u32 = 5;
pub const NOTE_LEFT_OUT: u32 = 6;
pub const DATAGRAM_PASSED: i32 = 0;
pub const DATAGRAM_DEFERRED: i32 = 1;
pub const DATAGRAM_OLD: i32 = 2;
pub const DATAGRAM_REPEATED: i32 = 3;
pub const DATAGRAM_FAR: i32 = 4;
pub const DATAGRAM_FULL: i32 = 5;
pub const DATAGRAM_DAMAGED: i32 = 6;
pub const PDU_TAKEN: i32 = 0;
pub const PDU_GAP: i32 = 1;
pub const PDU_LEFT: i32 = 2;
pub const PDU_CLOSED: i32 = 3;
pub const PDU_DAMAGED: i32 = 4;
pub const PDU_STRANGER: i32 = 5;
pub const PDU_UNOPENED: i32 = 6;
pub const PDU_FAR: i32 = 7;
pub const PDU_UNREQUESTED: i32 = 8;
pub const PDU_ANSWERED: i32 = 9;
pub const PDU_BELOW: i32 = 10;
// Who ended a connection.
pub const BY_OWN: u32 = 1;
pub const BY_PEER: u32 = 2;
pub const NO_VERSION: u32 = 256;
pub const DATAGRAM_MAX: usize = 1258;
pub const PAYLOAD_MAX: usize = 357;
pub const INTERLOCKING: u32 = 1;
pub const FIELD_ELEMENT: u32 = 2;

#[repr(C)]
struct Handle { station: *mut c_void, is_open: u32, place: *const c_void }

/// `bek_settings`: bekwidas.h says what each member means.
#[repr(C)]
#[derive(Clone, Copy)]
pub struct Settings {
    pub size: u32, pub side: u32, pub id: u32, pub peer_id: u32, pub first_sn: u32, pub protocol: u32, pub code: u32, pub channels: u32,
    pub n_sendmax: u32, pub n_maxpacket: u32, pub q: u32, pub t_max: u32, pub t_h: u32, pub t_seq: u32, pub mwa: u32, pub pdu_limit: u32,
    pub telegram_room: u32, pub datagram_room: u32, pub version_count: u32, pub checksum_length: u32, pub versions: [u8; 4],
    pub checksum: [u8; 16], pub initial_value: [u8; 16], pub name: [c_char; 24], pub peer_name: [c_char; 24],
}

#[repr(C)]
#[derive(Clone, Copy, Debug, Default, PartialEq, Eq)]
pub struct Counts { pub telegrams: u64, pub datagrams: u64, pub unsent: u64, pub openings: u64 }

#[repr(C)]
#[derive(Clone, Copy, Debug, Default, PartialEq, Eq)]
pub struct Leaving { pub time: u64, pub by: u32, pub reason: u32, pub detail: u32, pub version: u32 }

/// What the two ends agreed on; the checksum has zeros behind it.
#[repr(C)]
#[derive(Clone, Copy, Debug, Default, PartialEq, Eq)]
pub struct Agreement { pub version: u32, pub checksum_length: u32, pub checksum: [u8; 16] }

/// The datagrams of one channel; `last` is `u64::MAX` before the first.
#[repr(C)]
#[derive(Clone, Copy, Debug, Default, PartialEq, Eq)]
pub struct Reception {
    pub received: u64, pub passed: u64, pub deferred: u64, pub old: u64, pub repeated: u64, pub far: u64, pub full: u64, pub damaged: u64, pub last: u64,
}

/// The datagrams of one channel that are no redundancy PDU, by fault.
#[repr(C)]
#[derive(Clone, Copy, Debug, Default, PartialEq, Eq)]
pub struct ChannelFaults { pub too_short: u64, pub bad_length: u64, pub reserve: u64 }

/// The PDUs that are no safety PDU with a valid safety code, by fault.
#[repr(C)]
#[derive(Clone, Copy, Debug, Default, PartialEq, Eq)]
pub struct PartFaults { pub too_short: u64, pub bad_length: u64, pub bad_code: u64, pub bad_type: u64, pub bad_body: u64 }

/// What an end has counted since it was opened, as in bekwidas.h.
#[repr(C)]
#[derive(Clone, Copy, Debug, Default, PartialEq, Eq)]
pub struct Statistics {
    pub channels: [Reception; 4], pub taken: u64, pub gaps: u64, pub damaged: u64, pub strangers: u64, pub unopened: u64, pub far: u64,
    pub unrequested: u64, pub answered: u64, pub below: u64, pub oldest: u64, pub longest_wait: u64, pub units: u64, pub resent: u64,
    pub heartbeats: u64, pub requests: u64, pub answers: u64, pub confirmed: u64, pub expired_deferrals: u64,
    pub channel_faults: [ChannelFaults; 4], pub part_faults: PartFaults,
}

/// One thing that an end did, as in bekwidas.h.
#[repr(C)]
#[derive(Clone, Copy, Debug, Default, PartialEq, Eq)]
pub struct Note { pub count: u64, pub what: u32, pub value: i32, pub number: u32, pub fault: u32 }

extern "C" {
    fn bek_version() -> u32;
    fn bek_version_text(text: *mut c_char, size: usize) -> usize;
    fn bek_settings_init(s: *mut Settings, size: usize) -> c_int;
    fn bek_settings_fault(s: *const Settings, field: *mut u32, text: *mut c_char, size: usize) -> c_int;
    fn bek_rooms(s: *const Settings, telegrams: *mut u32, datagrams: *mut u32) -> c_int;
    fn bek_open(e: *mut Handle, s: *const Settings, now: u64) -> c_int;
    fn bek_reopen(e: *mut Handle, first_sn: u32, now: u64) -> c_int;
    fn bek_free(e: *mut Handle);
    fn bek_arrive(e: *mut Handle, channel: u32, octets: *const u8, length: usize, now: u64) -> c_int;
    fn bek_tick(e: *mut Handle, now: u64) -> c_int;
    fn bek_next_deadline(e: *const Handle, deadline: *mut u64) -> c_int;
    fn bek_put(e: *mut Handle, kind: u16, payload: *const u8, length: usize, now: u64) -> c_int;
    fn bek_init_done(e: *mut Handle, now: u64) -> c_int;
    fn bek_close(e: *mut Handle, now: u64) -> c_int;
    fn bek_take(e: *mut Handle, kind: *mut u16, payload: *mut u8, size: usize, length: *mut usize) -> c_int;
    fn bek_next_datagram(e: *mut Handle, channel: *mut u32, octets: *mut u8, size: usize, length: *mut usize) -> c_int;
    fn bek_state(e: *const Handle) -> c_int;
    fn bek_phase(e: *const Handle) -> c_int;
    fn bek_is_stale(e: *const Handle) -> c_int;
    fn bek_settled(e: *const Handle) -> c_int;
    fn bek_confirmed(e: *const Handle, count: *mut u64) -> c_int;
    fn bek_confirmed_time(e: *const Handle, time: *mut u64) -> c_int;
    fn bek_departure(e: *const Handle, leaving: *mut Leaving, size: usize) -> c_int;
    fn bek_agreed(e: *const Handle, agreement: *mut Agreement, size: usize) -> c_int;
    fn bek_counts_of(e: *const Handle, counts: *mut Counts, size: usize) -> c_int;
    fn bek_statistics_of(e: *const Handle, statistics: *mut Statistics, size: usize) -> c_int;
    fn bek_totals_of(e: *const Handle, totals: *mut Statistics, size: usize) -> c_int;
    fn bek_hear_notes(e: *mut Handle, on: c_int) -> c_int;
    fn bek_next_note(e: *mut Handle, note: *mut Note, size: usize) -> c_int;
    fn bek_note_text(note: *const Note, text: *mut c_char, size: usize) -> usize;
    fn bek_fault_text(result: c_int, text: *mut c_char, size: usize) -> usize;
    fn bek_leaving_text(leaving: *const Leaving, text: *mut c_char, size: usize) -> usize;
}

fn text(writes: impl FnOnce(*mut c_char, usize)) -> String {
    let mut text = [0u8; 200];
    writes(text.as_mut_ptr() as *mut c_char, text.len());
    let size = text.iter().position(|octet| *octet == 0).unwrap_or(text.len());
    String::from_utf8_lossy(&text[..size]).into_owned()
}

fn given<T>(result: c_int, value: T) -> Result<T, c_int> { if result == OK { Ok(value) } else { Err(result) } }

pub fn version() -> u32 { unsafe { bek_version() } }
pub fn version_text() -> String { text(|at, size| { unsafe { bek_version_text(at, size) }; }) }
pub fn fault_text(result: c_int) -> String { text(|at, size| { unsafe { bek_fault_text(result, at, size) }; }) }

impl Settings {
    /// The defaults of `bek_settings_init`.
    pub fn new() -> Settings {
        let mut s: Settings = unsafe { std::mem::zeroed() };
        let result = unsafe { bek_settings_init(&mut s, size_of::<Settings>()) };
        assert_eq!(result, OK, "the library has other settings than this file");
        s
    }
    pub fn set_names(&mut self, own: &str, peer: &str) {
        for (field, name) in [(&mut self.name, own), (&mut self.peer_name, peer)] {
            *field = [0; 24];
            for (to, from) in field.iter_mut().zip(name.bytes().take(23)) { *to = from as c_char; }
        }
    }
    /// The result of `bek_settings_fault`, and what is wrong.
    pub fn fault(&self) -> (c_int, String) {
        let (mut field, mut result) = (0, OK);
        let said = text(|at, size| result = unsafe { bek_settings_fault(self, &mut field, at, size) });
        (result, said)
    }
    /// Sets the rooms with which no call returns UNSENT.
    pub fn set_ample_rooms(&mut self) -> c_int {
        let (mut telegrams, mut datagrams) = (self.telegram_room, self.datagram_room);
        let result = unsafe { bek_rooms(self, &mut telegrams, &mut datagrams) };
        (self.telegram_room, self.datagram_room) = (telegrams, datagrams);
        result
    }
}

/// An end, freed when it is dropped. Any thread may have it, one at a time: it is Send, and not Sync.
pub struct End(Box<Handle>);

// SAFETY: bekwidas.h allows the calls of one end from any thread, one at a time.
unsafe impl Send for End {}

impl Drop for End {
    fn drop(&mut self) { unsafe { bek_free(&mut *self.0) } }
}

impl End {
    pub fn open(s: &Settings, now: u64) -> Result<End, c_int> {
        let mut e = Box::new(Handle { station: std::ptr::null_mut(), is_open: 0, place: std::ptr::null() });
        let result = unsafe { bek_open(&mut *e, s, now) };
        given(result, End(e))
    }
    /// Opens the end again with its settings, and with another `first_sn`.
    #[must_use]
    pub fn reopen(&mut self, first_sn: u32, now: u64) -> c_int { unsafe { bek_reopen(&mut *self.0, first_sn, now) } }
    #[must_use]
    pub fn arrive(&mut self, channel: u32, octets: &[u8], now: u64) -> c_int {
        unsafe { bek_arrive(&mut *self.0, channel, octets.as_ptr(), octets.len(), now) }
    }
    #[must_use]
    pub fn tick(&mut self, now: u64) -> c_int { unsafe { bek_tick(&mut *self.0, now) } }
    #[must_use]
    pub fn put(&mut self, kind: u16, payload: &[u8], now: u64) -> c_int {
        unsafe { bek_put(&mut *self.0, kind, payload.as_ptr(), payload.len(), now) }
    }
    #[must_use]
    pub fn init_done(&mut self, now: u64) -> c_int { unsafe { bek_init_done(&mut *self.0, now) } }
    #[must_use]
    pub fn close(&mut self, now: u64) -> c_int { unsafe { bek_close(&mut *self.0, now) } }
    /// The time of the next tick that does something; `None` if nothing happens until a datagram arrives.
    pub fn next_deadline(&self) -> Option<u64> {
        let mut deadline = 0;
        (unsafe { bek_next_deadline(&*self.0, &mut deadline) } == OK).then_some(deadline)
    }
    /// The oldest telegram that waits: its kind, and its payload in the buffer.
    pub fn take<'a>(&mut self, buffer: &'a mut [u8; PAYLOAD_MAX]) -> Option<(u16, &'a [u8])> {
        let (mut kind, mut length) = (0, 0);
        let result = unsafe { bek_take(&mut *self.0, &mut kind, buffer.as_mut_ptr(), buffer.len(), &mut length) };
        if result == OK { Some((kind, &buffer[..length])) } else { None }
    }
    /// The oldest datagram that waits to be sent: its channel, and its octets in the buffer.
    pub fn next_datagram<'a>(&mut self, buffer: &'a mut [u8; DATAGRAM_MAX]) -> Option<(u32, &'a [u8])> {
        let (mut channel, mut length) = (0, 0);
        let result = unsafe { bek_next_datagram(&mut *self.0, &mut channel, buffer.as_mut_ptr(), buffer.len(), &mut length) };
        if result == OK { Some((channel, &buffer[..length])) } else { None }
    }
    pub fn state(&self) -> c_int { unsafe { bek_state(&*self.0) } }
    pub fn phase(&self) -> c_int { unsafe { bek_phase(&*self.0) } }
    /// Whether the end must be opened again now, by `reopen`.
    pub fn is_stale(&self) -> bool { unsafe { bek_is_stale(&*self.0) == 1 } }
    pub fn settled(&self) -> bool { unsafe { bek_settled(&*self.0) == 1 } }
    /// How many of the telegrams put are certain.
    pub fn confirmed(&self) -> Result<u64, c_int> {
        let mut count = 0;
        let result = unsafe { bek_confirmed(&*self.0, &mut count) };
        given(result, count)
    }
    pub fn confirmed_time(&self) -> Result<u64, c_int> {
        let mut time = 0;
        let result = unsafe { bek_confirmed_time(&*self.0, &mut time) };
        given(result, time)
    }
    /// Who ended the last connection, why and when, with its text; `Err(NOTHING)` if none has ended.
    pub fn departure(&self) -> Result<(Leaving, String), c_int> {
        let mut leaving = Leaving::default();
        let result = unsafe { bek_departure(&*self.0, &mut leaving, size_of::<Leaving>()) };
        let said = text(|at, size| { unsafe { bek_leaving_text(&leaving, at, size) }; });
        given(result, (leaving, said))
    }
    /// The version and checksum that were agreed; `Err(NOTHING)` before that.
    pub fn agreed(&self) -> Result<Agreement, c_int> {
        let mut agreement = Agreement::default();
        let result = unsafe { bek_agreed(&*self.0, &mut agreement, size_of::<Agreement>()) };
        given(result, agreement)
    }
    pub fn counts(&self) -> Result<Counts, c_int> {
        let mut counts = Counts::default();
        let result = unsafe { bek_counts_of(&*self.0, &mut counts, size_of::<Counts>()) };
        given(result, counts)
    }
    pub fn statistics(&self) -> Result<Statistics, c_int> {
        let mut statistics = Statistics::default();
        let result = unsafe { bek_statistics_of(&*self.0, &mut statistics, size_of::<Statistics>()) };
        given(result, statistics)
    }
    /// The sums of these counts over all openings.
    pub fn totals(&self) -> Result<Statistics, c_int> {
        let mut totals = Statistics::default();
        let result = unsafe { bek_totals_of(&*self.0, &mut totals, size_of::<Statistics>()) };
        given(result, totals)
    }
    /// Keeps notes from now on, or no longer.
    pub fn hear_notes(&mut self, on: bool) -> c_int { unsafe { bek_hear_notes(&mut *self.0, on as c_int) } }
    /// The oldest note with its text.
    pub fn next_note(&mut self) -> Option<(Note, String)> {
        let mut note = Note::default();
        let result = unsafe { bek_next_note(&mut *self.0, &mut note, size_of::<Note>()) };
        if result == OK { Some((note, text(|at, size| { unsafe { bek_note_text(&note, at, size) }; }))) } else { None }
    }
}
