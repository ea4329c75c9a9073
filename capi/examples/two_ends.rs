// Two ends in one process, from Rust, over capi/bindings/bekwidas.rs.
// rustc -O two_ends.rs -L DIR -l static=bekwidas
#[path = "../bindings/bekwidas.rs"]
mod bekwidas;
use bekwidas::{DATAGRAM_MAX, ERR_BAD_SETTINGS, ESTABLISHED, End, FIELD_ELEMENT, INTERLOCKING, OK, PAYLOAD_MAX, START, Settings};

// The end FE takes all telegrams that wait, which are numbered.
fn take_all(fe: &mut End, mut taken: u32) -> u32 {
    let mut buffer = [0u8; PAYLOAD_MAX];
    while let Some((kind, payload)) = fe.take(&mut buffer) {
        assert_eq!((kind, payload), (0x0100, &taken.to_le_bytes()[..]));
        taken += 1;
    }
    taken
}

// Passes all datagrams of one end to the other; what arrives is taken at once.
fn pass(from: &mut End, to: &mut End, now: u64, taken: &mut u32) -> bool {
    let (mut buffer, mut some) = ([0u8; DATAGRAM_MAX], false);
    while let Some((channel, octets)) = from.next_datagram(&mut buffer) {
        assert_eq!(to.arrive(channel, octets, now), OK);
        *taken = take_all(to, *taken);
        some = true;
    }
    some
}

fn settings(side: u32, id: u32, peer_id: u32, own: &str, peer: &str) -> Settings {
    let mut s = Settings::new();
    (s.side, s.id, s.peer_id, s.protocol, s.version_count, s.versions[0]) = (side, id, peer_id, 1, 1, 3);
    s.set_names(own, peer);
    s
}

fn main() {
    let times: u32 = std::env::args().nth(1).map_or(1_000_000, |t| t.parse().unwrap());
    let mut fe = End::open(&settings(FIELD_ELEMENT, 2, 1, "FE1", "IL1"), 0).unwrap();
    let mut il = End::open(&settings(INTERLOCKING, 1, 2, "IL1", "FE1"), 0).unwrap();
    assert_eq!(settings(1, 1, 1, "IL1", "FE1").fault(), (ERR_BAD_SETTINGS, "peer_id: expected another identifier than id".to_string()));
    let (mut put, mut taken, mut now) = (0u32, 0u32, 0u64);
    while pass(&mut il, &mut fe, 0, &mut taken) | pass(&mut fe, &mut il, 0, &mut taken) {}
    assert_eq!(fe.init_done(0), OK);
    while pass(&mut fe, &mut il, 0, &mut taken) | pass(&mut il, &mut fe, 0, &mut taken) {}
    assert_eq!((il.phase(), fe.phase()), (ESTABLISHED, ESTABLISHED));
    let start = std::time::Instant::now();
    while taken < times {
        now += 1;
        while put < times && il.put(0x0100, &put.to_le_bytes(), now) == OK { put += 1; pass(&mut il, &mut fe, now, &mut taken); }
        while pass(&mut il, &mut fe, now, &mut taken) | pass(&mut fe, &mut il, now, &mut taken) {}
        assert!(now < 1_000_000, "the connection has ended");
        assert_eq!((il.tick(now), fe.tick(now)), (OK, OK));
    }
    while pass(&mut il, &mut fe, now, &mut taken) | pass(&mut fe, &mut il, now, &mut taken) {}
    println!("rust: {taken} telegrams in order, {:.0} ns each", start.elapsed().as_nanos() as f64 / taken as f64);
    assert_eq!(il.close(now), OK);
    println!("rust: {} confirmed, {}", il.confirmed().unwrap(), il.departure().unwrap().1);
    assert!(!il.is_stale()); // it waits t_max/4 before the next connection
    now += 450;
    assert_eq!(il.tick(now), OK);
    assert!(il.is_stale());
    assert_eq!((il.reopen(4711, now), il.state(), il.confirmed()), (OK, START, Ok(0))); // for another connection
}
