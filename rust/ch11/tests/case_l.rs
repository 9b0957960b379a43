//! Nothing checks `raw.rs` against the library's source. So these tests check where each field of
//! each struct stands, and what each call leaves in each field, as the table has both.

mod cases;

use cases::{carried, faulty, recording, shown};
use cases::{FAULTY_AT, FAULTY_BASE, FILLED, HEADER, L, L_BASE, M, M_AT, M_BASE};
use ch11::raw::{self, SLOTS, SLOT_BYTES, STORE_BYTES};
use std::fmt::Debug;
use std::mem::{size_of, MaybeUninit};

/// Where the packets at `FILLED` and at `FAULTY_AT` stand in their recordings.
const FILLED_BASE: u64 = M_BASE + 160;
const FAULTY_AT_BASE: u64 = FAULTY_BASE + 40;

/// A base that is too high by one for a window of 40 bytes.
const TOO_FAR: u64 = L_BASE + 1;

/// Checks a struct's size and that its fields are those of the table, in its order: where the
/// struct's words are 0, 1, 2 and so on, its fields are so too.
fn check_layout<T: Debug>(case: &str) {
    let words: Vec<u64> = (0..size_of::<T>() as u64 / 8).collect();
    // SAFETY: the library's structs are of `u64` alone, for which any bytes are a value.
    let value = unsafe { words.as_ptr().cast::<T>().read() };
    let mut next = 0..;
    let wanted = shown(case, &mut |_| next.next().unwrap());
    assert_eq!(format!("{value:?}"), wanted);
}

#[test]
fn layout_of_every_struct() {
    check_layout::<raw::Refusal>("none");
    check_layout::<raw::Fields>("fields_l");
    check_layout::<raw::Part>("header_l");
    check_layout::<raw::Packet>("packet_l");
    check_layout::<raw::List>("list_l");
    check_layout::<raw::Message>("message_l");
    check_layout::<raw::Recording>("recording_l");
    check_layout::<raw::Written>("written_l");
    check_layout::<raw::Draft>("opened_l");
    check_layout::<raw::Entry>("entry_l");
    check_layout::<raw::Table>("table_l");
    check_layout::<raw::Added>("added_l");
    check_layout::<raw::Renewed>("renewed_lives");
}

/// The header's type in Rust's words: `*const u8` for `const uint8_t *`.
fn in_rust(kind: &str) -> String {
    let (base, pointer) = match kind.trim_end().strip_suffix('*') {
        Some(lent) => match lent.strip_prefix("const ") {
            Some(read) => (read, "*const "),
            None => (lent, "*mut "),
        },
        None => (kind, ""),
    };
    let named = match base.trim_end() {
        "size_t" => "usize".to_string(),
        number if number.starts_with("uint") => number.replace("uint", "u").replace("_t", ""),
        named => {
            let name = named.strip_prefix("struct ch11_").expect("a type");
            name[..1].to_uppercase() + &name[1..]
        }
    };
    format!("{pointer}{named}")
}

/// What stands behind a call's name: its parameters, as `one` makes them, up to the bracket.
fn parameters(behind: &str, one: fn(&str) -> String) -> Vec<String> {
    let list = behind.split(')').next().unwrap_or_default().split(',');
    let named = list.map(str::trim).filter(|given| !given.is_empty());
    named.map(one).collect()
}

/// A parameter of the header in Rust's words.
fn parameter_in_rust(given: &str) -> String {
    let (kind, name) = given.split_at(given.rfind([' ', '*']).expect("a type") + 1);
    // `type` is a word of Rust's own.
    format!("{}: {}", name.replace("type", "kind"), in_rust(kind))
}

/// The parameters stand in the same order in the header and here, with the same names and types: the
/// wrapper's types don't hold a base apart from a place in the buffer.
#[test]
fn parameters_of_every_call() {
    let raw = include_str!("../src/raw.rs");
    let calls: Vec<_> = raw.split("pub fn ").skip(1).collect();
    assert_eq!(calls.len(), 11);
    for call in calls {
        let (name, behind) = call.split_once('(').expect("parameters");
        let (_, returned) = behind.split_once(") -> ").expect("it returns");
        let returned = returned.split(';').next();
        let in_c = ["uint64_t", "size_t"].into_iter().find_map(|kind| {
            let (_, behind) = HEADER.split_once(&format!("\n{kind} {name}("))?;
            Some((in_rust(kind), parameters(behind, parameter_in_rust)))
        });
        let (kind, in_c) = in_c.expect("the header has it");
        assert_eq!(Some(kind.as_str()), returned, "{name}");
        assert_eq!(in_c, parameters(behind, str::to_string), "{name}");
    }
}

#[test]
fn sizes_of_table_and_store() {
    let sizes = [
        ("SLOTS", SLOTS, 64),
        ("SLOT_BYTES", SLOT_BYTES, 1024),
        ("STORE_BYTES", STORE_BYTES, 65_536),
    ];
    for (name, here, want) in sizes {
        let (_, behind) = HEADER.split_once(&format!(" CH11_{name} = ")).unwrap();
        let in_c = behind.split(|c: char| !c.is_ascii_digit()).next();
        assert_eq!((in_c.unwrap().parse(), here), (Ok(want), want), "{name}");
    }
}

/// A result that is set to no answer in all its fields, so that a field left out would show.
fn spoilt<T: Copy>() -> T {
    let mut value = MaybeUninit::<T>::uninit();
    // SAFETY: the library's structs are of `u64` alone, for which any bytes are a value.
    unsafe {
        value.as_mut_ptr().write_bytes(0xA5, 1);
        value.assume_init()
    }
}

/// Holds what a call left in a struct to a case of the table, and the number that it returned to
/// the struct's.
fn check(case: &str, answer: &dyn Debug, number: u64, returned: u64) {
    assert_eq!(format!("{answer:?}"), shown(case, &mut |word| word));
    assert_eq!(returned, number, "{case}");
}

/// Makes a call whose result comes last, and checks it.
macro_rules! answer {
    ($case:literal: $call:ident($($given:expr),+)) => {{
        let mut answer = spoilt();
        // SAFETY: the pointers and lengths are of slices, those written to borrowed alone.
        let returned = unsafe { raw::$call($($given),+, &mut answer) };
        check($case, &answer, answer.refusal.number, returned);
        answer
    }};
}

/// Makes a step of the builder from this state in this buffer, and checks it.
macro_rules! step {
    ($case:literal, $state:ident, $buf:expr => $call:ident($($given:expr),*)) => {
        $state.refusal = spoilt();
        let (at, len) = ($buf.as_mut_ptr(), $buf.len());
        // SAFETY: the pointers and lengths are of slices, those written to borrowed alone.
        let returned = unsafe { raw::$call(&mut $state, at, len, $($given),*) };
        check($case, &$state, $state.refusal.number, returned);
    };
}

#[test]
fn packets() {
    let buf = recording();
    answer!("packet_l": ch11_read_packet(L.as_ptr(), 40, 0, 40, L_BASE));
    answer!("packet_m": ch11_read_packet(buf.as_ptr(), 300, M_AT, FILLED, M_BASE));
    answer!("packet_refused": ch11_read_packet(buf.as_ptr(), 300, FILLED, 300, FILLED_BASE));
    answer!("packet_too_far": ch11_read_packet(buf.as_ptr(), 300, FILLED, 300, TOO_FAR));
    let buf = faulty();
    answer!("packet_faulty": ch11_read_packet(buf.as_ptr(), 80, FAULTY_AT, 80, FAULTY_AT_BASE));
}

/// Lists into 3 entries, of which `held` of the starts are lent; those that aren't written stay 7
/// and 9.
macro_rules! list {
    ($case:literal, $buf:expr, $at:expr, $base:expr, $held:expr) => {{
        let (mut starts, mut lengths) = ([7; 3], [9; 3]);
        let (first, second) = (starts.as_mut_ptr(), lengths.as_mut_ptr());
        let lent = &$buf;
        let (buf, len) = (lent.as_ptr(), lent.len());
        answer!($case: ch11_list_messages(buf, len, $at, len, $base, first, $held, second, 3));
        (starts, lengths)
    }};
}

#[test]
fn lists() {
    let buf = recording();
    let untouched = ([7; 3], [9; 3]);
    let listed = list!("list_l", L, 0, L_BASE, 3);
    assert_eq!(listed, ([32, 7, 7], [3, 9, 9]));
    let listed = list!("list_m", buf, M_AT, M_BASE, 2);
    assert_eq!(listed, ([52, 68, 7], [3, 5, 9]));
    let listed = list!("list_refused", buf, M_AT, M_BASE, 1);
    assert_eq!(listed, untouched);
    let listed = list!("list_too_far", buf, FILLED, TOO_FAR, 3);
    assert_eq!(listed, untouched);
    let listed = list!("list_faulty", faulty(), FAULTY_AT, FAULTY_AT_BASE, 3);
    assert_eq!(listed, untouched);
}

#[test]
fn single_messages() {
    let buf = recording();
    answer!("message_l": ch11_message(L.as_ptr(), 40, 0, 40, L_BASE, 0));
    answer!("message_m": ch11_message(buf.as_ptr(), 300, M_AT, 300, M_BASE, 1));
    answer!("message_refused": ch11_message(buf.as_ptr(), 300, M_AT, 300, M_BASE, 2));
    answer!("message_too_far": ch11_message(buf.as_ptr(), 300, FILLED, 300, TOO_FAR, 0));
    let buf = faulty();
    answer!("message_faulty": ch11_message(buf.as_ptr(), 80, FAULTY_AT, 80, FAULTY_AT_BASE, 0));
}

#[test]
fn recordings() {
    let buf = recording();
    answer!("recording_l": ch11_read_recording(L.as_ptr(), 40, 0, 40, L_BASE));
    answer!("recording_filled": ch11_read_recording(buf.as_ptr(), 300, M_AT, FILLED, M_BASE));
    answer!("recording_refused": ch11_read_recording(buf.as_ptr(), 300, M_AT, 300, M_BASE));
    answer!("recording_too_far": ch11_read_recording(buf.as_ptr(), 300, FILLED, 300, TOO_FAR));
    answer!("recording_faulty": ch11_read_recording(faulty().as_ptr(), 80, 0, 80, FAULTY_BASE));
}

#[test]
fn written_packets() {
    let buf = recording();
    let l = answer!("packet_l": ch11_read_packet(L.as_ptr(), 40, 0, 40, L_BASE)).fields;
    let m = answer!("packet_m": ch11_read_packet(buf.as_ptr(), 300, M_AT, FILLED, M_BASE)).fields;
    let (of_l, of_m) = (L[24..36].as_ptr(), M[36..74].as_ptr());
    let other = &faulty()[FAULTY_AT + 24..FAULTY_AT + 36];
    let mut out = [0xEE; 90];
    answer!("written_refused": ch11_write_packet(&m, of_m, 38, out.as_mut_ptr(), 79));
    answer!("written_faulty": ch11_write_packet(&l, other.as_ptr(), 12, out.as_mut_ptr(), 90));
    assert_eq!(out, [0xEE; 90]);
    answer!("written_l": ch11_write_packet(&l, of_l, 12, out.as_mut_ptr(), 90));
    assert_eq!((&out[..40], &out[40..]), (&L[..], &[0xEE; 50][..]));
    answer!("written_m": ch11_write_packet(&m, of_m, 38, out.as_mut_ptr(), 90));
    assert_eq!((&out[..80], &out[80..]), (&M[..], &[0xEE; 10][..]));
}

#[test]
fn body_of_l_built() {
    let (mut state, mut buf) = (raw::Draft::default(), [0xEE; 14]);
    step!("opened_l", state, buf => ch11_open(0x50, 0));
    step!("full_l", state, buf => ch11_add(0, 0, b"ABC".as_ptr(), 3));
    step!("full_l", state, buf => ch11_close());
    assert_eq!((&buf[..12], &buf[12..]), (&L[24..36], &[0xEE; 2][..]));
}

/// Behind it steps from the same state that are refused, in another buffer; both stay as they were.
#[test]
fn body_of_m_built() {
    let (mut state, mut buf, mut other) = (raw::Draft::default(), [0xEE; 40], [0xEE; 40]);
    step!("opened_m", state, buf => ch11_open(0x30, 3));
    step!("add_faulty", state, buf => ch11_add(1_000_000_000, 0xABCD, b"abc".as_ptr(), 3));
    step!("close_faulty", state, buf => ch11_close());
    step!("begun_m", state, buf => ch11_add(0x10_0000_0020, 0xABCD, b"abc".as_ptr(), 3));
    step!("full_m", state, buf => ch11_add(0x11_0000_0021, 0x9876, b"vwxyz".as_ptr(), 5));
    step!("full_m", state, buf => ch11_close());
    assert_eq!((&buf[..38], &buf[38..]), (&M[36..74], &[0xEE; 2][..]));

    step!("open_refused", state, other => ch11_open(0x31, 4));
    step!("add_refused", state, other => ch11_add(0, 0, b"abc".as_ptr(), 3));
    step!("close_refused", state, other[..37] => ch11_close());
    assert_eq!(other, [0xEE; 40]);
}

/// The two recordings of the entries, and where the packet stands that is too long.
const FIRST: u64 = 7;
const SECOND: u64 = 0xFEDC_BA98_7654_3210;
const LONG_BASE: u64 = 0x12_3456_789A;

/// A table and its store, which is longer than it must be and at first 0xEE; and the bytes that it
/// must hold.
struct Kept {
    table: raw::Table,
    store: Vec<u8>,
    want: Vec<u8>,
}

impl Kept {
    fn new() -> Kept {
        let store = vec![0xEE; STORE_BYTES + 8];
        let (table, want) = (raw::Table::default(), store.clone());
        Kept { table, store, want }
    }

    /// The store must now hold these bytes at the slot's beginning.
    fn want_in_slot(&mut self, slot: usize, bytes: &[u8]) {
        self.want[slot * SLOT_BYTES..][..bytes.len()].copy_from_slice(bytes);
    }

    #[track_caller]
    fn check(&self, table: &str) {
        assert_eq!(format!("{:?}", self.table), shown(table, &mut |word| word));
        assert!(self.store == self.want, "the store, {table}");
    }
}

/// Makes a call on table and store, and holds its answer, the table and the store to what they must be.
macro_rules! keep {
    ($kept:ident, $case:literal, $then:literal:
     $call:ident($len:expr, $recording:expr, $place:expr, $buf:expr, $start:expr, $end:expr)) => {
        let (table, store, buf) = (&mut $kept.table, $kept.store.as_mut_ptr(), &$buf[..]);
        let (at, len) = (buf.as_ptr(), buf.len());
        answer!($case: $call(table, store, $len, $recording, $place, at, len, $start, $end));
        $kept.check($then);
    };
}

/// L and M are kept, and an L where `faulty()` has the one at fault now.
fn three_entries() -> Kept {
    let (mut kept, buf) = (Kept::new(), recording());
    kept.want_in_slot(0, &L);
    keep!(kept, "added_l", "table_l": ch11_renewal_add(STORE_BYTES, FIRST, L_BASE, L, 0, 40));
    kept.want_in_slot(1, &M);
    keep!(kept, "added_m", "table_m":
        ch11_renewal_add(STORE_BYTES + 8, SECOND, M_BASE, buf, M_AT, FILLED));
    kept.want_in_slot(2, &L);
    keep!(kept, "added_5040", "table_three":
        ch11_renewal_add(STORE_BYTES, FIRST, FAULTY_AT_BASE, buf, 180, FILLED));
    kept
}

#[test]
fn entries_added() {
    let (mut kept, buf) = (Kept::new(), recording());
    keep!(kept, "unadded_no_store", "table_empty":
        ch11_renewal_add(STORE_BYTES - 1, SECOND, M_BASE, buf, M_AT, 301));
    let mut kept = three_entries();
    keep!(kept, "unadded_cut", "table_three":
        ch11_renewal_add(STORE_BYTES, FIRST, L_BASE, L, 0, 39));
    keep!(kept, "unadded_faulty", "table_three":
        ch11_renewal_add(STORE_BYTES, FIRST, FAULTY_AT_BASE, faulty(), FAULTY_AT, 80));
    keep!(kept, "unadded_too_far", "table_three":
        ch11_renewal_add(STORE_BYTES, FIRST, TOO_FAR, buf, FILLED, 300));
    let long = [vec![0xEE; 7], carried(1028)].concat();
    keep!(kept, "unadded_too_long", "table_three":
        ch11_renewal_add(STORE_BYTES, FIRST, LONG_BASE, long, 7, 1035));
    kept.want_in_slot(1, &L);
    keep!(kept, "added_m", "table_replaced":
        ch11_renewal_add(STORE_BYTES, SECOND, M_BASE, buf, 180, 300));
}

/// 16 comes before 20, and 20 before 1. Of the name that isn't held the first recording has entries,
/// and the second has one at that place.
#[test]
fn entries_renewed() {
    let (mut kept, buf) = (three_entries(), recording());
    keep!(kept, "unrenewed_no_store", "table_three":
        ch11_renewal_renew(STORE_BYTES - 1, FIRST, M_BASE, buf, M_AT, 301));
    keep!(kept, "unrenewed_no_entry", "table_three":
        ch11_renewal_renew(STORE_BYTES, FIRST, M_BASE, buf, M_AT, 301));
    keep!(kept, "unrenewed_past_end", "table_three":
        ch11_renewal_renew(STORE_BYTES, FIRST, L_BASE, buf, 300 - 41, 300));
    keep!(kept, "renewed_lives", "table_three":
        ch11_renewal_renew(STORE_BYTES, FIRST, L_BASE, L, 0, 40));
    keep!(kept, "renewed_lives", "table_three":
        ch11_renewal_renew(STORE_BYTES, SECOND, M_BASE, buf, M_AT, FILLED));
}

#[test]
fn entries_dropped() {
    let (mut kept, buf) = (three_entries(), recording());
    keep!(kept, "dropped_other", "table_gap":
        ch11_renewal_renew(STORE_BYTES, SECOND, M_BASE, buf, 180, 300));
    for (from, next) in [(0, 0), (1, 2), (2, 2), (3, 64), (64, 64), (usize::MAX, 64)] {
        // SAFETY: the table is lent for reading.
        let found = unsafe { raw::ch11_renewal_next(&kept.table, from) };
        assert_eq!(found, next, "from {from}");
    }
    keep!(kept, "dropped_faulty", "table_l":
        ch11_renewal_renew(STORE_BYTES, FIRST, FAULTY_AT_BASE, faulty(), FAULTY_AT, 80));
    keep!(kept, "dropped_cut", "table_empty":
        ch11_renewal_renew(STORE_BYTES, FIRST, L_BASE, L, 0, 39));
}

/// The last slot is the only one that is free, and then none is.
#[test]
fn last_slot() {
    let (mut kept, buf) = (Kept::new(), recording());
    let rows = kept.table.slots.iter_mut().take(SLOTS - 1);
    rows.for_each(|entry| entry.live = u64::MAX);
    let (len, place) = (STORE_BYTES, M_BASE + 80);
    let (table, store, buf) = (&mut kept.table, kept.store.as_mut_ptr(), buf.as_ptr());
    answer!("added_last": ch11_renewal_add(table, store, len, SECOND, place, buf, 300, 180, FILLED));
    answer!("unadded_full": ch11_renewal_add(table, store, len, FIRST, place, buf, 300, 180, FILLED));
    kept.want_in_slot(SLOTS - 1, &L);
    assert!(kept.store == kept.want);
}
