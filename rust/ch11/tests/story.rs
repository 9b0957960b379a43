//! The story of a packet that a lab withdraws. The recording is read in pieces into one buffer, which
//! keeps what it held behind its filled end.

#[allow(dead_code)]
mod cases;

use cases::{L, M};
use ch11::{Entry, Number, Refusal, RenewalTable, Renewed};

/// Recording 7, of which the buffer holds the piece from `PIECE` on: M, and behind it L.
const RECORDING: u64 = 7;
const PIECE: u64 = 700_000_000_000;
const L_AT: usize = M.len();
const WHOLE: usize = L_AT + L.len();

/// A server that keeps packets, and the buffer that it reads the recording into.
struct Server {
    buf: [u8; WHOLE],
    filled: usize,
    table: RenewalTable,
}

impl Server {
    /// Reads the piece again, as much as the lab has of it now.
    fn read_piece(&mut self, lab_has: usize) {
        self.buf[..lab_has].copy_from_slice(&[&M[..], &L].concat()[..lab_has]);
        self.filled = lab_has;
    }

    fn keep(&mut self, at: usize) -> Result<usize, Refusal> {
        let place = PIECE + at as u64;
        self.table.add(RECORDING, place, &self.buf, at, self.filled)
    }

    fn renew(&mut self, at: usize) -> Result<Renewed, Refusal> {
        let place = PIECE + at as u64;
        self.table
            .renew(RECORDING, place, &self.buf, at, self.filled)
    }

    fn entry(&self, at: usize) -> Option<Entry<'_>> {
        let named =
            |entry: &Entry| (entry.recording, entry.place) == (RECORDING, PIECE + at as u64);
        self.table.entries().find(named)
    }
}

#[test]
fn a_withdrawn_packet_is_gone_after_one_renewal() {
    let (buf, filled, table) = ([0; WHOLE], 0, RenewalTable::new());
    let mut server = Server { buf, filled, table };

    // Two packets are read and kept; as long as the lab has them they live.
    server.read_piece(WHOLE);
    assert_eq!((server.keep(0), server.keep(L_AT)), (Ok(0), Ok(1)));
    server.read_piece(WHOLE);
    assert_eq!(server.renew(L_AT), Ok(Renewed::Lives));
    assert_eq!(server.entry(L_AT).map(|entry| entry.bytes), Some(&L[..]));

    // The lab withdraws the second. The buffer still holds it, behind the fill.
    let before = server.table.clone();
    server.read_piece(L_AT);
    assert_eq!(server.buf[L_AT..], L);
    let dropped = server.renew(L_AT).expect("it is no refusal");
    assert!(matches!(dropped, Renewed::Dropped(Some(cause)) if cause.number == Number::Short));

    // Its name is gone, and the other lives on untouched.
    assert_eq!(server.entry(L_AT), None);
    assert!(server.table.entries().eq(before.entries().take(1)));
    assert_eq!(server.renew(0), Ok(Renewed::Lives));
    assert_eq!(server.entry(0).map(|entry| entry.bytes), Some(&M[..]));

    // Put back, it must be added again.
    server.read_piece(WHOLE);
    let unknown = server.renew(L_AT).expect_err("it lives no more");
    assert_eq!(unknown.number, Number::NoEntry);
    assert_eq!(server.keep(L_AT), Ok(1));
    assert!(server.table.entries().eq(before.entries()));
}
