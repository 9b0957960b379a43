//! The C interface as `include/ch11.h` has it: the same structs, the same calls. What each field means is said there.

/// `struct ch11_refusal`
#[repr(C)]
#[derive(Clone, Copy, Debug, Default, PartialEq, Eq)]
pub struct Refusal {
    pub number: u64,
    pub place: u64,
    pub room: u64,
    pub reason: u64,
    pub recording_place: u64,
}

/// `struct ch11_fields`
#[repr(C)]
#[derive(Clone, Copy, Debug, Default, PartialEq, Eq)]
pub struct Fields {
    pub channel: u64,
    pub version: u64,
    pub sequence: u64,
    pub flags: u64,
    pub kind: u64,
    pub rtc: u64,
    pub time: u64,
}

/// `struct ch11_part`
#[repr(C)]
#[derive(Clone, Copy, Debug, Default, PartialEq, Eq)]
pub struct Part {
    pub at: u64,
    pub length: u64,
}

/// `struct ch11_packet`
#[repr(C)]
#[derive(Clone, Copy, Debug, Default, PartialEq, Eq)]
pub struct Packet {
    pub refusal: Refusal,
    pub fields: Fields,
    pub length: u64,
    pub data_length: u64,
    pub header_sum: u64,
    pub data_sum: u64,
    pub recording_place: u64,
    pub header: Part,
    pub secondary: Part,
    pub body: Part,
    pub filler: Part,
    pub sum: Part,
}

/// `struct ch11_list`
#[repr(C)]
#[derive(Clone, Copy, Debug, Default, PartialEq, Eq)]
pub struct List {
    pub refusal: Refusal,
    pub count: u64,
}

/// `struct ch11_message`
#[repr(C)]
#[derive(Clone, Copy, Debug, Default, PartialEq, Eq)]
pub struct Message {
    pub refusal: Refusal,
    pub time: u64,
    pub id: u64,
    pub start: u64,
    pub length: u64,
}

/// `struct ch11_recording`
#[repr(C)]
#[derive(Clone, Copy, Debug, Default, PartialEq, Eq)]
pub struct Recording {
    pub refusal: Refusal,
    pub accepted: u64,
    pub reached: u64,
    pub recording_reached: u64,
}

/// `struct ch11_written`
#[repr(C)]
#[derive(Clone, Copy, Debug, Default, PartialEq, Eq)]
pub struct Written {
    pub refusal: Refusal,
    pub length: u64,
}

/// `struct ch11_draft`
#[repr(C)]
#[derive(Clone, Copy, Debug, Default, PartialEq, Eq)]
pub struct Draft {
    pub refusal: Refusal,
    pub used: u64,
    pub blocks: u64,
    pub kind: u64,
    pub rule: u64,
}

/// `CH11_SLOTS`
pub const SLOTS: usize = 64;

/// `CH11_SLOT_BYTES`
pub const SLOT_BYTES: usize = 1024;

/// `CH11_STORE_BYTES`
pub const STORE_BYTES: usize = 65536;

/// `struct ch11_entry`
#[repr(C)]
#[derive(Clone, Copy, Debug, Default, PartialEq, Eq)]
pub struct Entry {
    pub live: u64,
    pub recording: u64,
    pub place: u64,
    pub length: u64,
    pub channel: u64,
    pub sequence: u64,
    pub rtc: u64,
}

/// `struct ch11_table`
#[repr(C)]
#[derive(Clone, Copy, Debug, PartialEq, Eq)]
pub struct Table {
    pub slots: [Entry; SLOTS],
}

impl Default for Table {
    fn default() -> Table {
        Table {
            slots: [Entry::default(); SLOTS],
        }
    }
}

/// `struct ch11_added`
#[repr(C)]
#[derive(Clone, Copy, Debug, Default, PartialEq, Eq)]
pub struct Added {
    pub refusal: Refusal,
    pub slot: u64,
}

/// `struct ch11_renewed`
#[repr(C)]
#[derive(Clone, Copy, Debug, Default, PartialEq, Eq)]
pub struct Renewed {
    pub refusal: Refusal,
    pub lives: u64,
    pub cause: Refusal,
}

extern "C" {
    pub fn ch11_read_packet(
        buf: *const u8,
        len: usize,
        start: usize,
        end: usize,
        base: u64,
        packet: *mut Packet,
    ) -> u64;

    pub fn ch11_list_messages(
        buf: *const u8,
        len: usize,
        start: usize,
        end: usize,
        base: u64,
        starts: *mut u32,
        starts_len: usize,
        lengths: *mut u32,
        lengths_len: usize,
        list: *mut List,
    ) -> u64;

    pub fn ch11_message(
        buf: *const u8,
        len: usize,
        start: usize,
        end: usize,
        base: u64,
        number: usize,
        message: *mut Message,
    ) -> u64;

    pub fn ch11_read_recording(
        buf: *const u8,
        len: usize,
        start: usize,
        end: usize,
        base: u64,
        recording: *mut Recording,
    ) -> u64;

    pub fn ch11_write_packet(
        fields: *const Fields,
        body: *const u8,
        body_len: usize,
        out: *mut u8,
        out_len: usize,
        written: *mut Written,
    ) -> u64;

    pub fn ch11_open(draft: *mut Draft, buf: *mut u8, len: usize, kind: u64, rule: u64) -> u64;

    pub fn ch11_add(
        draft: *mut Draft,
        buf: *mut u8,
        len: usize,
        time: u64,
        upper: u64,
        bytes: *const u8,
        bytes_len: usize,
    ) -> u64;

    pub fn ch11_close(draft: *mut Draft, buf: *mut u8, len: usize) -> u64;

    pub fn ch11_renewal_add(
        table: *mut Table,
        store: *mut u8,
        store_len: usize,
        recording: u64,
        place: u64,
        buf: *const u8,
        len: usize,
        start: usize,
        end: usize,
        added: *mut Added,
    ) -> u64;

    pub fn ch11_renewal_renew(
        table: *mut Table,
        store: *const u8,
        store_len: usize,
        recording: u64,
        place: u64,
        buf: *const u8,
        len: usize,
        start: usize,
        end: usize,
        renewed: *mut Renewed,
    ) -> u64;

    pub fn ch11_renewal_next(table: *const Table, slot: usize) -> usize;
}
