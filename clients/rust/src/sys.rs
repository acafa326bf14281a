//! What `string_cache.h` declares, as far as it is called here.

use std::ffi::{c_char, c_void};

/// An `sc_table`.
#[repr(C)]
pub struct Table {
    at: *mut c_void,
    full: bool,
}

impl Table {
    /// `SC_CLOSED_TABLE`.
    pub const CLOSED: Table = Table { at: std::ptr::null_mut(), full: false };
}

/// An `sc_hashes`.
#[repr(C)]
pub struct Hashes {
    pub g: u32,
    pub f1: u32,
    pub f2: u32,
}

/// The key of a table's hash.
#[repr(C)]
#[derive(Clone, Copy)]
pub struct Key {
    pub low: u64,
    pub high: u64,
}

/// Those of the numbers that calls from here may answer.
pub const OK: u32 = 0;
pub const NO_MEMORY: u32 = 1;
pub const FULL_COUNT: u32 = 2;
pub const TICKETS_SPENT: u32 = 3;
pub const NOT_HELD: u32 = 6;
pub const TOO_SMALL: u32 = 9;
pub const NOT_LIMITS: u32 = 10;
pub const NO_RANDOM: u32 = 13;

extern "C" {
    pub fn sc_open(table: *mut Table) -> u32;
    pub fn sc_open_with(table: *mut Table, holders: u64, tickets: u64, bucket_bits: u8) -> u32;
    pub fn sc_open_keyed(table: *mut Table, holders: u64, tickets: u64, bucket_bits: u8, key: Key) -> u32;
    pub fn sc_close(table: *mut Table);
    pub fn sc_intern(table: *mut Table, text: *const c_char, len: usize, word: *mut u64) -> u32;
    pub fn sc_get(table: *const Table, text: *const c_char, len: usize, word: *mut u64) -> u32;
    pub fn sc_clone(table: *mut Table, word: u64) -> u32;
    pub fn sc_give(table: *mut Table, word: u64) -> u32;
    pub fn sc_holds(table: *const Table, word: u64) -> bool;
    pub fn sc_holders(table: *const Table, word: u64, holders: *mut u64) -> u32;
    pub fn sc_text(table: *const Table, word: u64, room: *mut c_char, room_len: usize, len: *mut usize) -> u32;
    pub fn sc_entries(table: *const Table) -> usize;
    pub fn sc_text_bytes(table: *const Table) -> u64;
    pub fn sc_memory(table: *const Table) -> u64;
    pub fn sc_entry(table: *const Table, place: usize, word: *mut u64, holders: *mut u64) -> u32;
    pub fn sc_clear(table: *mut Table) -> u32;
    pub fn sc_reserve(table: *mut Table, more: usize) -> u32;
    pub fn sc_hash(text: *const c_char, len: usize, key: u64, hashes: *mut Hashes) -> u32;
}

extern "C" {
    pub fn sc_pack(text: *const c_char, len: usize, word: *mut u64) -> u32;
    pub fn sc_unpack(word: u64, room: *mut c_char, room_len: usize, len: *mut usize) -> u32;
}
