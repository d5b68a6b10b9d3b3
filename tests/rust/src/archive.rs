//! What include/burst.h declares: the structs of the answers, and the functions of the archive. The benchmark has this
//! file too.

/// The answer of reading a table.
#[repr(C)]
#[derive(Clone, Copy, Debug, PartialEq, Eq)]
pub struct Reading {
    pub refused: u64,
    pub place: u64,
    pub l: u64,
    pub e0: u64,
    pub e1: u64,
}

/// The answer of writing a table.
#[repr(C)]
#[derive(Clone, Copy, Debug, PartialEq, Eq)]
pub struct Written {
    pub refused: u64,
    pub length: u64,
    pub l: u64,
    pub e0: u64,
    pub e1: u64,
}

/// The answer of a coder step.
#[repr(C)]
#[derive(Clone, Copy, Debug, PartialEq, Eq)]
pub struct Coded {
    pub refused: u64,
    pub block: u64,
}

/// The answer of a decoder step; mark 0 is "nothing yet".
#[repr(C)]
#[derive(Clone, Copy, Debug, PartialEq, Eq)]
pub struct Decoded {
    pub refused: u64,
    pub info: u64,
    pub mark: u64,
    pub error: u64,
}

/// The answer of a decoder step of the Iwadare-Massey stations; delivered 0 is "nothing yet".
#[repr(C)]
#[derive(Clone, Copy, Debug, PartialEq, Eq)]
pub struct IwadareDecoded {
    pub refused: u64,
    pub delivered: u64,
    pub info: u64,
}

extern "C" {
    pub fn burst_read(bytes: *const u8, length: usize, table: *mut u64) -> Reading;
    pub fn burst_make(n: u64, m: u64, table: *mut u64) -> u64;
    pub fn burst_write(table: *const u64, bytes: *mut u8, room: usize) -> Written;
    pub fn burst_start_coder(table: *const u64, words: *mut u64, count: usize) -> u64;
    pub fn burst_start_decoder(table: *const u64, words: *mut u64, count: usize) -> u64;
    pub fn burst_code(table: *const u64, words: *mut u64, count: usize, info: u16) -> Coded;
    pub fn burst_decode(table: *const u64, words: *mut u64, count: usize, received: u16) -> Decoded;
    pub fn burst_code_batch(
        table: *const u64,
        words: *mut u64,
        count: usize,
        infos: *const u16,
        length: usize,
        entries: *mut u32,
        room: usize,
    ) -> usize;
    pub fn burst_decode_batch(
        table: *const u64,
        words: *mut u64,
        count: usize,
        received: *const u16,
        length: usize,
        entries: *mut u32,
        room: usize,
    ) -> usize;
    pub fn burst_load(table: *const u64, seed: u32, blocks: *mut u16, length: usize) -> u64;
    pub fn burst_iwadare_start_coder(words: *mut u64, count: usize) -> u64;
    pub fn burst_iwadare_start_decoder(words: *mut u64, count: usize) -> u64;
    pub fn burst_iwadare_code(words: *mut u64, count: usize, info: u16) -> Coded;
    pub fn burst_iwadare_decode(words: *mut u64, count: usize, received: u16) -> IwadareDecoded;
}

/// Table, words and their count, blocks and their length, entries and their room.
pub type Batch =
    unsafe extern "C" fn(*const u64, *mut u64, usize, *const u16, usize, *mut u32, usize) -> usize;
