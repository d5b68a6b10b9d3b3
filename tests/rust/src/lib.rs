//! The plain implementations of the burst codec, of its test load and of the Iwadare-Massey stations, a safe wrapper
//! over the proved ones' C interface, and the listing program, run.

pub mod archive;
pub mod cases;
pub mod examples;
pub mod iwadare;
pub mod iwadare_cases;
pub mod load;
pub mod oracle;

#[cfg(test)]
mod iwadare_tests;
#[cfg(test)]
mod load_tests;
#[cfg(test)]
mod oracle_tests;

pub use archive::{Coded, Decoded, IwadareDecoded, Reading, Written};

/// A table as it crosses the boundary: n, N, m, then rows 1 to 15.
pub type Numbers = [u64; 18];

/// The proved implementation. Unit tests are built without it, so that they need no archive.
#[cfg(not(test))]
pub mod linked {
    use super::archive::*;
    use super::Numbers;

    /// What the numbers lent for a table hold before the call: a refusal leaves them so.
    pub const UNWRITTEN: Numbers = [0xA5A5_A5A5_A5A5_A5A5; 18];

    pub fn read(bytes: &[u8]) -> (Reading, Numbers) {
        let mut table = UNWRITTEN;
        // SAFETY: the slice's own length goes along, and the table has its 18 numbers.
        let reading = unsafe { burst_read(bytes.as_ptr(), bytes.len(), table.as_mut_ptr()) };
        (reading, table)
    }

    pub fn make(n: u64, m: u64) -> (u64, Numbers) {
        let mut table = UNWRITTEN;
        // SAFETY: the table has its 18 numbers.
        let refused = unsafe { burst_make(n, m, table.as_mut_ptr()) };
        (refused, table)
    }

    pub fn write(table: &Numbers, bytes: &mut [u8]) -> Written {
        // SAFETY: the table has its 18 numbers, and the slice's own length goes along.
        unsafe { burst_write(table.as_ptr(), bytes.as_mut_ptr(), bytes.len()) }
    }

    pub fn start_coder(table: &Numbers, words: &mut [u64]) -> u64 {
        // SAFETY: the table has its 18 numbers, and the slice's own length goes along.
        unsafe { burst_start_coder(table.as_ptr(), words.as_mut_ptr(), words.len()) }
    }

    pub fn start_decoder(table: &Numbers, words: &mut [u64]) -> u64 {
        // SAFETY: as for the coder.
        unsafe { burst_start_decoder(table.as_ptr(), words.as_mut_ptr(), words.len()) }
    }

    pub fn code(table: &Numbers, words: &mut [u64], info: u16) -> Coded {
        // SAFETY: as for starting.
        unsafe { burst_code(table.as_ptr(), words.as_mut_ptr(), words.len(), info) }
    }

    pub fn decode(table: &Numbers, words: &mut [u64], received: u16) -> Decoded {
        // SAFETY: as for starting.
        unsafe { burst_decode(table.as_ptr(), words.as_mut_ptr(), words.len(), received) }
    }

    fn batch(call: Batch, table: &Numbers, words: &mut [u64], blocks: &[u16], entries: &mut [u32]) -> usize {
        let (list, output) = (blocks.as_ptr(), entries.as_mut_ptr());
        // SAFETY: as for starting, for each of the three slices.
        unsafe {
            call(table.as_ptr(), words.as_mut_ptr(), words.len(), list, blocks.len(), output, entries.len())
        }
    }

    pub fn code_batch(table: &Numbers, words: &mut [u64], infos: &[u16], entries: &mut [u32]) -> usize {
        batch(burst_code_batch, table, words, infos, entries)
    }

    pub fn decode_batch(table: &Numbers, words: &mut [u64], received: &[u16], entries: &mut [u32]) -> usize {
        batch(burst_decode_batch, table, words, received, entries)
    }

    pub fn load(table: &Numbers, seed: u32, blocks: &mut [u16]) -> u64 {
        // SAFETY: the table has its 18 numbers, and the slice's own length goes along.
        unsafe { burst_load(table.as_ptr(), seed, blocks.as_mut_ptr(), blocks.len()) }
    }

    pub fn iwadare_start_coder(words: &mut [u64]) -> u64 {
        // SAFETY: the slice's own length goes along.
        unsafe { burst_iwadare_start_coder(words.as_mut_ptr(), words.len()) }
    }

    pub fn iwadare_start_decoder(words: &mut [u64]) -> u64 {
        // SAFETY: as for the coder.
        unsafe { burst_iwadare_start_decoder(words.as_mut_ptr(), words.len()) }
    }

    pub fn iwadare_code(words: &mut [u64], info: u16) -> Coded {
        // SAFETY: as for starting.
        unsafe { burst_iwadare_code(words.as_mut_ptr(), words.len(), info) }
    }

    pub fn iwadare_decode(words: &mut [u64], received: u16) -> IwadareDecoded {
        // SAFETY: as for starting.
        unsafe { burst_iwadare_decode(words.as_mut_ptr(), words.len(), received) }
    }
}

/// The listing program.
pub mod program {
    use std::io::{Error, Result, Write};
    use std::process::{Command, Stdio};
    use std::thread;

    const LISTING: &str = concat!(env!("CARGO_MANIFEST_DIR"), "/../../target/bin/listing");

    /// What it prints on this input, or why it could not be run to its end.
    pub fn listing(input: &[u8]) -> Result<String> {
        let mut child = Command::new(LISTING).stdin(Stdio::piped()).stdout(Stdio::piped()).spawn()?;
        let stdin = child.stdin.take();
        let output = thread::scope(|scope| {
            // Written beside the reading, so that neither pipe waits for the other. A program that stopped reads
            // no more, and that is no error.
            scope.spawn(move || stdin.map(|mut pipe| pipe.write_all(input)));
            child.wait_with_output()
        })?;
        if output.status.code().is_none() {
            return Err(Error::other(output.status.to_string()));
        }
        String::from_utf8(output.stdout).map_err(Error::other)
    }
}
