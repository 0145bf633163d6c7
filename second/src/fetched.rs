//! The codes that a host fetched since the last restart.

use crate::calls::Call;

/// How many codes are kept.
pub const KEPT: usize = 8192;

const NO_KEY: u8 = 0x7F;
const KBDSIZE: usize = 0x03;
const EVTCODE: u8 = 0x10;

/// The codes since the last restart.
#[derive(Default)]
pub struct Fetched {
    /// The first of them, as many as are kept, oldest first.
    pub codes: Vec<u8>,
    /// Whether there were more.
    pub more: bool,
}

impl Fetched {
    /// Takes note of a call that was made, with its number and the bytes that it gave.
    pub fn heed(&mut self, call: &Call, number: u8, given: &[u8]) {
        match call {
            // It was declined.
            _ if number != 0 => {}
            Call::Reset => self.restart(),
            Call::Write(first, bytes) if runs_over_size(*first, bytes.len()) => self.restart(),
            Call::Read(EVTCODE, _) => given.iter().for_each(|byte| self.take(*byte)),
            _ => {}
        }
    }

    /// Nothing has been fetched.
    fn restart(&mut self) {
        *self = Fetched::default();
    }

    /// Takes a byte of EVTCODE.
    fn take(&mut self, byte: u8) {
        if byte == NO_KEY {
            return;
        }
        if self.codes.len() < KEPT {
            self.codes.push(byte);
        } else {
            self.more = true;
        }
    }
}

/// Whether a write of that many bytes from that address on writes KBDSIZE.
fn runs_over_size(first: u8, count: usize) -> bool {
    let first = usize::from(first);
    (first..first + count).contains(&KBDSIZE)
}
