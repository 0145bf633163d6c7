//! Lists of calls as they are carried, and what damages them.

use super::{Maker, ADDRESSES, LENGTHS, READS, WRITES};
use crate::calls::Call;
use crate::carry::pack;

/// How often one call stands in a list of nothing else.
const COUNTS: [usize; 16] = [0, 1, 2, 3, 4, 5, 7, 8, 9, 31, 32, 33, 256, 257, 288, 1024];

/// How many bits such a list has at most, so that it fits on a line.
const MOST_BITS: usize = 20_000;

/// How many bits the record of a call has.
pub(super) fn bits(call: &Call) -> usize {
    match call {
        Call::Reset => 2,
        Call::Look(samples) => 2 + 13 * samples.len(),
        Call::Write(_, bytes) => 15 + 8 * bytes.len(),
        Call::Read(..) => 15,
    }
}

/// The packed list of calls that fit.
pub(super) fn packed(calls: &[Call]) -> Vec<u8> {
    pack(calls, usize::MAX).unwrap_or_default()
}

// The calls.
impl Maker {
    /// A call that fits in a list. Some are declined when they are played.
    pub(super) fn some_call(&mut self) -> Call {
        match self.chance.below(26) {
            0..=10 => self.some_look(),
            11..=15 => {
                let (first, most) = self.chance.pick(&READS);
                Call::Read(first, self.chance.between(1, most))
            }
            16..=18 => {
                let (first, most) = self.chance.pick(&WRITES);
                let count = self.chance.between(1, most);
                Call::Write(first, self.some_bytes(first, count))
            }
            19 => Call::Look((0..8).map(|_| self.chance.bits() as u16 & 0x1FFF).collect()),
            20 => Call::Reset,
            21..=22 => self.some_pin_access(),
            _ => self.some_access(),
        }
    }

    /// A look with a contact or two that change.
    fn some_look(&mut self) -> Call {
        self.tap(9);
        Call::Look(self.samples().to_vec())
    }

    /// An access that fits in a list, at any address.
    fn some_access(&mut self) -> Call {
        let first =
            if self.chance.one_in(2) { self.chance.byte() } else { self.chance.pick(&ADDRESSES) };
        let count = if self.chance.one_in(2) {
            self.chance.pick(&[1, 2, 7, 8, 9, 31, 32])
        } else {
            self.chance.between(1, 32)
        };
        if self.chance.one_in(2) {
            Call::Read(first, count)
        } else {
            Call::Write(first, self.some_bytes(first, count))
        }
    }

    /// A call that mostly doesn't fit in a list.
    fn bad_call(&mut self) -> Call {
        let first = self.chance.pick(&ADDRESSES);
        match self.chance.below(5) {
            0 => Call::Read(first, self.chance.pick(&[0, 0, 33, 34, 64, 256, 257, 288, 1024])),
            1 => {
                let count = self.chance.pick(&LENGTHS);
                Call::Write(first, self.some_bytes(first, count))
            }
            2 => Call::Read(first, 0),
            _ => Call::Look(self.bad_samples()),
        }
    }

    /// The calls of a session that begins with a reset: most often settings, and what comes then.
    pub(super) fn some_calls(&mut self, count: usize) -> Vec<Call> {
        self.heed(&Call::Reset);
        let mut calls = Vec::new();
        while calls.len() < count {
            let call = if calls.is_empty() && !self.chance.one_in(4) {
                Call::Write(0x02, vec![self.chance.below(3) as u8, self.good_size()])
            } else {
                self.some_call()
            };
            self.heed(&call);
            calls.push(call);
        }
        calls
    }

    /// Calls of which nothing is made now: contacts and size stay as they are.
    pub(super) fn told(&mut self, calls: fn(&mut Maker) -> Vec<Call>) -> Vec<Call> {
        let before = (self.size, self.closed, self.bouncing);
        let calls = calls(self);
        (self.size, self.closed, self.bouncing) = before;
        calls
    }

    /// The calls of some session.
    pub(super) fn some_session(&mut self) -> Vec<Call> {
        let count = match self.chance.below(12) {
            0 => 0,
            1..=3 => 1,
            4..=9 => self.chance.between(2, 8),
            _ => self.chance.between(9, 40),
        };
        self.some_calls(count)
    }

    /// Calls for the writer: all fit, or one or two of them don't.
    pub(super) fn calls_to_pack(&mut self) -> Vec<Call> {
        let mut calls = self.some_session();
        let bad = if self.chance.one_in(2) { self.chance.between(1, 2) } else { 0 };
        for _ in 0..bad {
            let (place, call) = (self.chance.between(0, calls.len()), self.bad_call());
            calls.insert(place, call);
        }
        calls
    }

    /// A list of one thing again and again.
    pub(super) fn monotonous(&mut self) -> Vec<Call> {
        let count = self.chance.pick(&COUNTS);
        let call = match self.chance.below(4) {
            0 => Call::Look(vec![0; 8]),
            1 => self.some_call(),
            _ => Call::Reset,
        };
        let most = MOST_BITS / bits(&call);
        vec![call; count.min(most)]
    }
}

// Damage.
impl Maker {
    /// A list that is damaged, or just another one.
    pub(super) fn damaged(&mut self, calls: &[Call]) -> Vec<u8> {
        let mut list = packed(calls);
        let spare = 8 * list.len() - calls.iter().map(bits).sum::<usize>();
        match self.chance.below(12) {
            0..=1 => self.flip(&mut list, 0),
            2 => {
                let last = list.len().saturating_sub(1);
                self.flip(&mut list, last);
            }
            3 => list.truncate(self.chance.between(0, list.len())),
            4 => list.truncate(list.len().saturating_sub(1)),
            5 => list.push(0),
            6 => list.push(self.chance.byte()),
            7 => list.resize(list.len() + self.chance.between(1, 15), 0),
            8..=9 => self.fill(&mut list, spare),
            _ => {
                let resets = self.chance.between(0, spare / 2);
                // As many ones as resets have, before the bits that stay 0.
                set_low(&mut list, (1 << spare) - (1 << (spare - 2 * resets)));
            }
        }
        list
    }

    /// Turns a bit of the bytes from a place on.
    fn flip(&mut self, list: &mut [u8], from: usize) {
        if from < list.len() {
            list[self.chance.between(from, list.len() - 1)] ^= 1 << self.chance.below(8);
        }
    }

    /// Sets some of the bits behind the last record.
    fn fill(&mut self, list: &mut [u8], spare: usize) {
        set_low(list, self.chance.below(1 << spare));
    }

    /// Bytes that no writer has seen.
    pub(super) fn some_list(&mut self) -> Vec<u8> {
        match self.chance.below(3) {
            0 => vec![0; self.chance.between(0, 56)],
            1 => vec![self.chance.byte(); self.chance.below(30)],
            _ => (0..self.chance.below(40)).map(|_| self.chance.byte()).collect(),
        }
    }
}

/// Sets low bits of a list's last byte.
fn set_low(list: &mut [u8], bits: usize) {
    list.iter_mut().rev().take(1).for_each(|byte| *byte |= bits as u8);
}
