//! The key module, written from its rules (document 01) as plainly as they can be followed.
//!
//! Each key has the list of its samples since the restart, and changes when the last D of them
//! say so. A closed SF contact hides its row (document 02, E3): the row's other keys have no sample
//! in that look. Held keys, waiting codes and read picture registers are ordinary collections. There
//! is no unsound state, so number 8 is never given. A block (document 02, E2) is its single looks.
//! The spare pins (document 02, E6) stand apart: here are their calls, and what they share with the
//! keypad, its size and the interrupt line. After 255 quiet looks in a row it sleeps (document 02,
//! E7), and the next access only wakes it.

use crate::calls::{Calls, Driven, ASLEEP, PINS};
use crate::pins::Pins;
use std::collections::{BTreeSet, VecDeque};
use std::iter::successors;

const NO_KEY: u8 = 0x7F;
const ADDED: u8 = 128;
const SF: u8 = 12;
const EVTCODE: usize = 0x10;
const IRQST: usize = 0x91;

/// How many codes can wait.
const ROOM: usize = 15;

/// How many of a key's newest samples are kept. D is at most 255, so older ones are never asked.
const REMEMBERED: usize = 255;

/// After how many quiet looks in a row the module sleeps.
const QUIET: usize = 255;

/// A key, by its press code.
type Key = u8;

/// The module between two calls.
#[derive(Clone)]
pub struct Module {
    bounce: u8,
    size: u8,
    mask: u8,
    /// The samples of each key since the restart, oldest first, at the place of its press code. A
    /// look in which a key is hidden adds none to its list.
    samples: Vec<VecDeque<bool>>,
    held: BTreeSet<Key>,
    waiting: VecDeque<u8>,
    /// The picture registers (0 to 3) read since they were last forgotten.
    pictured: BTreeSet<usize>,
    rsint: bool,
    rklint: bool,
    relint: bool,
    porirq: bool,
    pins: Pins,
    /// How many quiet looks came in a row, with no access between them that was done.
    quiet: usize,
}

/// All keys by row, then by column.
fn keys() -> impl Iterator<Item = Key> {
    (0..8).flat_map(|row| (0..=SF).map(move |column| 16 * row + column))
}

/// The row of a key.
fn row(key: Key) -> u8 {
    key / 16
}

/// The column of a key.
fn column(key: Key) -> u8 {
    key % 16
}

/// Whether a key's contact is closed in a look.
fn closed(key: Key, list: &[u16]) -> bool {
    list[usize::from(row(key))] >> column(key) & 1 == 1
}

/// Whether the register at the address can be read.
fn readable(address: usize) -> bool {
    matches!(address, 0x02 | 0x03 | 0x06 | 0x07 | 0x09 | 0x0B..=0x0E | EVTCODE | IRQST)
        || Pins::readable(address)
}

/// Whether the register at the address can be written.
fn writable(address: usize) -> bool {
    matches!(address, 0x02 | 0x03 | 0x08 | 0x09 | 0x84) || Pins::writable(address)
}

/// Whether KBDSIZE can take the byte.
fn acceptable(size: u8) -> bool {
    (2..=8).contains(&(size / 16)) && (2..=12).contains(&(size % 16))
}

/// The addresses of a run. They rise by one, except at EVTCODE; past 0xFF none is known.
fn run(first: u8) -> impl Iterator<Item = usize> {
    successors(Some(usize::from(first)), |address| {
        Some(if *address == EVTCODE { EVTCODE } else { address + 1 })
    })
}

impl Module {
    /// A module after reset.
    pub fn new() -> Module {
        Module {
            bounce: 0x03,
            size: 0x22,
            mask: 0x03,
            samples: vec![VecDeque::new(); 128],
            held: BTreeSet::new(),
            waiting: VecDeque::new(),
            pictured: BTreeSet::new(),
            rsint: false,
            rklint: false,
            relint: false,
            porirq: true,
            pins: Pins::new(),
            quiet: 0,
        }
    }

    /// How many quiet looks came in a row.
    pub fn quiet(&self) -> usize {
        self.quiet
    }
}

impl Calls for Module {
    fn reset(&mut self) -> u8 {
        *self = Module::new();
        0
    }

    fn look(&mut self, list: &[u16]) -> u8 {
        let number = judge_look(list);
        if number == 0 {
            let seen = self.seen(list);
            self.remember(list, &seen);
            self.take(&self.changes(&seen));
        }
        number
    }

    fn looks(&mut self, list: &[u16]) -> (u8, usize) {
        if list.len() % 8 != 0 {
            return (1, 0);
        }
        let mut done = 0;
        for samples in list.chunks(8) {
            let number = self.look(samples);
            if number != 0 {
                return (number, done);
            }
            done += 1;
        }
        (0, done)
    }

    fn write(&mut self, first: u8, bytes: &[u8]) -> u8 {
        let number = self.awake(judge_write(first, bytes));
        if number == 0 {
            for (address, byte) in run(first).zip(bytes) {
                self.put(address, *byte);
            }
        }
        number
    }

    fn read(&mut self, first: u8, buffer: &mut [u8]) -> u8 {
        let number = self.awake(judge(first, buffer.len(), readable));
        if number == 0 {
            for (address, place) in run(first).zip(buffer) {
                *place = self.get(address);
            }
        }
        number
    }

    fn pins(&mut self, sample: u32) -> u8 {
        if sample >> PINS != 0 {
            return 26;
        }
        self.pins.sample(sample, self.size);
        0
    }

    fn held(&self, row: u8, column: u8) -> (u8, bool) {
        if row > 7 || column > 12 {
            return (7, false);
        }
        (0, self.held.contains(&(16 * row + column)))
    }

    fn interrupt(&self) -> (u8, bool) {
        (0, self.porirq || self.mis() != 0 || self.pins.interrupt())
    }

    fn drive(&self) -> (u8, Driven) {
        (0, self.pins.drive(self.size))
    }

    fn register(&self, address: u8) -> u8 {
        self.kept(address.into())
    }
}

/// The number of a look.
fn judge_look(list: &[u16]) -> u8 {
    if list.len() != 8 {
        1
    } else if list.iter().any(|sample| sample & 0xE000 != 0) {
        2
    } else {
        0
    }
}

/// The number of an access, apart from the bytes it carries.
fn judge(first: u8, length: usize, possible: fn(usize) -> bool) -> u8 {
    if length == 0 {
        3
    } else if length > 32 {
        4
    } else if !run(first).take(length).all(possible) {
        5
    } else {
        0
    }
}

/// The number of a write access.
fn judge_write(first: u8, bytes: &[u8]) -> u8 {
    let number = judge(first, bytes.len(), writable);
    let mut pairs = run(first).zip(bytes);
    let bad = pairs.any(|(address, byte)| address == 0x03 && !acceptable(*byte));
    if number == 0 && bad {
        6
    } else {
        number
    }
}

// Looks.
impl Module {
    /// Whether a key is in the size.
    fn in_size(&self, key: Key) -> bool {
        row(key) < self.size / 16 && (column(key) < self.size % 16 || column(key) == SF)
    }

    /// The keys that have a sample in this look, by row, then by column. An SF contact in the size
    /// that is closed hides the other keys of its row.
    fn seen(&self, list: &[u16]) -> Vec<Key> {
        let hides = |sf: Key| self.in_size(sf) && closed(sf, list);
        keys().filter(|key| column(*key) == SF || !hides(16 * row(*key) + SF)).collect()
    }

    /// Adds this look's sample to the list of each key that has one. Keys out of the size count as
    /// open.
    fn remember(&mut self, list: &[u16], seen: &[Key]) {
        for key in seen {
            let closed = closed(*key, list) && self.in_size(*key);
            let samples = &mut self.samples[usize::from(*key)];
            samples.push_back(closed);
            if samples.len() > REMEMBERED {
                samples.pop_front();
            }
        }
    }

    /// D, the number of samples that a change needs.
    fn needed(&self) -> usize {
        usize::from(self.bounce.max(1))
    }

    /// Whether a key has D samples and the last D are all the opposite of what it was.
    fn changes_now(&self, key: Key) -> bool {
        let samples = &self.samples[usize::from(key)];
        let was = self.held.contains(&key);
        let needed = self.needed();
        samples.len() >= needed && samples.iter().rev().take(needed).all(|closed| *closed != was)
    }

    /// The keys that change at this look, in the order in which they are taken. A key that has no
    /// sample in it is not among them.
    fn changes(&self, seen: &[Key]) -> Vec<Key> {
        let changes = |key: &Key| self.in_size(*key) && self.changes_now(*key);
        seen.iter().copied().filter(changes).collect()
    }

    /// Takes the changes of one look, sets the flags, and counts the look if it is quiet.
    fn take(&mut self, changes: &[Key]) {
        for key in changes {
            self.change(*key);
        }
        if !changes.is_empty() {
            self.rklint = self.rklint || self.rsint;
            self.rsint = true;
            self.pictured.clear();
        }
        let quiet = changes.is_empty() && !keys().any(|key| self.settles(key));
        self.quiet = if quiet { self.quiet + 1 } else { 0 };
    }

    /// Changes one key and puts its code in the queue.
    fn change(&mut self, key: Key) {
        if self.held.remove(&key) {
            self.enqueue(key + ADDED);
        } else {
            self.held.insert(key);
            self.enqueue(key);
        }
    }

    /// Puts a code in the queue, or drops it and sets RELINT if there is no room.
    fn enqueue(&mut self, code: u8) {
        if self.waiting.len() < ROOM {
            self.waiting.push_back(code);
        } else {
            self.relint = true;
        }
    }
}

// Sleep.
impl Module {
    /// Whether a key in the size settles behind a look: its newest sample is not as it is held. A
    /// hidden key goes by the newest one it has.
    fn settles(&self, key: Key) -> bool {
        let newest = self.samples[usize::from(key)].back();
        let differs = |closed: &bool| *closed != self.held.contains(&key);
        self.in_size(key) && newest.map_or(false, differs)
    }

    /// The number of an access that would be given this one awake: asleep it is 27. That wakes, and
    /// like an access that is done it ends the row of quiet looks.
    fn awake(&mut self, number: u8) -> u8 {
        let number = if self.quiet < QUIET { number } else { ASLEEP };
        if number == 0 || number == ASLEEP {
            self.quiet = 0;
        }
        number
    }
}

// Writes.
impl Module {
    /// What one byte written does.
    fn put(&mut self, address: usize, byte: u8) {
        match address {
            0x02 => self.bounce = byte,
            0x03 => self.put_size(byte),
            0x08 => self.put_clear(byte),
            0x09 => self.mask = byte % 16,
            0x84 if byte % 2 == 1 => self.porirq = false,
            0x84 => {}
            // The access was judged before: the registers of the pins are left.
            _ => self.pins.put(address, byte),
        }
    }

    /// KBDSIZE is written, which restarts. The pins keep all they have.
    fn put_size(&mut self, byte: u8) {
        self.size = byte;
        self.samples.iter_mut().for_each(VecDeque::clear);
        self.held.clear();
        self.waiting.clear();
        self.pictured.clear();
        (self.rsint, self.rklint, self.relint) = (false, false, false);
    }

    /// KBDIC is written.
    fn put_clear(&mut self, byte: u8) {
        if byte & 1 != 0 {
            (self.rsint, self.rklint) = (false, false);
        }
        if byte & 2 != 0 {
            self.relint = false;
        }
    }
}

// Reads.
impl Module {
    /// The byte that a register gives, and what reading it does.
    fn get(&mut self, address: usize) -> u8 {
        match address {
            0x0B..=0x0E => self.get_picture(address - 0x0B),
            EVTCODE => self.waiting.pop_front().unwrap_or(NO_KEY),
            _ => self.kept(address),
        }
    }

    /// The byte of a register that reading leaves as it is.
    fn kept(&self, address: usize) -> u8 {
        match address {
            0x02 => self.bounce,
            0x03 => self.size,
            0x06 => self.ris(),
            0x07 => self.mis(),
            0x09 => self.mask,
            IRQST => self.irqst(),
            // The access was judged before: the registers of the pins are left.
            _ => self.pins.get(address, self.size),
        }
    }

    /// KBDRIS: RELINT, REVTINT, RKLINT, RSINT from bit 3 down.
    fn ris(&self) -> u8 {
        let flags = [self.relint, !self.waiting.is_empty(), self.rklint, self.rsint];
        flags.iter().fold(0, |bits, flag| 2 * bits + u8::from(*flag))
    }

    /// KBDMIS: KBDRIS with the masked bits made 0.
    fn mis(&self) -> u8 {
        self.ris() & !self.mask
    }

    /// IRQST: PORIRQ in bit 7, the keypad in bit 6, the pins in bit 0.
    fn irqst(&self) -> u8 {
        let (keypad, pins) = (self.mis() != 0, self.pins.interrupt());
        128 * u8::from(self.porirq) + 64 * u8::from(keypad) + u8::from(pins)
    }

    /// KBDCODEn is read: its byte, and after that the clearing if all four have been read.
    fn get_picture(&mut self, n: usize) -> u8 {
        let byte = self.picture(n);
        self.pictured.insert(n);
        if self.pictured.len() == 4 {
            self.rsint = false;
            self.pictured.clear();
        }
        byte
    }

    /// What KBDCODEn holds.
    fn picture(&self, n: usize) -> u8 {
        match self.held.iter().nth(n) {
            Some(key) if self.held.len() > n + 1 => key + ADDED,
            Some(key) => *key,
            None => NO_KEY,
        }
    }
}
