//! The spare pins (document 02, E6): Genio0 to Genio18 as plain inputs and outputs, with document
//! 000's registers for them.
//!
//! A register's byte is kept whole under its address, and its bits are asked where they count. Which
//! pins the keypad uses is told by the size at that moment, so a used pin keeps all that it has.

use crate::calls::{Driven, PINS};
use std::array::from_fn;
use std::collections::{BTreeMap, BTreeSet};
use std::ops::Range;

/// The registers of one kind: for Genio0 to 7, for 8 to 15, and for 16 to 18.
type Bank = [usize; 3];

const DATA: Bank = [0xC0, 0xC2, 0xC4];
const MASK: Bank = [0xC1, 0xC3, 0xC5];
const DIR: Bank = [0xC6, 0xC7, 0xC8];
const IS: Bank = [0xC9, 0xCA, 0xCB];
const IBE: Bank = [0xCC, 0xCD, 0xCE];
const IEV: Bank = [0xCF, 0xD0, 0xD1];
const IE: Bank = [0xD2, 0xD3, 0xD4];
const OME: Bank = [0xE0, 0xE2, 0xE4];
const OMS: Bank = [0xE1, 0xE3, 0xE5];

/// The registers that are not 0 after reset, and their bytes.
const AFTER_RESET: [(usize, u8); 11] = [
    (0xAA, 0xAA),
    (0xAB, 0xAA),
    (0xAC, 0x55),
    (0xAD, 0x55),
    (0xAE, 0x15),
    (0xAF, 0x5A),
    (0xC8, 0x08),
    (0xCF, 0xFF),
    (0xD0, 0xFF),
    (0xD1, 0xFF),
    (0xE4, 0x08),
];

/// The pins and their registers between two calls.
#[derive(Clone)]
pub struct Pins {
    /// The bytes of the registers that keep one, by address. Those that are not here are 0.
    bytes: BTreeMap<usize, u8>,
    /// The pins whose edge is pending.
    edges: BTreeSet<usize>,
    /// The newest sample since reset, with a bit for each pin.
    newest: Option<u32>,
}

/// Whether a keypad of that size uses a pin. Its rows are Genio0 to 7, its columns Genio8 to 18.
fn is_used(pin: usize, size: u8) -> bool {
    let (rows, columns) = (usize::from(size / 16), usize::from(size % 16));
    if pin < 8 {
        pin < rows
    } else {
        pin - 8 < columns
    }
}

/// The level of a pin in a sample.
fn level(sample: u32, pin: usize) -> bool {
    sample >> pin & 1 == 1
}

/// The pins of a bank's register: eight, or the last three.
fn pins(group: usize) -> Range<usize> {
    8 * group..PINS.min(8 * group + 8)
}

/// The byte with a bit for each pin of a bank's register that is so.
fn byte(group: usize, is_so: impl Fn(usize) -> bool) -> u8 {
    pins(group).filter(|pin| is_so(*pin)).map(|pin| 1 << (pin % 8)).sum()
}

impl Pins {
    /// The pins after reset.
    pub fn new() -> Pins {
        Pins { bytes: AFTER_RESET.into(), edges: BTreeSet::new(), newest: None }
    }

    /// Whether the register at the address can be read.
    pub fn readable(address: usize) -> bool {
        let data = matches!(address, 0xC0 | 0xC2 | 0xC4);
        data || matches!(address, 0xAA..=0xAF | 0xC6..=0xD4 | 0xD6..=0xDB | 0xE0..=0xE5)
    }

    /// Whether the register at the address can be written.
    pub fn writable(address: usize) -> bool {
        matches!(address, 0xAA..=0xAF | 0xC0..=0xD4 | 0xDC..=0xDE | 0xE0..=0xE5)
    }

    /// What one byte written does.
    pub fn put(&mut self, address: usize, byte: u8) {
        match address {
            0xDC..=0xDE => self.clear(address - 0xDC, byte),
            _ => self.bytes.extend([(address, byte)]),
        }
    }

    /// The byte that a register gives under that size. Reading does nothing.
    pub fn get(&self, address: usize, size: u8) -> u8 {
        match address {
            0xC0 | 0xC2 | 0xC4 => byte((address - 0xC0) / 2, |pin| self.shows(pin, size)),
            0xD6..=0xD8 => byte(address - 0xD6, |pin| self.edges.contains(&pin)),
            0xD9..=0xDB => byte(address - 0xD9, |pin| self.asks(pin)),
            _ => self.kept(address),
        }
    }

    /// Takes a sample of the pins under that size.
    pub fn sample(&mut self, sample: u32, size: u8) {
        let edges: Vec<usize> = (0..PINS).filter(|pin| self.turns(*pin, sample, size)).collect();
        self.edges.extend(edges);
        self.newest = Some(sample);
    }

    /// Whether some edge that is pending is enabled.
    pub fn interrupt(&self) -> bool {
        (0..PINS).any(|pin| self.asks(pin))
    }

    /// Which pins are driven under that size, and their levels.
    pub fn drive(&self, size: u8) -> Driven {
        from_fn(|pin| self.drives(pin, size))
    }
}

// One pin.
impl Pins {
    /// The byte that a register keeps.
    fn kept(&self, address: usize) -> u8 {
        self.bytes.get(&address).copied().unwrap_or(0)
    }

    /// The bit of a pin in the registers of one kind.
    fn bit(&self, bank: Bank, pin: usize) -> bool {
        self.kept(bank[pin / 8]) >> (pin % 8) & 1 == 1
    }

    /// GPIOIC is written: a bit that is 1 clears the edge of its pin.
    fn clear(&mut self, group: usize, byte: u8) {
        self.edges.retain(|pin| pin / 8 != group || byte >> (pin % 8) & 1 == 0);
    }

    /// Whether a pin's edge is pending and enabled.
    fn asks(&self, pin: usize) -> bool {
        self.edges.contains(&pin) && self.bit(IE, pin)
    }

    /// Whether a sample makes an edge on a pin. Size and registers count as they are now, and the
    /// level before, whoever used the pin then.
    fn turns(&self, pin: usize, sample: u32, size: u8) -> bool {
        let is = level(sample, pin);
        let changed = self.newest.map_or(false, |before| level(before, pin) != is);
        let wanted = self.bit(IBE, pin) || self.bit(IEV, pin) == is;
        let input = !is_used(pin, size) && !self.bit(DIR, pin);
        changed && input && wanted && !self.bit(IS, pin)
    }

    /// Whether GPIODATA has a pin's bit set: that of an output is its data bit, that of an input its
    /// newest sample.
    fn shows(&self, pin: usize, size: u8) -> bool {
        let is = if self.bit(DIR, pin) {
            self.bit(DATA, pin)
        } else {
            self.newest.map_or(false, |sample| level(sample, pin))
        };
        is && self.bit(MASK, pin) && !is_used(pin, size)
    }

    /// The level that a pin is driven to, if it is. An open drain has one transistor, which drives
    /// one level only.
    fn drives(&self, pin: usize, size: u8) -> Option<bool> {
        let is = self.bit(DATA, pin);
        let can = !self.bit(OME, pin) || self.bit(OMS, pin) == is;
        let enabled = self.bit(DIR, pin) && self.bit(MASK, pin) && !is_used(pin, size);
        Some(is).filter(|_| enabled && can)
    }
}
