//! The spare pins: lamps and switches on the pins that a size frees, and the registers for them.

use super::{Maker, LENGTHS};
use crate::calls::{Call, PINS};

/// The runs that can be read, by first address and length.
const READS: [(u8, usize); 8] =
    [(0x91, 1), (0xAA, 6), (0xC0, 1), (0xC2, 1), (0xC4, 1), (0xC6, 15), (0xD6, 6), (0xE0, 6)];

/// The runs that can be written, by first address and length; some are there more often.
const WRITES: [(u8, usize); 10] = [
    (0xAA, 6),
    (0xC0, 6),
    (0xC0, 21),
    (0xC6, 3),
    (0xC6, 15),
    (0xC9, 9),
    (0xD2, 3),
    (0xDC, 3),
    (0xE0, 6),
    (0xE0, 6),
];

/// Where runs begin and end, and what stands next to them.
const BESIDE: [u8; 30] = [
    0x90, 0x91, 0x92, 0xA7, 0xA9, 0xAA, 0xAF, 0xB0, 0xBF, 0xC0, 0xC1, 0xC2, 0xC3, 0xC4, 0xC5, 0xC6,
    0xD2, 0xD4, 0xD5, 0xD6, 0xD9, 0xDB, 0xDC, 0xDE, 0xDF, 0xE0, 0xE4, 0xE5, 0xE6, 0xE9,
];

/// Sizes that use few pins, all but a few, or all.
const SIZES: [u8; 16] = [
    0x22, 0x22, 0x33, 0x44, 0x24, 0x42, 0x82, 0x28, 0x88, 0x8A, 0x7B, 0x8B, 0x8C, 0x2B, 0x2C, 0x79,
];

/// A bit for each pin.
const ALL: u32 = (1 << PINS) - 1;

/// Bits that are no pins.
const HIGH: [u32; 7] = [1 << 19, 1 << 19, 1 << 20, 1 << 24, 1 << 31, 0xFFF8_0000, 0x0108_0000];

// The lines.
impl Maker {
    /// A byte for a pin register: for many of them most often all bits or none.
    pub(super) fn some_pin_byte(&mut self, address: usize) -> u8 {
        let (any, one) = (self.chance.byte(), 1 << self.chance.below(8));
        match address {
            // MASK and IE.
            0xC1 | 0xC3 | 0xC5 | 0xD2..=0xD4 => self.chance.pick(&[0xFF, 0xFF, 0xFF, any, one, 0]),
            // DIR and IBE.
            0xC6..=0xC8 | 0xCC..=0xCE => self.chance.pick(&[0, 0, any, any, one, 0xFF]),
            // IS.
            0xC9..=0xCB => self.chance.pick(&[0, 0, 0, 0, any, one, 0xFF]),
            // IEV, OME and OMS.
            0xCF..=0xD1 | 0xE0..=0xE5 => self.chance.pick(&[0xFF, any, any, 0]),
            // IC.
            0xDC..=0xDE => self.chance.pick(&[0xFF, any, any, one, one, 0]),
            _ => any,
        }
    }

    /// A part of a run.
    fn part(&mut self, (first, length): (u8, usize)) -> (u8, usize) {
        let start = if self.chance.one_in(2) { 0 } else { self.chance.below(length) };
        let most = length - start;
        let count = if self.chance.one_in(2) { most } else { self.chance.between(1, most) };
        (first + start as u8, count)
    }

    /// A sample of the pins.
    pub(super) fn say_pins(&mut self, sample: u32) {
        let words = vec!["pins".to_string(), self.hex(sample, 5)];
        self.say(words);
    }

    /// A sample of the pins as they are.
    fn sample(&mut self) {
        self.say_pins(self.levels);
    }

    /// The question which pins are driven.
    pub(super) fn ask_driven(&mut self) {
        self.say(vec!["drive".to_string()]);
    }

    /// Reads which edges are pending, and which of them are enabled.
    fn read_edges(&mut self) {
        let (first, count) = self.chance.pick(&[(0xD6, 3), (0xD6, 3), (0xD6, 6), (0xD9, 3)]);
        self.read(first, count);
    }

    /// Looks at something that tells how the pins stand.
    fn probe_pins(&mut self) {
        match self.chance.below(17) {
            0..=2 => self.ask_line(),
            3..=4 => self.read(0x91, 1),
            5..=8 => self.read_edges(),
            9..=11 => self.ask_driven(),
            12..=14 => {
                let first = self.chance.pick(&[0xC0, 0xC2, 0xC4]);
                self.read(first, 1);
            }
            _ => {
                let run = self.chance.pick(&READS);
                let (first, count) = self.part(run);
                self.read(first, count);
            }
        }
    }

    /// Writes a part of a run of registers, and now and then reads it back.
    fn set_pins(&mut self) {
        let run = self.chance.pick(&WRITES);
        let (first, count) = self.part(run);
        self.write_some(first, count);
        if self.chance.one_in(3) {
            self.read(first, count);
        }
    }

    /// An access to pin registers that fits in a list.
    pub(super) fn some_pin_access(&mut self) -> Call {
        if self.chance.one_in(3) {
            let (run, reads) = (self.chance.pick(&READS), self.chance.pick(&[0, 0, 0, 1, 2]));
            let (first, count) = self.part(run);
            return Call::Read(first, count + reads);
        }
        let run = self.chance.pick(&WRITES);
        let (first, count) = self.part(run);
        Call::Write(first, self.some_bytes(first, count))
    }

    /// Most often no pin can ask for the interrupt line any more.
    pub(super) fn hush_pins(&mut self) {
        match self.chance.below(8) {
            0..=3 => self.write(0xD2, &[0, 0, 0]),
            4..=5 => self.write(0xDC, &[0xFF, 0xFF, 0xFF]),
            _ => {}
        }
    }
}

// The levels.
impl Maker {
    /// A pin, most often one that the size frees.
    fn some_pin(&mut self) -> usize {
        let (rows, columns) = (usize::from(self.size >> 4), usize::from(self.size & 0x0F));
        let free: Vec<usize> = (rows..8).chain(8 + columns..PINS).collect();
        if free.is_empty() || self.chance.one_in(6) {
            self.chance.below(PINS)
        } else {
            self.chance.pick(&free)
        }
    }

    /// Levels change: most often one, or a few, or all, or none.
    fn turn_pins(&mut self) {
        let (some, few) = (self.chance.bits() as u32, self.chance.bits() as u32);
        self.levels ^= match self.chance.below(12) {
            0 => 0,
            1..=2 => ALL,
            3 => some & ALL,
            4 => some & few & ALL,
            _ => 1 << self.some_pin(),
        };
    }

    /// A sample with bits that are no pins. The levels in it may stay or go back.
    fn decline_sample(&mut self) {
        let (before, high) = (self.levels, self.chance.pick(&HIGH));
        self.turn_pins();
        self.say_pins(self.levels | high);
        if self.chance.one_in(2) {
            self.levels = before;
        }
        self.sample();
        self.read_edges();
    }
}

// The regime.
impl Maker {
    /// Sets a size, most often clears PORIRQ and what waits for the host, and sets some registers.
    pub(super) fn begin_pins(&mut self) {
        self.resize();
        if !self.chance.one_in(4) {
            self.write(0x84, &[1]);
        }
        if self.chance.one_in(2) {
            self.write(0x09, &[0x0F]);
        }
        let (first, count) = self.chance.pick(&[(0xC0, 21), (0xC6, 15), (0xD2, 3)]);
        self.write_some(first, count);
    }

    /// Pins move, are set, used by the keypad and freed, and the host looks at them.
    pub(super) fn use_pins(&mut self) {
        match self.chance.below(44) {
            0..=11 => self.move_pins(),
            12..=17 => self.set_pins(),
            18..=19 => self.clear_pins(),
            20..=22 => self.light(),
            23..=26 => self.resize_between(),
            27..=28 => self.decline_sample(),
            29..=34 => self.decline_pins(),
            35 => self.reset_between(),
            36 => self.mask(),
            37 => self.go_on_a_while(),
            38 => self.open_edges(),
            39..=42 => self.tread(),
            _ => self.ask_together(),
        }
        self.probe_pins();
    }

    /// A few samples, with levels that change.
    pub(super) fn move_pins(&mut self) {
        for _ in 0..self.chance.between(1, 3) {
            self.turn_pins();
            self.sample();
        }
    }

    /// A switch turns when no edge is pending, and the line is asked before and behind it.
    fn tread(&mut self) {
        if self.chance.one_in(3) {
            self.write(0x84, &[1]);
        }
        self.write(0xDC, &[0xFF; 3]);
        self.ask_line();
        self.turn_pins();
        self.sample();
        self.ask_line();
    }

    /// Every edge of an input counts from here on, and asks for the line.
    fn open_edges(&mut self) {
        self.write(0xC6, &[0; 6]);
        self.write(0xCC, &[0xFF; 9]);
        self.move_pins();
    }

    /// Clears edges, most often when some are pending.
    fn clear_pins(&mut self) {
        self.move_pins();
        let (first, count) = self.part((0xDC, 3));
        self.write_some(first, count);
        self.read_edges();
    }

    /// Lights lamps: data with their mask, and their direction, in either order.
    fn light(&mut self) {
        if self.chance.one_in(2) {
            self.write_some(0xC6, 3);
        }
        let (first, count) = self.chance.pick(&[(0xC0, 6), (0xC0, 2), (0xC2, 2), (0xC4, 2)]);
        self.write_some(first, count);
        if self.chance.one_in(3) {
            self.write_some(0xE0, 6);
        }
        self.ask_driven();
    }

    /// Writes a size, most often another one.
    fn resize(&mut self) {
        let some = self.good_size();
        let size = if self.chance.one_in(4) { some } else { self.chance.pick(&SIZES) };
        self.write(0x03, &[size]);
    }

    /// A size frees or takes pins between two samples.
    fn resize_between(&mut self) {
        self.turn_pins();
        self.sample();
        self.resize();
        match self.chance.below(3) {
            0 => self.ask_driven(),
            1 => self.read_edges(),
            _ => {}
        }
        self.turn_pins();
        self.sample();
        self.read_edges();
    }

    /// A reset between two samples, now and then with a declined one behind it.
    fn reset_between(&mut self) {
        self.reset();
        if self.chance.one_in(2) {
            self.resize();
        }
        if self.chance.one_in(2) {
            let high = self.chance.pick(&HIGH);
            self.say_pins(high);
        }
        self.turn_pins();
        self.sample();
        self.read_edges();
    }

    /// Behind a reset, keys and pins ask for the line together.
    fn ask_together(&mut self) {
        self.reset();
        self.write(0x02, &[1]);
        self.write(0xD2, &[0xFF; 3]);
        self.sample();
        self.touch();
        self.look();
        self.turn_pins();
        self.sample();
        self.read(0x91, 1);
    }

    /// An access that mostly can't be done: over the end of a run, or beside one.
    fn decline_pins(&mut self) {
        let first = self.chance.pick(&BESIDE);
        let count = match self.chance.below(6) {
            0 => self.chance.pick(&LENGTHS),
            1 => self.chance.between(1, 32),
            _ => self.chance.between(1, 3),
        };
        if self.chance.one_in(2) {
            self.read(first, count);
        } else {
            self.write_some(first, count);
        }
    }
}
