//! A module whose pins are counted by what happens to them.

use second::calls::{Calls, Driven, PINS};
use second::console::Console;
use second::module::Module;
use second::script::Line;
use std::cell::RefCell;
use std::collections::HashMap;
use std::rc::Rc;

/// What a call can be like.
#[derive(Clone, Copy, Debug, Eq, Hash, PartialEq)]
pub enum Kind {
    /// A sample that is done.
    Sampled,
    /// A sample makes an edge, and the interrupt line rises.
    LineRises,
    /// A sample makes an edge of a level that falls.
    Falling,
    /// A sample makes edges on all pins that are free, and they are more than one.
    Many,
    /// A sample makes an edge on a pin that the keypad used at the sample before.
    FreedTurns,
    /// Levels change of which one would make an edge if the keypad did not use its pin.
    UsedChanges,
    /// Levels change of which one would make an edge if its IS were 0.
    LevelChanges,
    /// The first sample after reset, with a level that is not as in the sample before the reset.
    First,
    /// The first sample after reset, with a free pin high.
    FirstHigh,
    /// A sample is declined.
    Declined,
    /// A sample is declined before the first one after reset.
    DeclinedFirst,
    /// A sample is declined in which a free pin is not as in the newest one.
    DeclinedChanges,
    /// A size is written that takes a pin whose edge is pending.
    TakenPending,
    /// A size is written that frees a pin, which is driven then.
    FreedDrives,
    /// What is driven is asked while the transistor of an open drain can't drive its pin.
    AgainstTransistor,
    /// What is driven is asked while the transistor of an open drain drives its pin.
    ByTransistor,
    /// GPIOIC is written, and an edge of its register stays pending.
    ClearLeaves,
    /// GPIOIC clears an edge.
    Clears,
    /// Edges are pending behind a call, and none is enabled.
    NoneEnabled,
    /// A write raises the interrupt line.
    EnableRaises,
    /// A read, or else a write, is given number 5 for the address at which it begins.
    Unknown(u8, bool),
    /// A read, or else a write, is given number 5 for an address that its run comes to.
    Crosses(u8, bool),
}

/// How many calls are of each kind.
pub type Counts = HashMap<Kind, usize>;

/// A module and what is known of its pins.
struct Watched {
    module: RefCell<Module>,
    /// The newest sample since reset, and the newest before the last reset.
    newest: Option<u32>,
    before_reset: Option<u32>,
    /// The pins that the keypad used at the newest sample.
    used: u32,
    /// MASK, which can't be read.
    mask: u32,
    counts: Rc<RefCell<Counts>>,
}

/// The pins that a keypad of that size uses.
fn used(size: u32) -> u32 {
    let columns = (size % 16).min(11);
    (1 << (size / 16)) - 1 + 256 * ((1 << columns) - 1)
}

/// A bit for each pin.
const ALL: u32 = (1 << PINS) - 1;

impl Watched {
    /// The bits of the pins in three registers, from an address on, so far apart.
    fn bits(&self, first: u8, apart: u8) -> u32 {
        let byte = |group| u32::from(self.register(first + apart * group)) << (8 * group);
        (0..3).map(byte).sum::<u32>() & ALL
    }

    /// The pins that the keypad uses now.
    fn used_now(&self) -> u32 {
        used(self.register(0x03).into())
    }

    /// The edges that are pending.
    fn edges(&self) -> u32 {
        self.bits(0xD6, 1)
    }

    /// Whether the interrupt line is asserted.
    fn line(&self) -> bool {
        self.module.borrow().interrupt().1
    }

    /// Counts a call as of these kinds.
    fn count(&self, kinds: &[(Kind, bool)]) {
        let mut counts = self.counts.borrow_mut();
        for (kind, _) in kinds.iter().filter(|(_, is)| *is) {
            *counts.entry(*kind).or_default() += 1;
        }
    }

    /// Counts what is so behind any call.
    fn count_pending(&self) {
        let (raw, enabled) = (self.edges(), self.bits(0xD9, 1));
        self.count(&[(Kind::NoneEnabled, raw != 0 && enabled == 0)]);
    }

    /// The changed levels that would make an edge if use and IS had no part in it.
    fn wanted(&self, sample: u32) -> u32 {
        let (both, rising) = (self.bits(0xCC, 1), self.bits(0xCF, 1));
        let changed = sample ^ self.newest.unwrap_or(sample);
        changed & !self.bits(0xC6, 1) & (both | !(sample ^ rising))
    }

    /// Counts a sample that is done.
    fn count_sample(&self, sample: u32, edges: u32, line: bool) {
        let (made, free) = (self.edges() & !edges, ALL & !self.used_now());
        let (wanted, level) = (self.wanted(sample), self.bits(0xC9, 1));
        let first = self.newest.is_none();
        let other = self.before_reset.map_or(false, |before| before != sample);
        self.count(&[
            (Kind::Sampled, true),
            (Kind::LineRises, made != 0 && !line && self.line()),
            (Kind::Falling, made & !sample != 0),
            (Kind::Many, made == free && made.count_ones() > 1),
            (Kind::FreedTurns, made & self.used != 0),
            (Kind::UsedChanges, wanted & !free & !level != 0),
            (Kind::LevelChanges, wanted & free & level != 0),
            (Kind::First, first && other),
            (Kind::FirstHigh, first && sample & free != 0),
        ]);
    }

    /// Counts a sample that is declined.
    fn count_declined(&self, sample: u32) {
        let changed = (sample ^ self.newest.unwrap_or(sample)) & ALL & !self.used_now();
        self.count(&[
            (Kind::Declined, true),
            (Kind::DeclinedFirst, self.newest.is_none()),
            (Kind::DeclinedChanges, changed != 0),
        ]);
    }

    /// The pins that are driven.
    fn driven(&self) -> u32 {
        let driven = self.module.borrow().drive().1;
        (0..PINS).filter(|pin| driven[*pin].is_some()).map(|pin| 1 << pin).sum()
    }

    /// Counts the question what is driven.
    fn count_driven(&self) {
        let enabled = self.bits(0xC6, 1) & self.mask & !self.used_now();
        let drains = enabled & self.bits(0xE0, 2);
        self.count(&[
            (Kind::AgainstTransistor, drains & !self.driven() != 0),
            (Kind::ByTransistor, drains & self.driven() != 0),
        ]);
    }

    /// Counts a write that is done, by what was before it.
    fn count_write(&self, first: u8, bytes: &[u8], before: (u32, u32, bool)) {
        let (used, edges, line) = before;
        let sized = first == 0x03 || first == 0x02 && bytes.len() == 2;
        let (taken, freed) = (self.used_now() & !used, used & !self.used_now());
        let cleared = edges & !self.edges();
        let run = usize::from(first)..usize::from(first) + bytes.len();
        let groups = (0..3).filter(|group| run.contains(&(0xDC + group)));
        let written = groups.map(|group| 0xFF << (8 * group)).sum::<u32>();
        self.count(&[
            (Kind::TakenPending, sized && taken & self.edges() != 0),
            (Kind::FreedDrives, sized && freed & self.driven() != 0),
            (Kind::Clears, cleared != 0),
            (Kind::ClearLeaves, written & self.edges() != 0),
            (Kind::EnableRaises, !sized && !line && self.line()),
        ]);
    }

    /// Keeps MASK in mind behind a write that is done.
    fn heed(&mut self, first: u8, bytes: &[u8]) {
        for (address, byte) in (u32::from(first)..).zip(bytes) {
            if let 0xC1 | 0xC3 | 0xC5 = address {
                let shift = 4 * (address - 0xC1);
                self.mask = self.mask & !(0xFF << shift) | u32::from(*byte) << shift;
            }
        }
    }

    /// Counts an access that is given number 5, by the first address that can't be accessed.
    fn count_unknown(&self, first: u8, length: usize, read: bool) {
        let last = usize::from(first) + length - 1;
        let mut run = (first..=last.min(0xFF) as u8).filter(|address| !is_known(*address, read));
        if let Some(unknown) = run.next() {
            let crosses = unknown != first;
            self.count(&[
                (Kind::Unknown(unknown, read), !crosses),
                (Kind::Crosses(unknown, read), crosses),
            ]);
        }
    }
}

/// Whether a register can be read or written alone.
fn is_known(address: u8, read: bool) -> bool {
    let mut module = Module::new();
    let number = if read { module.read(address, &mut [0]) } else { module.write(address, &[0x22]) };
    number == 0
}

impl Calls for Watched {
    fn reset(&mut self) -> u8 {
        (self.before_reset, self.newest) = (self.newest.or(self.before_reset), None);
        (self.used, self.mask) = (0, 0);
        self.module.borrow_mut().reset()
    }

    fn look(&mut self, list: &[u16]) -> u8 {
        self.module.borrow_mut().look(list)
    }

    fn looks(&mut self, list: &[u16]) -> (u8, usize) {
        self.module.borrow_mut().looks(list)
    }

    fn write(&mut self, first: u8, bytes: &[u8]) -> u8 {
        let before = (self.used_now(), self.edges(), self.line());
        let number = self.module.borrow_mut().write(first, bytes);
        match number {
            0 => {
                self.heed(first, bytes);
                self.count_write(first, bytes, before);
                self.count_pending();
            }
            5 => self.count_unknown(first, bytes.len(), false),
            _ => {}
        }
        number
    }

    fn read(&mut self, first: u8, buffer: &mut [u8]) -> u8 {
        let number = self.module.borrow_mut().read(first, buffer);
        if number == 5 {
            self.count_unknown(first, buffer.len(), true);
        }
        number
    }

    fn pins(&mut self, sample: u32) -> u8 {
        let (edges, line) = (self.edges(), self.line());
        let number = self.module.borrow_mut().pins(sample);
        if number == 0 {
            self.count_sample(sample, edges, line);
            (self.newest, self.used) = (Some(sample), self.used_now());
        } else {
            self.count_declined(sample);
        }
        self.count_pending();
        number
    }

    fn held(&self, row: u8, column: u8) -> (u8, bool) {
        self.module.borrow().held(row, column)
    }

    fn interrupt(&self) -> (u8, bool) {
        self.module.borrow().interrupt()
    }

    fn drive(&self) -> (u8, Driven) {
        self.count_driven();
        self.module.borrow().drive()
    }

    fn register(&self, address: u8) -> u8 {
        self.module.borrow().register(address)
    }
}

/// How many calls of a script are of each kind.
pub fn counts(script: &[Line]) -> Counts {
    let counts = Rc::new(RefCell::new(Counts::new()));
    let watched = Watched {
        module: RefCell::new(Module::new()),
        newest: None,
        before_reset: None,
        used: 0,
        mask: 0,
        counts: counts.clone(),
    };
    let mut console = Console::over(Box::new(watched));
    script.iter().for_each(|line| drop(console.answer(line)));
    drop(console);
    counts.take()
}
