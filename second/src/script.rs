//! Random scripts in the console's language, each made from a seed.
//!
//! A script is a row of stretches of 50 to 400 lines. Each has a regime: typing, fingers on the
//! panel, a storm of changes, picture reading, patience under a long bounce, settings that churn,
//! registers at random, calls that are declined, lists that are carried, blocks of looks, direct keys
//! that hide their rows, lists of codes that are cut into undo groups, editing with a trim key, lamps
//! and switches on spare pins, nights in which the panel sleeps. All have their turn, in any order,
//! before they come again. The contacts and the pins go on from one stretch to the next.

mod blocks;
mod carry;
mod direct;
mod fingers;
mod lists;
mod pins;
mod sleep;
mod undo;

use crate::calls::Call;
use crate::chance::Chance;
use crate::malformed::Malformed;

/// A line without its newline.
pub type Line = Vec<u8>;

/// The lengths at which an access is tried, besides those that fit.
const LENGTHS: [usize; 10] = [0, 1, 2, 4, 15, 16, 32, 33, 257, 288];

/// The registers, and what stands next to them.
const ADDRESSES: [u8; 24] = [
    0x00, 0x01, 0x02, 0x03, 0x04, 0x05, 0x06, 0x07, 0x08, 0x09, 0x0A, 0x0B, 0x0C, 0x0D, 0x0E, 0x0F,
    0x10, 0x11, 0x83, 0x84, 0x85, 0xFE, 0xFF, 0x10,
];

/// Every read that can be done, by its first address and longest length.
const READS: [(u8, usize); 10] = [
    (0x02, 2),
    (0x03, 1),
    (0x06, 2),
    (0x07, 1),
    (0x09, 1),
    (0x0B, 4),
    (0x0C, 3),
    (0x0D, 2),
    (0x0E, 1),
    (0x10, 32),
];

/// Every write that can be done, by its first address and longest length.
const WRITES: [(u8, usize); 5] = [(0x02, 2), (0x03, 1), (0x08, 2), (0x09, 1), (0x84, 1)];

/// Sizes that are not acceptable, most of them only just.
const BAD_SIZES: [u8; 10] = [0x1C, 0x2D, 0x92, 0x81, 0x21, 0x12, 0x00, 0xFF, 0x9D, 0x20];

/// How a stretch begins, and one step of it.
type Regime = (fn(&mut Maker), fn(&mut Maker));

/// The regimes; those that are there twice are taken twice as often.
const REGIMES: [Regime; 26] = [
    (Maker::begin_typing, Maker::type_keys),
    (Maker::begin_typing, Maker::type_keys),
    (Maker::begin_fingers, Maker::move_fingers),
    (Maker::begin_fingers, Maker::move_fingers),
    (Maker::begin_storm, Maker::storm),
    (Maker::begin_storm, Maker::storm),
    (Maker::begin_pictures, Maker::see_pictures),
    (Maker::begin_patience, Maker::have_patience),
    (Maker::begin_patience, Maker::have_patience),
    (Maker::begin_typing, Maker::churn),
    (Maker::begin_pictures, Maker::try_registers),
    (Maker::begin_storm, Maker::be_declined),
    (Maker::begin_typing, Maker::carry),
    (Maker::begin_pictures, Maker::carry),
    (Maker::begin_typing, Maker::take_blocks),
    (Maker::begin_storm, Maker::take_blocks),
    (Maker::begin_direct, Maker::hide_rows),
    (Maker::begin_direct, Maker::hide_rows),
    (Maker::begin_typing, Maker::cut_lists),
    (Maker::begin_editing, Maker::edit),
    (Maker::begin_pins, Maker::use_pins),
    (Maker::begin_pins, Maker::use_pins),
    (Maker::begin_pins, Maker::use_pins),
    (Maker::begin_pins, Maker::use_pins),
    (Maker::begin_typing, Maker::pass_night),
    (Maker::begin_direct, Maker::pass_night),
];

/// Ways to quit.
const QUITS: [&str; 6] = ["quit", "quit", "quit\r", " quit", "\tquit \t", " quit \r"];

/// A script of that many lines. Of eight seeds one waits as long as can be in the script's last
/// tenth, with a direct key down, and one quits there.
pub fn script(seed: u64, count: usize) -> Vec<Line> {
    let mut maker = Maker::new(seed);
    while maker.lines.len() < count {
        maker.stretch();
    }
    maker.lines.truncate(count);
    match seed % 8 {
        2 => maker.put_late(&["press 0 SF", "wait 65535"]),
        3 => {
            let quit = maker.chance.pick(&QUITS);
            maker.put_late(&[quit]);
        }
        _ => {}
    }
    maker.lines
}

/// A script in the making.
struct Maker {
    chance: Chance,
    malformed: Malformed,
    lines: Vec<Line>,
    /// The places of the regimes that have their turn before all come again.
    turns: Vec<usize>,
    /// The size that is in force, as far as the script knows.
    size: u8,
    /// The contacts that are closed, and those that still bounce.
    closed: [u16; 8],
    bouncing: [u16; 8],
    /// The levels of the pins.
    levels: u32,
    /// The trim key.
    trim: (usize, u32),
}

// The stretches.
impl Maker {
    /// The beginning of a script.
    fn new(seed: u64) -> Maker {
        let mut chance = Chance::new(seed);
        let malformed = Malformed::new(&mut chance);
        Maker {
            chance,
            malformed,
            lines: Vec::new(),
            turns: Vec::new(),
            size: 0x22,
            closed: [0; 8],
            bouncing: [0; 8],
            levels: 0,
            trim: (0, 0),
        }
    }

    /// A regime whose turn it is.
    fn regime(&mut self) -> Regime {
        if self.turns.is_empty() {
            self.turns = (0..REGIMES.len()).collect();
        }
        let place = self.chance.below(self.turns.len());
        REGIMES[self.turns.swap_remove(place)]
    }

    /// One stretch of lines in one regime, with a few lines aside.
    fn stretch(&mut self) {
        let (begin, step) = self.regime();
        let end = self.lines.len() + self.chance.between(50, 400);
        self.hush_pins();
        begin(self);
        while self.lines.len() < end {
            step(self);
            self.aside();
        }
    }

    /// Puts lines in the place of others in the script's last tenth, if they fit there.
    fn put_late(&mut self, lines: &[&str]) {
        let last = self.lines.len() / 10;
        if last >= lines.len() {
            let first = self.lines.len() - last + self.chance.between(0, last - lines.len());
            let places = &mut self.lines[first..first + lines.len()];
            places.iter_mut().zip(lines).for_each(|(place, line)| *place = (*line).into());
        }
    }

    /// Now and then a line that has nothing to do with the regime.
    fn aside(&mut self) {
        if self.chance.one_in(9) {
            let line = self.malformed.line(&mut self.chance);
            self.lines.push(line);
        }
        match self.chance.below(40) {
            0 => self.undo(),
            1..=3 => self.ask_groups(),
            4..=5 => self.use_pins(),
            6 if self.chance.one_in(4) => self.pass_night(),
            _ => {}
        }
        if self.chance.one_in(250) {
            self.reset();
            for _ in 0..self.chance.below(3) {
                self.write_some(0x84, 1);
                self.ask_line();
            }
        }
    }

    /// Any acceptable size, often a large one.
    fn good_size(&mut self) -> u8 {
        match self.chance.below(6) {
            0 => 0x8C,
            1 => 0x22,
            2 => self.size,
            _ => (16 * self.chance.between(2, 8) + self.chance.between(2, 12)) as u8,
        }
    }

    /// A byte for KBDSIZE.
    fn some_size(&mut self) -> u8 {
        if self.chance.one_in(5) {
            self.chance.pick(&BAD_SIZES)
        } else {
            self.good_size()
        }
    }

    /// A byte for KBDBOUNCE, most often a small one.
    fn some_bounce(&mut self) -> u8 {
        match self.chance.below(12) {
            0 => self.chance.byte(),
            1..=2 => self.chance.between(4, 9) as u8,
            _ => self.chance.below(4) as u8,
        }
    }

    /// A byte for a register; for KBDSIZE most often an acceptable one.
    fn some_byte(&mut self, address: usize) -> u8 {
        match address {
            0x02 => self.some_bounce(),
            0x03 => self.some_size(),
            0x08 | 0x09 if self.chance.one_in(2) => self.chance.below(16) as u8,
            0x84 if self.chance.one_in(2) => self.chance.below(2) as u8,
            _ => self.some_pin_byte(address),
        }
    }
}

// The lines.
impl Maker {
    /// Adds a line of these words, now and then with odd blanks.
    fn say(&mut self, words: Vec<String>) {
        let mut line = String::new();
        if self.chance.one_in(80) {
            line.push_str(self.chance.pick(&[" ", "\t", " \t"]));
        }
        if self.chance.one_in(40) {
            line.push_str(&words.join(self.chance.pick(&["  ", "\t", " \t "])));
        } else {
            line.push_str(&words.join(" "));
        }
        if self.chance.one_in(40) {
            line.push_str(self.chance.pick(&[" ", "\t", "  ", "\r", " \r"]));
        }
        self.lines.push(line.into_bytes());
    }

    /// A hexadecimal number, now and then in another shape.
    fn hex(&mut self, value: u32, width: usize) -> String {
        match self.chance.below(30) {
            0 => format!("{value:X}"),
            1 => format!("{value:x}"),
            2 => format!("{value:0width$x}"),
            3 => format!("000{value:0width$X}"),
            _ => format!("{value:0width$X}"),
        }
    }

    /// A decimal number, now and then with zeros before it.
    fn decimal(&mut self, value: usize) -> String {
        if self.chance.one_in(30) {
            format!("00{value}")
        } else {
            value.to_string()
        }
    }

    /// The words of a call.
    fn typed(&mut self, call: &Call) -> Vec<String> {
        match call {
            Call::Reset => vec!["reset".to_string()],
            Call::Look(samples) => self.sampled("look", samples),
            Call::Write(first, bytes) => {
                let mut words = vec!["write".to_string(), self.hex((*first).into(), 2)];
                words.extend(bytes.iter().map(|byte| self.hex((*byte).into(), 2)));
                words
            }
            Call::Read(first, count) => {
                vec!["read".to_string(), self.hex((*first).into(), 2), self.decimal(*count)]
            }
        }
    }

    /// The words of a command with samples.
    fn sampled(&mut self, command: &str, samples: &[u16]) -> Vec<String> {
        let mut words = vec![command.to_string()];
        words.extend(samples.iter().map(|sample| self.hex((*sample).into(), 4)));
        words
    }

    /// Keeps the size in mind that is in force behind a call.
    fn heed(&mut self, call: &Call) {
        let size = match call {
            Call::Reset => 0x22,
            Call::Write(0x03, bytes) if bytes.len() == 1 => bytes[0],
            Call::Write(0x02, bytes) if bytes.len() == 2 => bytes[1],
            _ => return,
        };
        if (2..=8).contains(&(size >> 4)) && (2..=12).contains(&(size & 0x0F)) {
            self.size = size;
        }
    }

    /// A call.
    fn make(&mut self, call: Call) {
        let words = self.typed(&call);
        self.say(words);
        self.heed(&call);
    }

    /// A reset.
    fn reset(&mut self) {
        self.make(Call::Reset);
    }

    /// A look of these samples.
    fn say_look(&mut self, samples: &[u16]) {
        self.make(Call::Look(samples.to_vec()));
    }

    /// A write of these bytes.
    fn write(&mut self, first: u8, bytes: &[u8]) {
        self.make(Call::Write(first, bytes.to_vec()));
    }

    /// A read of that many bytes.
    fn read(&mut self, first: u8, count: usize) {
        self.make(Call::Read(first, count));
    }

    /// That many bytes that suit their registers.
    fn some_bytes(&mut self, first: u8, count: usize) -> Vec<u8> {
        let start = usize::from(first);
        (start..start + count).map(|address| self.some_byte(address)).collect()
    }

    /// A write of that many bytes that suit their registers.
    fn write_some(&mut self, first: u8, count: usize) {
        let bytes = self.some_bytes(first, count);
        self.write(first, &bytes);
    }

    /// A question for a key, most often in the size.
    fn ask_held(&mut self) {
        let (row, column) = if self.chance.one_in(6) {
            let row = if self.chance.one_in(8) { 255 } else { self.chance.below(10) };
            let column = if self.chance.one_in(8) { 255 } else { self.chance.below(16) };
            (row, column)
        } else {
            let (row, column) = self.some_key();
            (row, column as usize)
        };
        let words = vec!["held".to_string(), self.decimal(row), self.decimal(column)];
        self.say(words);
    }

    /// A question for the interrupt line.
    fn ask_line(&mut self) {
        self.say(vec!["irq".to_string()]);
    }
}

// The contacts.
impl Maker {
    /// A key, most often in the size.
    fn some_key(&mut self) -> (usize, u32) {
        if self.chance.one_in(12) {
            return (self.chance.below(8), self.chance.below(13) as u32);
        }
        let row = self.chance.below(usize::from(self.size >> 4));
        let columns = usize::from(self.size & 0x0F);
        if self.chance.one_in(6) {
            (row, 12)
        } else {
            (row, self.chance.below(columns) as u32)
        }
    }

    /// Presses or releases a key; its contact bounces for a while.
    fn touch(&mut self) {
        let (row, column) = self.some_key();
        self.closed[row] ^= 1 << column;
        self.bouncing[row] |= 1 << column;
    }

    /// Presses or releases up to two keys. If more than `most` are down then, all but a few are let go.
    fn tap(&mut self, most: u32) {
        for _ in 0..self.chance.below(3) {
            self.touch();
        }
        if self.count_closed() > most {
            self.let_go();
        }
    }

    /// Lets all keys go but a few.
    fn let_go(&mut self) {
        for row in 0..8 {
            let kept = self.chance.bits() & self.chance.bits() & self.chance.bits();
            self.closed[row] &= kept as u16;
        }
    }

    /// The keys whose contacts are closed.
    fn closed_keys(&self) -> Vec<(usize, u32)> {
        let keys = (0..8).flat_map(|row| (0..13).map(move |column| (row, column)));
        keys.filter(|(row, column)| self.closed[*row] >> column & 1 == 1).collect()
    }

    /// How many contacts are closed.
    fn count_closed(&self) -> u32 {
        self.closed.iter().map(|row| row.count_ones()).sum()
    }

    /// The samples of this moment, some of them of contacts that bounce.
    fn samples(&mut self) -> [u16; 8] {
        let mut samples = self.closed;
        for (row, sample) in samples.iter_mut().enumerate() {
            *sample ^= self.bouncing[row] & self.chance.bits() as u16;
            self.bouncing[row] &= self.chance.bits() as u16;
        }
        samples
    }

    /// A look at the contacts as they are.
    fn look(&mut self) {
        let samples = self.samples();
        self.say_look(&samples);
    }

    /// A few looks in a row, now and then in one block.
    fn looks(&mut self, most: usize) {
        let count = self.chance.between(1, most);
        if self.chance.one_in(12) {
            self.block(count);
        } else {
            (0..count).for_each(|_| self.look());
        }
    }
}

// What a host does.
impl Maker {
    /// Looks at something that tells how the module stands.
    fn probe(&mut self) {
        match self.chance.below(13) {
            0..=1 => self.read(0x06, 1),
            2 => self.read(0x07, 1),
            3..=4 => self.read(0x06, 2),
            5..=6 => self.ask_line(),
            7..=8 => self.ask_held(),
            9 => self.read(0x02, 2),
            10 => self.read(0x09, 1),
            11 => self.read(0x91, 1),
            _ => self.read(0x0B, 4),
        }
    }

    /// Fetches some codes.
    fn fetch(&mut self) {
        let count = self.chance.pick(&[1, 1, 1, 2, 3, 4, 8, 15, 16, 32]);
        self.read(0x10, count);
    }

    /// Fetches all codes, and sees which flags are left.
    fn drain(&mut self) {
        self.read(0x10, 32);
        self.read(0x06, 1);
        if self.chance.one_in(3) {
            self.read(0x0B, 4);
            self.read(0x06, 1);
        }
        if self.chance.one_in(2) {
            self.clear();
        }
    }

    /// Clears flags.
    fn clear(&mut self) {
        let low = self.chance.pick(&[0, 1, 1, 2, 2, 3, 3]);
        let high = if self.chance.one_in(4) { self.chance.byte() & 0xFC } else { 0 };
        self.write(0x08, &[low | high]);
    }

    /// Sets the mask, or clears PORIRQ.
    fn mask(&mut self) {
        match self.chance.below(4) {
            0 => self.write(0x84, &[1]),
            1 => self.write_some(0x84, 1),
            _ => self.write_some(0x09, 1),
        }
    }

    /// What an interrupt routine does, or part of it.
    fn serve(&mut self) {
        self.ask_line();
        self.read(0x06, 2);
        self.fetch();
        if self.chance.one_in(2) {
            self.clear();
            self.read(0x06, 1);
        }
        self.ask_line();
    }
}

// The regimes.
impl Maker {
    /// Sets some size and a small bounce.
    fn begin_typing(&mut self) {
        let bytes = [self.chance.between(0, 4) as u8, self.good_size()];
        match self.chance.below(3) {
            0 => self.write(0x02, &bytes),
            1 => self.write(0x02, &bytes[..1]),
            _ => self.write(0x03, &bytes[1..]),
        }
        self.let_go();
    }

    /// A few keys go down and up, and the host keeps up with them.
    fn type_keys(&mut self) {
        self.tap(6);
        self.looks(4);
        match self.chance.below(6) {
            0..=1 => self.serve(),
            2 => self.fetch(),
            3 => self.mask(),
            _ => self.probe(),
        }
    }

    /// Sets a large size and hardly any bounce.
    fn begin_storm(&mut self) {
        let size = self.chance.pick(&[0x8C, 0x8C, 0x88, 0x4C, 0x84, 0x33, self.size]);
        let bounce = self.chance.pick(&[0, 1, 1, 2]);
        self.write(0x02, &[bounce]);
        self.write(0x03, &[size]);
    }

    /// Many keys change at once, and the host is slow to fetch.
    fn storm(&mut self) {
        self.flip_many();
        self.looks(2);
        match self.chance.below(10) {
            0..=1 => self.fetch(),
            2 => {
                self.drain();
                self.undo();
            }
            3 => self.serve(),
            4 => self.clear(),
            5 => {
                self.read(0x0B, 4);
                self.read(0x06, 1);
            }
            6 => self.turn_some(),
            _ => self.probe(),
        }
    }

    /// Any number of keys turn at once when no code waits, and all their codes are fetched.
    fn turn_some(&mut self) {
        self.read(0x10, 32);
        for _ in 0..self.chance.between(1, 16) {
            self.touch();
        }
        self.bouncing = [0; 8];
        self.look();
        self.look();
        self.read(0x10, 32);
    }

    /// Turns the contacts of many keys. Direct keys seldom go down, and soon up again.
    fn flip_many(&mut self) {
        let wild = self.chance.one_in(2);
        for row in 0..8 {
            let mut flips = self.chance.bits() & self.chance.bits() & 0x0FFF;
            if wild && self.chance.one_in(2) {
                flips &= self.chance.bits() & self.chance.bits();
            }
            if self.chance.one_in(3) {
                self.closed[row] ^= flips as u16;
            }
            let down = self.closed[row] >> 12 == 1;
            if self.chance.one_in(if down { 4 } else { 32 }) {
                self.closed[row] ^= 1 << 12;
            }
        }
    }

    /// Sets some size and no bounce, and lets most keys go.
    fn begin_pictures(&mut self) {
        let size = self.good_size();
        self.write(0x02, &[1, size]);
        self.let_go();
    }

    /// Up to six keys are held, and the host reads the picture in pieces.
    fn see_pictures(&mut self) {
        if self.chance.one_in(4) {
            self.touch();
        }
        if self.count_closed() > 6 {
            self.let_go();
        }
        if self.chance.one_in(2) {
            self.look();
        }
        for _ in 0..self.chance.between(1, 5) {
            let n = self.chance.below(4);
            let count = self.chance.between(1, 4 - n);
            let count = if self.chance.one_in(2) { 1 } else { count };
            self.read(0x0B + n as u8, count);
            if self.chance.one_in(8) {
                self.look();
            }
        }
        self.read(0x06, 1);
        match self.chance.below(12) {
            0 => self.clear(),
            1 => self.probe(),
            2 => self.read(0x0B, 5),
            3 => self.fetch(),
            _ => {}
        }
    }

    /// Sets a long bounce, and lets contacts stand still just as long.
    fn begin_patience(&mut self) {
        let bounce: usize = self.chance.pick(&[255, 255, 255, 254, 128, 60, 20, 12, 7]);
        let size = self.good_size();
        self.write(0x02, &[bounce as u8, size]);
        if !self.chance.one_in(4) {
            self.open_direct();
        }
        self.touch();
        self.bouncing = [0; 8];
        match self.chance.below(6) {
            0..=2 => {
                let looks = self.chance.pick(&[bounce - 2, bounce - 2, 256, 300]);
                self.look();
                self.wait(looks);
            }
            3 => self.block(bounce - 1),
            _ => (1..bounce).for_each(|_| self.look()),
        }
        self.read(0x10, 1);
        if self.chance.one_in(3) {
            self.hide_all();
            self.read(0x10, 1);
        }
        self.look();
        self.read(0x10, 1);
    }

    /// Contacts stand still for long, and the bounce is now and then cut short.
    fn have_patience(&mut self) {
        if self.chance.one_in(4) {
            self.wait_some();
        } else {
            self.looks(30);
        }
        match self.chance.below(12) {
            0..=1 => self.touch(),
            2 => self.write_some(0x02, 1),
            3..=4 => self.read(0x10, 1),
            5 => self.fetch(),
            6..=7 => self.probe(),
            _ => {}
        }
    }

    /// Size and bounce change while keys are held and settle.
    fn churn(&mut self) {
        if self.chance.one_in(2) {
            self.touch();
        }
        if self.count_closed() > 9 {
            self.let_go();
        }
        self.looks(4);
        match self.chance.below(12) {
            0..=3 => self.write_some(0x02, 1),
            4 => self.write_some(0x02, 2),
            5 => self.write_some(0x03, 1),
            6 => self.write(0x03, &[self.size]),
            _ => {}
        }
        if self.chance.one_in(2) {
            self.looks(2);
        }
        match self.chance.below(3) {
            0 => self.fetch(),
            1 => self.probe(),
            _ => {}
        }
    }

    /// Reads and writes of all registers and runs of registers.
    fn try_registers(&mut self) {
        if self.chance.one_in(3) {
            self.touch();
            self.look();
        }
        let (first, most) = self.chance.pick(&READS);
        let count = self.chance.between(1, most);
        self.read(first, count);
        if self.chance.one_in(2) {
            let (first, most) = self.chance.pick(&WRITES);
            let count = self.chance.between(1, most);
            self.write_some(first, count);
        }
        if self.chance.one_in(3) {
            self.probe();
        }
    }

    /// Calls that are declined, among calls that show what they have done.
    fn be_declined(&mut self) {
        if self.chance.one_in(2) {
            self.touch();
            self.look();
        }
        match self.chance.below(9) {
            0..=1 => self.decline_look(),
            2..=3 => self.decline_read(),
            4..=5 => self.decline_write(),
            6 => self.decline_size(),
            7 => self.decline_block(),
            _ => self.ask_held(),
        }
        match self.chance.below(6) {
            0 => self.fetch(),
            1..=3 => self.probe(),
            4 => self.wait_some(),
            _ => {}
        }
    }

    /// A look that is not eight samples, or with high bits.
    fn decline_look(&mut self) {
        let samples = self.bad_samples();
        self.say_look(&samples);
    }

    /// Samples that are mostly not eight, or have high bits.
    fn bad_samples(&mut self) -> Vec<u16> {
        let mut list = self.samples().to_vec();
        if self.chance.one_in(2) {
            let count = self.chance.pick(&[0, 1, 7, 8, 9, 16, 264]);
            list = list.into_iter().cycle().take(count).collect();
            if count > 0 && self.chance.one_in(4) {
                let place = self.chance.below(count);
                list[place] |= 0x2000;
            }
        } else {
            let row = self.chance.below(8);
            list[row] |= self.high_bits();
        }
        list
    }

    /// Bits that no sample has.
    fn high_bits(&mut self) -> u16 {
        self.chance.pick(&[0x2000, 0x4000, 0x8000, 0xE000])
    }

    /// A read that mostly can't be done.
    fn decline_read(&mut self) {
        let first = match self.chance.below(8) {
            0 => self.chance.byte(),
            1..=4 => self.chance.pick(&ADDRESSES),
            5 => 0x0B,
            _ => 0x10,
        };
        let count = match self.chance.below(5) {
            0..=2 => self.chance.pick(&LENGTHS),
            3 => self.chance.between(1, 6),
            _ => self.chance.below(41),
        };
        self.read(first, count);
    }

    /// A write that mostly can't be done.
    fn decline_write(&mut self) {
        let first = match self.chance.below(8) {
            0 => self.chance.byte(),
            1..=4 => self.chance.pick(&ADDRESSES),
            _ => self.chance.pick(&WRITES).0,
        };
        let count = match self.chance.below(5) {
            0..=1 => self.chance.pick(&LENGTHS),
            2..=3 => self.chance.between(1, 4),
            _ => self.chance.below(41),
        };
        self.write_some(first, count);
    }

    /// A write of a size that is not acceptable, or that stands in a run that can't be written.
    fn decline_size(&mut self) {
        let (bounce, bad) = (self.some_bounce(), self.chance.pick(&BAD_SIZES));
        let (good, more) = (self.good_size(), self.chance.byte());
        match self.chance.below(6) {
            0 => self.write(0x03, &[bad]),
            1 => self.write(0x02, &[bounce, bad]),
            2 => self.write(0x03, &[bad, more]),
            3 => self.write(0x03, &[good, more]),
            4 => self.write(0x02, &[bounce, bad, more]),
            _ => self.write(0x02, &[bounce, good, more]),
        }
    }
}
