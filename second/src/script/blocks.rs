//! Blocks of looks: whole ones, ones that stop at a look, and ones that are no number of looks.

use super::direct::SF;
use super::Maker;
use crate::console::LONGEST;
use crate::typed::sampled;

/// The most looks that a line can hold, with samples of one digit: 1023.
const MOST: usize = (LONGEST - "looks".len()) / 16;

/// Words that are no samples.
const GARBLED: [&str; 6] = ["g", "0x1", "-1", "10000", "1FFFF", ";"];

// The lines.
impl Maker {
    /// A block of these samples.
    pub(super) fn say_block(&mut self, samples: &[u16]) {
        let words = self.sampled("looks", samples);
        self.say(words);
    }

    /// That many looks at the contacts as they are, in one block.
    pub(super) fn block(&mut self, count: usize) {
        let samples: Vec<u16> = (0..count).flat_map(|_| self.samples()).collect();
        self.say_block(&samples);
    }

    /// A block in which someone types.
    fn some_block(&mut self) {
        let count = self.some_count();
        let samples = self.typing(count);
        self.say_block(&samples);
    }

    /// A block that stops at a look, or that is no number of looks.
    pub(super) fn decline_block(&mut self) {
        let samples = if self.chance.one_in(3) { self.uneven() } else { self.spoiled() };
        self.say_block(&samples);
    }

    /// A block with a word that is no sample.
    fn garbled_block(&mut self) {
        let count = self.some_count().max(1);
        let samples = self.typing(count);
        let mut words = self.sampled("looks", &samples);
        let place = self.chance.between(1, words.len() - 1);
        words[place] = self.chance.pick(&GARBLED).to_string();
        self.say(words);
    }

    /// A block of hundreds of looks on a line of about the longest length. Half of them stop late.
    fn long_block(&mut self) {
        self.closed.iter_mut().for_each(|row| *row &= 0x000F);
        let some = self.chance.between(256, MOST);
        let count = self.chance.pick(&[MOST, some]);
        let mut samples = self.typing(count);
        samples.iter_mut().for_each(|sample| *sample &= 0x000F);
        self.hide_long(&mut samples);
        if self.chance.one_in(2) {
            let half = samples.len() / 2;
            self.spoil(&mut samples[half..]);
        }
        self.say_long(sampled("looks", &samples));
    }
}

// The samples.
impl Maker {
    /// How many looks a block has: most often a few, now and then hundreds.
    fn some_count(&mut self) -> usize {
        match self.chance.below(100) {
            0 => self.chance.pick(&[255, 256, 257, 300]),
            1..=8 => 0,
            9..=26 => 1,
            27..=35 => self.chance.between(9, 40),
            _ => self.chance.between(2, 8),
        }
    }

    /// The samples of that many looks, while keys go down and up, now and then many at once.
    fn typing(&mut self, count: usize) -> Vec<u16> {
        let stormy = self.chance.one_in(4);
        let look = |_| {
            match self.chance.below(4) {
                0 if stormy => self.flip_many(),
                0..=1 => self.tap(9),
                _ => {}
            }
            self.samples()
        };
        (0..count).flat_map(look).collect()
    }

    /// The samples of some looks, of which one or two have high bits.
    fn spoiled(&mut self) -> Vec<u16> {
        let count = self.some_count().max(1);
        let mut samples = self.typing(count);
        for _ in 0..self.chance.pick(&[1, 1, 2]) {
            self.spoil(&mut samples);
        }
        samples
    }

    /// Samples that are some looks and a part of one, half of them with high bits somewhere.
    fn uneven(&mut self) -> Vec<u16> {
        let count = self.some_count() + 1;
        let mut samples = self.typing(count);
        samples.truncate(samples.len() - self.chance.between(1, 7));
        if self.chance.one_in(2) {
            self.spoil(&mut samples);
        }
        samples
    }

    /// Closes an SF contact in some of the looks, one after the other. Such a sample has three digits
    /// more: as many fit on the line as there is room for, with one that is spoiled.
    fn hide_long(&mut self, samples: &mut [u16]) {
        let looks = samples.len() / 8;
        let room = (LONGEST - "looks".len() - 16 * looks) / 3;
        let count = self.chance.between(0, looks.min(room - 1));
        let (row, first) = (self.chance.below(8), self.chance.between(0, looks - count));
        samples.chunks_mut(8).skip(first).take(count).for_each(|look| look[row] |= SF);
    }

    /// Sets high bits in one of the first eight samples, of the last eight, or of all.
    pub(super) fn spoil(&mut self, samples: &mut [u16]) {
        let last = samples.len() - 1;
        let place = match self.chance.below(4) {
            0 => self.chance.below(8).min(last),
            1 => last - self.chance.below(8).min(last),
            _ => self.chance.between(0, last),
        };
        samples[place] |= self.high_bits();
    }
}

// The regime.
impl Maker {
    /// A block comes in, or the host serves the panel between two, and the panel goes on.
    pub(super) fn take_blocks(&mut self) {
        match self.chance.below(32) {
            0..=11 => self.some_block(),
            12..=17 => self.decline_block(),
            18 => self.block(1),
            19 => self.garbled_block(),
            20..=23 => self.serve(),
            24..=25 => self.drain(),
            26 => self.write_some(0x02, 1),
            27 => self.write_some(0x02, 2),
            28 if self.chance.one_in(2) => self.long_block(),
            _ => self.clear(),
        }
        self.go_on_a_while();
    }
}
