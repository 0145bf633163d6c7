//! Nights: nobody touches the panel until it sleeps, or nearly so, and then something stirs.

use super::direct::SF;
use super::{Maker, ADDRESSES, BAD_SIZES, WRITES};
use crate::calls::Call;

/// How many looks a night has: just too few to fall asleep, just enough, and more.
const NIGHTS: [usize; 14] = [200, 252, 253, 254, 254, 254, 255, 255, 255, 256, 256, 257, 260, 300];

/// Reads that can be done and take no code.
const CALM_READS: [(u8, usize); 6] =
    [(0x02, 2), (0x06, 1), (0x06, 2), (0x09, 1), (0x0B, 1), (0x91, 1)];

/// Writes that can be done and restart nothing.
const CALM_WRITES: [(u8, usize); 5] = [(0x08, 1), (0x09, 1), (0x84, 1), (0xC6, 3), (0xE0, 6)];

/// Pin samples with bits that are no pins.
const HIGH_SAMPLES: [u32; 3] = [0x80000, 0x80004, 0xFFFF_FFFF];

// How the panel is left.
impl Maker {
    /// Sets a small bounce, now and then with a size, and lets the contacts stand still until all keys
    /// are believed.
    fn leave(&mut self) {
        let (bounce, size) = (self.chance.pick(&[0, 1, 1, 2, 2, 3]), self.good_size());
        match self.chance.below(5) {
            0 => self.leave_direct(),
            1..=2 => self.leave_full(),
            3 => self.let_go(),
            _ => self.closed[7] ^= 0x0800,
        }
        match self.chance.below(6) {
            0 => self.write(0x02, &[bounce, size]),
            _ => self.write(0x02, &[bounce]),
        }
        self.stand_still();
        if self.chance.one_in(5) {
            self.leave_half();
        }
    }

    /// The contacts stand still for a few looks.
    fn stand_still(&mut self) {
        self.bouncing = [0; 8];
        self.look();
        self.wait(4);
    }

    /// Keys turn until many codes wait, most often as many as can.
    fn leave_full(&mut self) {
        self.write(0x02, &[1]);
        for _ in 0..4 {
            self.flip_many();
            self.look();
        }
    }

    /// A direct key is left down, with any contacts closed under it.
    fn leave_direct(&mut self) {
        let row = self.chance.below(self.rows());
        self.strike(row);
        self.closed[row] |= SF;
    }

    /// A key is half pressed or half let go when a direct key goes down in its row.
    fn leave_half(&mut self) {
        let (row, bounce) = (self.chance.below(self.rows()), self.chance.pick(&[2, 3, 3, 5]));
        self.closed[row] &= !SF;
        self.write(0x02, &[bounce]);
        self.stand_still();
        self.strike(row);
        self.bouncing = [0; 8];
        self.look();
        self.closed[row] |= SF;
        self.stand_still();
    }

    /// A contact turns for one look, and turns back.
    fn flicker(&mut self) {
        let before = self.closed;
        self.turn_one();
        self.closed = before;
        self.look();
    }

    /// A contact turns in a look, often that of a direct key.
    fn turn_one(&mut self) {
        if self.chance.one_in(3) {
            let row = self.chance.below(self.rows());
            self.closed[row] ^= SF;
        } else {
            self.touch();
        }
        self.bouncing = [0; 8];
        self.look();
    }
}

// The night.
impl Maker {
    /// A row of looks at contacts that stand still, in one piece or in a few.
    fn rest(&mut self) {
        let looks = self.chance.pick(&NIGHTS);
        match self.chance.below(12) {
            0..=1 => self.wait(looks),
            2 => self.block(looks),
            3 => self.rest_over_reset(looks),
            4..=8 => self.rest_around(looks),
            _ => self.rest_in_pieces(looks),
        }
    }

    /// That many looks at open contacts, and a reset somewhere between them.
    fn rest_over_reset(&mut self, looks: usize) {
        let before = self.chance.below(looks);
        self.closed = [0; 8];
        self.stand_still();
        self.wait(before);
        self.reset();
        self.wait(looks - before);
    }

    /// That many looks, with one thing between them or behind them, and an access that tells how it went.
    fn rest_around(&mut self, looks: usize) {
        let any = self.chance.between(1, looks);
        let before = self.chance.pick(&[any, looks - 1, looks]);
        self.rest_on(before);
        if self.chance.one_in(4) {
            self.disturb();
        } else {
            self.lull();
        }
        self.rest_on(looks - before);
        if self.chance.one_in(4) {
            self.turn_one();
        }
        self.ask_access();
    }

    /// That many looks, with something between them. Often the last look is a piece of its own.
    fn rest_in_pieces(&mut self, mut looks: usize) {
        while looks > 0 {
            let piece = match self.chance.below(4) {
                0 => looks,
                1..=2 if looks > 1 => looks - 1,
                _ => self.chance.between(1, looks),
            };
            self.rest_on(piece);
            self.lull();
            looks -= piece;
        }
    }

    /// A piece of the night.
    fn rest_on(&mut self, looks: usize) {
        match self.chance.below(4) {
            0 if looks < 4 => (0..looks).for_each(|_| self.look()),
            0..=1 if looks < 60 => self.block(looks),
            _ => self.wait(looks),
        }
    }

    /// Something that breaks no row of quiet looks.
    fn lull(&mut self) {
        match self.chance.below(28) {
            0..=1 => self.ask_held(),
            2..=3 => self.ask_line(),
            4..=5 => self.ask_driven(),
            6..=10 => self.move_pins(),
            11..=12 => {
                let sample = self.chance.pick(&HIGH_SAMPLES);
                self.say_pins(sample);
            }
            13..=14 => {
                let (mut samples, row) = (self.samples(), self.chance.below(8));
                samples[row] |= self.high_bits();
                self.say_look(&samples);
            }
            15 => self.decline_look(),
            16..=17 => self.say_block(&[]),
            18..=19 => self.spoil_rest(),
            _ => self.decline_surely(),
        }
    }

    /// Something that breaks the row.
    fn disturb(&mut self) {
        match self.chance.below(4) {
            0 => self.calm_read(),
            1..=2 => {
                let (first, count) = self.chance.pick(&CALM_WRITES);
                self.write_some(first, count);
            }
            _ => self.flicker(),
        }
    }

    /// An access, most often one that takes no code, or is declined awake, too.
    fn ask_access(&mut self) {
        match self.chance.below(8) {
            0..=2 => self.calm_read(),
            3..=5 => self.decline_surely(),
            6 => self.size_again(),
            _ => self.read_picture_apart(),
        }
    }

    /// A block of a few looks of the night that stops at one of them.
    fn spoil_rest(&mut self) {
        let count = self.chance.pick(&[1, 1, 2, 3, 5, 8]);
        let mut samples: Vec<u16> = (0..count).flat_map(|_| self.samples()).collect();
        self.spoil(&mut samples);
        self.say_block(&samples);
    }

    /// An access that is declined awake, too.
    fn decline_surely(&mut self) {
        let (first, length) = (self.chance.pick(&ADDRESSES), self.chance.pick(&[33, 34, 257, 288]));
        match self.chance.below(11) {
            0..=1 => self.read(first, 0),
            2..=3 => self.read(first, length),
            4 => self.write(first, &[]),
            5 => self.write_some(first, length),
            6 => self.read(0x00, 1),
            7 => self.write(0x06, &[0]),
            8..=9 => {
                let bad = self.chance.pick(&BAD_SIZES);
                self.write(0x03, &[bad]);
            }
            _ => self.decline_size(),
        }
    }

    /// A read that takes no code.
    fn calm_read(&mut self) {
        let (first, count) = self.chance.pick(&CALM_READS);
        self.read(first, count);
    }
}

// The morning.
impl Maker {
    /// Something that wakes the panel, or doesn't.
    fn stir(&mut self) {
        match self.chance.below(36) {
            0..=4 => {
                let looks = self.chance.pick(&[1, 1, 2, 3]);
                self.rest_on(looks);
            }
            5..=8 => self.calm_read(),
            9..=10 => self.fetch(),
            11..=13 => self.decline_surely(),
            14..=15 => self.size_again(),
            16 => {
                let (first, most) = self.chance.pick(&WRITES);
                let count = self.chance.between(1, most);
                self.write_some(first, count);
            }
            17 => {
                let access = self.some_pin_access();
                self.make(access);
            }
            18..=20 => self.lull(),
            21..=24 => self.turn_one(),
            25 => self.flicker(),
            26 => self.press(),
            27 => self.release(),
            28..=30 => self.reset(),
            31 => self.stir_in_block(),
            32 => self.play_night(),
            33..=34 => self.read_picture_apart(),
            _ => {
                self.read(0x10, 32);
                self.undo();
            }
        }
    }

    /// The four registers of the picture are read one by one, each once, and KBDRIS behind them.
    fn read_picture_apart(&mut self) {
        let first = self.chance.below(4);
        for n in 0..4 {
            self.read(0x0B + ((first + n) % 4) as u8, 1);
        }
        self.read(0x06, 1);
    }

    /// A size is written, and written again if it may have been declined.
    fn size_again(&mut self) {
        let size = self.good_size();
        self.write(0x03, &[size]);
        self.ask_held();
        if !self.chance.one_in(4) {
            self.write(0x03, &[size]);
        }
    }

    /// A block with a few quiet looks, and one in which a contact turns, and a few more.
    fn stir_in_block(&mut self) {
        let mut samples = Vec::new();
        for turns in [false, true, false] {
            if turns {
                self.touch();
                self.bouncing = [0; 8];
            }
            let looks = if turns { 1 } else { self.chance.below(4) };
            (0..looks).for_each(|_| samples.extend(self.samples()));
        }
        self.say_block(&samples);
    }

    /// A list is played in which a night goes by.
    fn play_night(&mut self) {
        self.bouncing = [0; 8];
        let mut calls = Vec::new();
        if !self.chance.one_in(3) {
            calls.push(Call::Write(0x02, vec![self.chance.below(3) as u8, self.good_size()]));
        }
        let looks = self.chance.pick(&NIGHTS) + self.chance.below(3);
        calls.resize(calls.len() + looks, Call::Look(self.samples().to_vec()));
        for _ in 0..self.chance.below(3) {
            calls.push(self.some_call());
        }
        self.play(&calls);
    }
}

// The regime.
impl Maker {
    /// The panel is left, most often; the night goes by, and in the morning things happen.
    pub(super) fn pass_night(&mut self) {
        if !self.chance.one_in(3) {
            self.leave();
        }
        match self.chance.below(6) {
            0 => self.flicker(),
            1 => self.decline_surely(),
            _ => self.calm_read(),
        }
        self.rest();
        for _ in 0..self.chance.between(1, 4) {
            self.stir();
        }
    }
}
