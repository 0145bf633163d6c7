//! Undo groups: lists of codes that are asked for, and sessions with a trim key whose codes are
//! fetched and drawn.

use super::carry::list_line;
use super::Maker;
use crate::calls::Call;
use crate::fetched::KEPT;
use crate::typed::spaced;
use crate::undo::{groups, Stand};

/// What a release has more than the press of its key.
const RELEASE: u8 = 128;

/// Words that are no codes.
const GARBLED: [&str; 8] = ["g", "0x1", "-1", "100", "1FF", ";", ":", "3C:"];

/// How many codes a line can hold, two digits each.
const MOST: usize = 5450;

/// As many keys as there is room for in the queue.
const QUEUE: usize = 15;

// The codes.
impl Maker {
    /// The press of some key, often of the first one or of a direct one.
    fn some_press(&mut self) -> u8 {
        let (row, column) = (self.chance.below(8), self.chance.below(13));
        let key = match self.chance.below(8) {
            0 => 0x00,
            1 => 16 * row + 12,
            _ => 16 * row + column,
        };
        key as u8
    }

    /// The press of a trim key, and that many codes of keys that go down and up, one in so many of
    /// that one.
    fn turns(&mut self, length: usize, rarity: usize) -> (u8, Vec<u8>) {
        let (trim, count) = (self.some_press(), self.chance.between(1, 6));
        let others: Vec<u8> = (0..count).map(|_| self.some_press()).collect();
        let mut down = Vec::new();
        let code = |_| {
            let key = if self.chance.one_in(rarity) { trim } else { self.chance.pick(&others) };
            turned(&mut down, key)
        };
        (trim, (0..length).map(code).collect())
    }

    /// How many codes a list has: most often a few, now and then hundreds.
    fn some_length(&mut self) -> usize {
        match self.chance.below(16) {
            0 => 0,
            1..=7 => self.chance.between(1, 8),
            8..=14 => self.chance.between(9, 40),
            _ => self.chance.between(41, 900),
        }
    }

    /// A trim key and a list: as keys make it, spoiled at a place or two, or of any bytes.
    fn some_codes(&mut self) -> (u8, Vec<u8>) {
        let length = self.some_length();
        let rarity = self.chance.pick(&[2, 3, 4, 8, 1 + length / 3]);
        let (trim, mut codes) = self.turns(length, rarity);
        match self.chance.below(12) {
            0..=2 => {
                for _ in 0..self.chance.between(1, 2) {
                    self.spoil_code(&mut codes);
                }
            }
            3 => codes.iter_mut().for_each(|code| *code = self.chance.byte()),
            4 => codes = (0..length).map(|_| self.some_press()).collect(),
            _ => {}
        }
        (self.some_trim(trim), codes)
    }

    /// Drops or doubles a code, swaps two, or makes another of one.
    fn spoil_code(&mut self, codes: &mut Vec<u8>) {
        let length = codes.len();
        if length == 0 {
            return;
        }
        let place = self.chance.below(length);
        match self.chance.below(7) {
            0 => drop(codes.remove(place)),
            1 => codes.insert(place, codes[place]),
            2 => codes.swap(place, self.chance.below(length)),
            3 => codes.swap(place, (place + 1) % length),
            4 => codes[place] ^= RELEASE,
            5 => codes[place] = self.no_code(codes[place]),
            _ => codes[place] = self.chance.byte(),
        }
    }

    /// A code in a column that has no key.
    fn no_code(&mut self, code: u8) -> u8 {
        match self.chance.below(4) {
            0 => 0x7F,
            1 => 0xFF,
            _ => code & 0xF0 | self.chance.between(13, 15) as u8,
        }
    }

    /// The trim key, or another one, or now and then what is no press of a key.
    fn some_trim(&mut self, trim: u8) -> u8 {
        match self.chance.below(24) {
            0 => self.no_code(trim),
            1 => trim + RELEASE,
            2 => self.chance.byte(),
            3 => self.some_press(),
            _ => trim,
        }
    }

    /// A place of a list: where a group begins or beside it, anywhere, at the end, or beyond.
    fn some_place(&mut self, trim: u8, codes: &[u8]) -> usize {
        let length = codes.len();
        match self.chance.below(32) {
            0 => 0,
            1..=2 => length,
            3 => length + 1,
            4 => length + self.chance.between(1, 300),
            5 => self.chance.pick(&[256, 65_536]) + self.chance.between(0, length),
            6 => self.chance.pick(&[256, 65_536, 999_999]),
            7..=11 => self.chance.between(0, length),
            _ => {
                let start = self.some_start(trim, codes);
                let beside = [start, start, start, start + 1, start.saturating_sub(1)];
                self.chance.pick(&beside)
            }
        }
    }

    /// Where a group of the list begins, often the last or one that the trim key opens.
    fn some_start(&mut self, trim: u8, codes: &[u8]) -> usize {
        let groups = groups(trim, codes).unwrap_or_default();
        let mut starts: Vec<usize> = groups.into_iter().filter_map(first).collect();
        match self.chance.below(4) {
            0 => starts.drain(..starts.len().saturating_sub(1)).for_each(drop),
            1..=2 => starts.retain(|start| codes[*start] == trim),
            _ => {}
        }
        if starts.is_empty() {
            0
        } else {
            self.chance.pick(&starts)
        }
    }
}

/// The first place of a group.
fn first(stand: Stand) -> Option<usize> {
    match stand {
        Stand::Group(first, _) | Stand::Open(first) => Some(first),
        Stand::End => None,
    }
}

/// A key goes down if it is up, and up if it is down: its code.
fn turned(down: &mut Vec<u8>, key: u8) -> u8 {
    match down.iter().position(|other| *other == key) {
        Some(place) => down.swap_remove(place) + RELEASE,
        None => {
            down.push(key);
            key
        }
    }
}

// The lines.
impl Maker {
    /// A command about a list, up to where the list begins.
    fn asking(&mut self, command: &str, trim: u8, codes: &[u8]) -> Vec<String> {
        let (rule, place) = (self.decimal(1), self.some_place(trim, codes));
        let (trim, place) = (self.hex(trim.into(), 2), self.decimal(place));
        match command {
            "undo" => vec![command.to_string(), trim, ":".to_string()],
            "groups" => vec![command.to_string(), rule, trim],
            _ => vec![command.to_string(), rule, trim, place],
        }
    }

    /// A few questions for one list, now and then with a word that is none.
    pub(super) fn ask_groups(&mut self) {
        let (trim, codes) = self.some_codes();
        for _ in 0..self.chance.between(1, 4) {
            let command = self.chance.pick(&["group", "group", "group", "groups", "fetch", "undo"]);
            let mut words = self.asking(command, trim, &codes);
            words.extend(codes.iter().map(|code| self.hex((*code).into(), 2)));
            if self.chance.one_in(40) {
                let place = self.chance.between(1, words.len() - 1);
                words[place] = self.chance.pick(&GARBLED).to_string();
            }
            self.say(words);
        }
    }

    /// A question for a list of thousands of codes, on a line of about the longest length.
    fn ask_long(&mut self) {
        let command = self.chance.pick(&["group", "groups", "fetch", "undo"]);
        let length = self.chance.between(MOST - 1000, MOST);
        let rarity = self.chance.pick(&[3, 50, 500, 2000]);
        let (trim, codes) = self.turns(length, rarity);
        let words = self.asking(command, trim, &codes);
        self.say_long(words.join(" ") + &spaced(&codes));
    }

    /// The codes that were fetched are drawn, most often for the trim key or one that is down.
    pub(super) fn undo(&mut self) {
        let down = self.closed_keys();
        let (row, column) = match self.chance.below(8) {
            0 => self.some_key(),
            1..=2 if !down.is_empty() => self.chance.pick(&down),
            _ => self.trim,
        };
        let trim = self.some_trim((16 * row) as u8 + column as u8);
        let words = vec!["undo".to_string(), self.hex(trim.into(), 2)];
        self.say(words);
    }
}

// The regimes.
impl Maker {
    /// Lists are asked for while the panel goes on.
    pub(super) fn cut_lists(&mut self) {
        match self.chance.below(40) {
            0..=29 => self.ask_groups(),
            30..=31 => self.ask_long(),
            _ => self.go_on_a_while(),
        }
    }

    /// Sets some size, a small bounce and a trim key. Half the time very many codes are fetched first.
    pub(super) fn begin_editing(&mut self) {
        if self.chance.one_in(2) {
            self.fetch_many();
        }
        self.begin_typing();
        self.trim = self.some_key();
    }

    /// The trim key and others go down and up, the host fetches their codes, and they are drawn.
    pub(super) fn edit(&mut self) {
        match self.chance.below(32) {
            0..=8 => self.turn_trim(),
            9..=14 => self.press(),
            15..=20 => self.release(),
            21..=23 => self.type_keys(),
            24 => self.decline_read(),
            25 => self.write_some(0x02, 1),
            26 => self.probe(),
            27 => self.restart(),
            _ => {}
        }
        match self.chance.below(4) {
            0..=1 => self.read(0x10, 15),
            2 => self.fetch(),
            _ => {}
        }
        if self.chance.one_in(2) {
            self.undo();
        }
    }

    /// The trim key goes down or up.
    fn turn_trim(&mut self) {
        let (row, column) = self.trim;
        if self.closed[row] >> column & 1 == 0 {
            self.press_at(row, column);
        } else {
            self.release_at(row, column);
        }
    }

    /// A restart, or what looks like one. What was fetched before is drawn, or nothing.
    fn restart(&mut self) {
        match self.chance.below(8) {
            0..=1 => self.write_some(0x03, 1),
            2..=3 => self.write_some(0x02, 2),
            4 => self.decline_size(),
            5 => self.reset(),
            6 => self.play_some(),
            _ => self.play_damaged(),
        }
        self.undo();
    }

    /// Fetches as many codes as are kept since a restart, and a few more.
    fn fetch_many(&mut self) {
        let keys: Vec<(usize, u32)> = self.some_queue();
        self.trim = self.chance.pick(&keys);
        (self.closed, self.bouncing) = ([0; 8], [0; 8]);
        let mut calls = vec![Call::Write(0x02, vec![1, 0x8C])];
        let mut count = 0;
        // As many as fit on a line: 541 looks and reads.
        while calls.len() < 1 + 2 * 541 {
            self.turn(&keys);
            calls.push(Call::Look(self.closed.to_vec()));
            calls.push(Call::Read(0x10, QUEUE));
            count += QUEUE;
        }
        self.lines.push(list_line("play", &calls).into_bytes());
        self.follow(&calls);
        while count < KEPT + 2 {
            let few = if count + QUEUE < KEPT { QUEUE } else { 1 };
            self.turn(&keys[..few]);
            self.look();
            self.read(0x10, QUEUE);
            count += few;
            if count + 2 > KEPT {
                self.undo();
            }
        }
        self.lines.push(b"undo 10 : 10 90".to_vec());
        self.write_some(0x03, 1);
        self.undo();
    }

    /// Keys for each place of the queue. None of them hides others.
    fn some_queue(&mut self) -> Vec<(usize, u32)> {
        let mut keys = Vec::new();
        while keys.len() < QUEUE {
            let key = (self.chance.below(8), self.chance.below(12) as u32);
            if !keys.contains(&key) {
                keys.push(key);
            }
        }
        keys
    }

    /// Turns the contacts of these keys.
    fn turn(&mut self, keys: &[(usize, u32)]) {
        keys.iter().for_each(|(row, column)| self.closed[*row] ^= 1 << column);
    }
}
