//! Lists are packed, unpacked and played on the console, whole and damaged.

use super::lists::{bits, packed};
use super::Maker;
use crate::calls::Call;
use crate::console::LONGEST;
use crate::typed::text;

/// What can stand between two calls.
const SEMICOLONS: [&str; 8] = [" ; ", " ; ", " ; ", ";", ";", "; ", " ;", "\t;\t"];

/// Rooms that have nothing to do with the list; a narrow number would lose some of them.
const ROOMS: [usize; 7] = [0, 0, 255, 256, 65_536, 99_999, 999_999];

// The lines.
impl Maker {
    /// A list of calls is packed, for a room that is just enough, just too small, or neither.
    fn pack(&mut self, calls: &[Call]) {
        let need = packed(calls).len();
        let room = match self.chance.below(8) {
            0..=1 => need,
            2 => need + 1,
            3..=4 => need.saturating_sub(1),
            5 => self.chance.between(0, 2 * need),
            _ => self.chance.pick(&ROOMS),
        };
        let mut words = vec!["pack".to_string(), self.decimal(room)];
        let mut text = String::new();
        for call in calls {
            if !text.is_empty() {
                text.push_str(self.chance.pick(&SEMICOLONS));
            }
            text.push_str(&self.typed(call).join(" "));
        }
        if !calls.is_empty() {
            words.push(text);
        }
        self.say(words);
    }

    /// A packed list is unpacked or played.
    fn list(&mut self, command: &str, list: &[u8]) {
        let mut words = vec![command.to_string()];
        words.extend(self.digits(list));
        self.say(words);
    }

    /// The digits of a list: in pairs, all together, or cut anywhere, in either case.
    fn digits(&mut self, list: &[u8]) -> Vec<String> {
        let pairs: Vec<String> = match self.chance.below(6) {
            0 => list.iter().map(|byte| format!("{byte:02x}")).collect(),
            _ => list.iter().map(|byte| format!("{byte:02X}")).collect(),
        };
        match self.chance.below(6) {
            0..=2 => pairs,
            3..=4 => vec![pairs.concat()],
            _ => {
                let (mut rest, mut words) = (pairs.concat(), Vec::new());
                while !rest.is_empty() {
                    let length = self.chance.between(1, rest.len().min(9));
                    words.push(rest.drain(..length).collect());
                }
                words
            }
        }
    }

    /// A packed list is played, and the script goes on from there.
    pub(super) fn play(&mut self, calls: &[Call]) {
        self.list("play", &packed(calls));
        self.follow(calls);
    }

    /// Contacts and size are as they are behind a list that is played.
    pub(super) fn follow(&mut self, calls: &[Call]) {
        let look = calls.iter().rev().find_map(|call| match call {
            Call::Look(samples) => Some(samples),
            _ => None,
        });
        self.closed.iter_mut().zip(look.into_iter().flatten()).for_each(|(row, is)| *row = *is);
        self.bouncing = [0; 8];
        self.heed(&Call::Reset);
        calls.iter().for_each(|call| self.heed(call));
    }
}

// Long lines.
impl Maker {
    /// A line of about the longest length: a list as long as it can be, with blanks behind it.
    fn carry_long(&mut self) {
        let command = self.chance.pick(&["pack", "unpack", "unpack", "play"]);
        // Resets give the longest answers, and take long to play.
        let rarity = if command == "play" { 12 } else { 3 };
        let calls = if self.chance.one_in(rarity) {
            vec![Call::Reset; 2 * LONGEST]
        } else {
            self.told(|maker| maker.some_calls(1000))
        };
        let line = match command {
            "pack" => pack_line(&calls),
            _ => list_line(command, &calls),
        };
        self.say_long(line);
    }

    /// A line with blanks behind it, so that it has about the longest length.
    pub(super) fn say_long(&mut self, line: String) {
        let length = self.chance.pick(&[LONGEST - 1, LONGEST - 1, LONGEST, LONGEST, LONGEST + 1]);
        self.lines.push(format!("{line:length$}").into_bytes());
    }
}

/// The line that packs as many of these calls as it can hold.
fn pack_line(calls: &[Call]) -> String {
    let start = "pack 999999 ".to_string();
    let calls = as_many(calls, LONGEST - 1 - start.len(), |call| text(call).len() + 1);
    let texts: Vec<String> = calls.iter().map(text).collect();
    start + &texts.join(";")
}

/// The line of a command with the packed list of as many of these calls as it can hold.
pub(super) fn list_line(command: &str, calls: &[Call]) -> String {
    let bytes = (LONGEST - 2 - command.len()) / 2;
    let list = packed(as_many(calls, 8 * bytes, bits));
    let digits: String = list.iter().map(|byte| format!("{byte:02X}")).collect();
    format!("{command} {digits}")
}

/// As many of these calls as there is room for.
fn as_many(calls: &[Call], room: usize, size: fn(&Call) -> usize) -> &[Call] {
    let mut taken = 0;
    let fits = |call: &&Call| {
        taken += size(call);
        taken <= room
    };
    &calls[..calls.iter().take_while(fits).count()]
}

// The regime.
impl Maker {
    /// A list is packed, unpacked or played, and the panel goes on.
    pub(super) fn carry(&mut self) {
        match self.chance.below(24) {
            0..=6 => {
                let calls = self.told(Maker::calls_to_pack);
                self.pack(&calls);
            }
            7..=9 => self.unpack_some(),
            10..=12 => self.unpack_damaged(),
            13..=16 => self.play_some(),
            17..=18 => self.play_damaged(),
            19 => self.carry_monotonous(),
            20 => self.carry_bytes(),
            _ if self.chance.one_in(4) => self.carry_long(),
            _ => {}
        }
        self.go_on_a_while();
    }

    /// A list is unpacked.
    fn unpack_some(&mut self) {
        let calls = self.told(Maker::some_session);
        self.list("unpack", &packed(&calls));
    }

    /// A damaged list is unpacked.
    fn unpack_damaged(&mut self) {
        let calls = self.told(Maker::some_session);
        let list = self.damaged(&calls);
        self.list("unpack", &list);
    }

    /// A list is played.
    pub(super) fn play_some(&mut self) {
        let calls = self.some_session();
        self.play(&calls);
    }

    /// A damaged list is played. Most often that is declined.
    pub(super) fn play_damaged(&mut self) {
        let calls = self.told(Maker::some_session);
        let list = self.damaged(&calls);
        self.list("play", &list);
        self.go_on();
    }

    /// A list of one thing again and again.
    fn carry_monotonous(&mut self) {
        let calls = self.told(Maker::monotonous);
        match self.chance.below(3) {
            0 => self.pack(&calls),
            1 => self.list("unpack", &packed(&calls)),
            _ => self.play(&calls),
        }
    }

    /// Bytes that no writer has seen are unpacked or played.
    fn carry_bytes(&mut self) {
        let (command, list) = (self.chance.pick(&["unpack", "play"]), self.some_list());
        self.list(command, &list);
    }

    /// What a person and a host do next.
    pub(super) fn go_on_a_while(&mut self) {
        for _ in 0..self.chance.below(4) {
            self.go_on();
        }
    }

    /// What a person or a host does next.
    fn go_on(&mut self) {
        match self.chance.below(10) {
            0..=1 => self.fetch(),
            2..=4 => self.probe(),
            5 => self.press(),
            6 => self.release(),
            7 => self.wait_some(),
            8 => self.look(),
            _ => self.read(0x10, 15),
        }
    }
}
