//! The console's language: commands in, a line each, and an answer line for each.
//!
//! Input is bytes of any kind, in pieces of any length. A line is answered as soon as it is
//! complete; one line is all that is kept. Beside the module are the contacts, as fingers leave
//! them, the codes fetched since the last restart, and the calls made so far, if the session is
//! recorded.

use crate::calls::{Call, Calls, Driven};
use crate::carry::{carried, pack, unpack, NO_LIST};
use crate::fetched::Fetched;
use crate::grouped::{answer_fetch, answer_group, answer_groups, drawing, undo};
use crate::module::Module;
use crate::typed::{call, calls, list, spaced, text};
use crate::words::{byte, none, number, one, place, samples, shown, two, words, Wrong};

/// The longest line that is held, before its newline, a CR included.
pub const LONGEST: usize = 16_384;

/// The most looks that one line can wait for.
const LONGEST_WAIT: u32 = 65_535;

/// The largest sample of the pins that can be given. Only its low bits are pins.
const LARGEST_SAMPLE: u32 = 0xFFFF_FFFF;

/// The largest room that a list can be packed for.
const LARGEST_ROOM: u32 = 999_999;

/// A module, the contacts it looks at, and the line that is being received.
pub struct Console {
    module: Box<dyn Calls>,
    /// A sample for each row, with a bit set for each closed contact.
    contacts: [u16; 8],
    fetched: Fetched,
    /// What a list can hold of the calls made, if the session is recorded.
    record: Option<Vec<Call>>,
    line: Vec<u8>,
    /// Whether `quit` has ended the input.
    ended: bool,
    /// Whether some line was answered with `?`.
    complained: bool,
}

/// An answer, or what is wrong with the command.
type Answer = Result<String, Wrong>;

/// How the end of a program is shown behind its answers.
pub fn end(status: i32) -> String {
    format!("(ends with status {status})")
}

impl Console {
    /// A console that begins with the second module after reset.
    pub fn new() -> Console {
        Console::over(Box::new(Module::new()))
    }

    /// A console that begins with this module and with all contacts open.
    pub fn over(module: Box<dyn Calls>) -> Console {
        Console {
            module,
            contacts: [0; 8],
            fetched: Fetched::default(),
            record: None,
            line: Vec::new(),
            ended: false,
            complained: false,
        }
    }

    /// Records the session from here on.
    pub fn record(&mut self) {
        self.record = Some(Vec::new());
    }

    /// The packed list of the session as it was recorded.
    pub fn recorded(&self) -> Vec<u8> {
        pack(self.record.as_deref().unwrap_or_default(), usize::MAX).unwrap_or_default()
    }

    /// Whether `quit` has ended the input.
    pub fn has_ended(&self) -> bool {
        self.ended
    }

    /// The exit status: 1 if some line was answered with `?`.
    pub fn status(&self) -> i32 {
        i32::from(self.complained)
    }

    /// Takes in a piece of input and adds the answers of all lines it completes.
    pub fn feed(&mut self, input: &[u8], output: &mut Vec<u8>) {
        for byte in input {
            if self.ended {
                return;
            }
            if *byte == b'\n' {
                self.end_line(output);
            } else if self.line.len() <= LONGEST {
                // One byte above the longest is kept, to tell that the line was too long.
                self.line.push(*byte);
            }
        }
    }

    /// Ends the input: a final line without a newline counts.
    pub fn finish(&mut self, output: &mut Vec<u8>) {
        if !self.line.is_empty() {
            self.end_line(output);
        }
    }

    /// Answers the line that is now complete.
    fn end_line(&mut self, output: &mut Vec<u8>) {
        let line = std::mem::take(&mut self.line);
        if let Some(answer) = self.answer(&line) {
            output.extend_from_slice(answer.as_bytes());
            output.push(b'\n');
        }
    }

    /// The answers to a script, line by line, each with the place of the line that is answered, and
    /// how the console ends.
    pub fn answers(mut self, script: &[Vec<u8>]) -> impl Iterator<Item = (usize, String)> + '_ {
        (0..=script.len()).flat_map(move |place| {
            let answer = match script.get(place) {
                Some(line) => self.answer(line),
                None => Some(end(self.status())),
            };
            let lines = answer.iter().flat_map(|answer| answer.split('\n'));
            lines.map(|line| (place, line.to_string())).collect::<Vec<_>>()
        })
    }

    /// The answer to one line, or none for a blank line, a comment, `quit` and what follows it.
    pub fn answer(&mut self, line: &[u8]) -> Option<String> {
        if self.ended {
            return None;
        }
        self.obey(line).unwrap_or_else(|wrong| {
            self.complained = true;
            Some(format!("? {wrong}"))
        })
    }

    /// Does what a line asks for.
    fn obey(&mut self, line: &[u8]) -> Result<Option<String>, Wrong> {
        if line.len() > LONGEST {
            return Err("line too long".to_string());
        }
        match words(line).split_first() {
            None => Ok(None),
            Some((name, _)) if name.starts_with(b"#") => Ok(None),
            Some((name, words)) if *name == b"quit" => none(words).map(|_| self.quit()),
            Some((name, words)) => self.command(name, words).map(Some),
        }
    }

    /// `quit`
    fn quit(&mut self) -> Option<String> {
        self.ended = true;
        None
    }

    /// Does a command with its words.
    fn command(&mut self, name: &[u8], words: &[&[u8]]) -> Answer {
        match name {
            b"reset" | b"look" | b"write" | b"read" => Ok(self.ask(call(name, words)?)),
            b"looks" => self.block(words),
            b"press" => self.press(words),
            b"release" => self.release(words),
            b"wait" => self.wait(words),
            b"held" => self.held(words),
            b"irq" => none(words).map(|_| question(self.module.interrupt())),
            b"pins" => self.pins(words),
            b"drive" => none(words).map(|_| levels(self.module.drive())),
            b"pack" => answer_pack(words),
            b"unpack" => answer_unpack(words),
            b"play" => Ok(self.play(&list(words)?).to_string()),
            b"group" => answer_group(words),
            b"groups" => answer_groups(words),
            b"fetch" => answer_fetch(words),
            b"undo" => self.undo(words),
            // `show` and `help` have no counterpart here.
            b"help" if words == [b"numbers"] => Ok(".".to_string()),
            b"show" | b"help" => none(words).map(|_| ".".to_string()),
            _ => Err(format!("unknown command: {}", shown(name))),
        }
    }

    /// `reset`, `look S0 S1 ..`, `write AA B0 B1 ..` or `read AA COUNT`
    fn ask(&mut self, call: Call) -> String {
        match self.make(call) {
            (0, bytes) => format!("0{}", spaced(&bytes)),
            (number, _) => number.to_string(),
        }
    }

    /// Makes a call. A look that is done sets the contacts.
    fn make(&mut self, call: Call) -> (u8, Vec<u8>) {
        let (number, bytes) = call.made(self.module.as_mut());
        if let Call::Look(samples) = &call {
            if number == 0 {
                self.set(samples);
            }
        }
        self.fetched.heed(&call, number, &bytes);
        self.keep(call, number);
        (number, bytes)
    }

    /// Sets the contacts to the samples of a look.
    fn set(&mut self, samples: &[u16]) {
        self.contacts.iter_mut().zip(samples).for_each(|(row, sample)| *row = *sample);
    }

    /// Keeps what a list can hold of a call that gave a number, if the session is recorded.
    fn keep(&mut self, call: Call, number: u8) {
        if let Some(record) = &mut self.record {
            record.extend(carried(call, number));
        }
    }

    /// `looks S0 S1 ..`: contacts and recording are as after the looks that were done.
    fn block(&mut self, words: &[&[u8]]) -> Answer {
        let list = samples(words)?;
        let (number, done) = self.module.looks(&list);
        for samples in list.chunks(8).take(done) {
            self.set(samples);
            self.keep(Call::Look(samples.to_vec()), 0);
        }
        Ok(format!("{number} {done}"))
    }

    /// `press ROW COL`
    fn press(&mut self, words: &[&[u8]]) -> Answer {
        let (row, bit) = contact(words)?;
        self.contacts[row] |= bit;
        Ok(self.settle())
    }

    /// `release ROW COL`
    fn release(&mut self, words: &[&[u8]]) -> Answer {
        let (row, bit) = contact(words)?;
        self.contacts[row] &= !bit;
        Ok(self.settle())
    }

    /// `wait N`
    fn wait(&mut self, words: &[&[u8]]) -> Answer {
        let count = number(one(words)?, 10, LONGEST_WAIT)?;
        Ok(self.looks(count))
    }

    /// Makes the looks after which the module believes a contact: KBDBOUNCE, and 0 counts as 1. A
    /// finger makes no access.
    fn settle(&mut self) -> String {
        let bounce = self.module.register(0x02);
        self.looks(bounce.max(1).into())
    }

    /// Looks that many times at the contacts as they are, up to the first look that is declined.
    fn looks(&mut self, count: u32) -> String {
        let mut numbers = (0..count).map(|_| self.make(Call::Look(self.contacts.into())).0);
        numbers.find(|number| *number != 0).unwrap_or(0).to_string()
    }

    /// `held ROW COL`
    fn held(&mut self, words: &[&[u8]]) -> Answer {
        let (row, column) = two(words)?;
        let asked = (byte(row, 10)?, byte(column, 10)?);
        Ok(question(self.module.held(asked.0, asked.1)))
    }

    /// `pins SAMPLE`
    fn pins(&mut self, words: &[&[u8]]) -> Answer {
        let sample = number(one(words)?, 16, LARGEST_SAMPLE)?;
        Ok(self.module.pins(sample).to_string())
    }

    /// `undo TRIM`, `undo TRIM : C0 C1 ..`
    fn undo(&self, words: &[&[u8]]) -> Answer {
        Ok(match undo(words)? {
            (trim, Some(codes)) => drawing(trim, &codes, false),
            (trim, None) => drawing(trim, &self.fetched.codes, self.fetched.more),
        })
    }

    /// `play HEX..`, and a list from elsewhere: a reset, and then its calls, whatever they answer.
    pub fn play(&mut self, list: &[u8]) -> u8 {
        let calls = match unpack(list) {
            Some(calls) => calls,
            None => return NO_LIST,
        };
        self.make(Call::Reset);
        for call in calls {
            self.make(call);
        }
        0
    }
}

/// `pack ROOM CALL ; CALL ..`
fn answer_pack(words: &[&[u8]]) -> Answer {
    let (room, rest) = words.split_first().ok_or("too few words")?;
    let (room, calls) = (number(room, 10, LARGEST_ROOM)?, calls(rest)?);
    Ok(match pack(&calls, room as usize) {
        Ok(list) => format!("0{}", spaced(&list)),
        Err(number) => number.to_string(),
    })
}

/// `unpack HEX..`
fn answer_unpack(words: &[&[u8]]) -> Answer {
    Ok(match unpack(&list(words)?).as_deref() {
        None => NO_LIST.to_string(),
        Some([]) => "0".to_string(),
        Some(calls) => format!("0 {}", calls.iter().map(text).collect::<Vec<_>>().join(" ; ")),
    })
}

/// The answer to a question.
fn question((number, yes): (u8, bool)) -> String {
    format!("{number} {}", if yes { "yes" } else { "no" })
}

/// The answer to `drive`: the level of each pin, from pin 0 on, or `-` if it is not driven.
fn levels((number, driven): (u8, Driven)) -> String {
    let level = |level: &Option<bool>| match level {
        None => '-',
        Some(false) => '0',
        Some(true) => '1',
    };
    match number {
        0 => format!("0 {}", driven.iter().map(level).collect::<String>()),
        _ => number.to_string(),
    }
}

/// The contact at ROW and COL: its row, and its bit in the row's sample.
fn contact(words: &[&[u8]]) -> Result<(usize, u16), Wrong> {
    let (row, column) = two(words)?;
    let row = place(row, 7, "row")?;
    let column = if column.eq_ignore_ascii_case(b"SF") { 12 } else { place(column, 12, "column")? };
    Ok((row as usize, 1 << column))
}
