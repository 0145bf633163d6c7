//! The rules through the console's language, with every expected answer written out.

mod accesses;
mod blocks;
mod carry;
mod fingers;
mod groups;
mod hidden;
mod language;
mod pins;
mod playing;
mod readings;
mod sessions;
mod sleep;
mod there_and_back;
mod undo;

use second::calls::Call;
use second::carry::pack;
use second::chance::Chance;
use second::console::Console;

/// Runs a session of lines `command -> answer` on a module after reset.
fn session(text: &str) {
    answered(text);
}

/// A console that has answered these lines `command -> answer`.
fn answered(text: &str) -> Console {
    let mut console = Console::new();
    for line in text.lines().map(str::trim).filter(|line| !line.is_empty()) {
        let (command, expected) = line.split_once(" -> ").expect(line);
        let answer = console.answer(command.as_bytes());
        assert_eq!(answer.as_deref(), Some(expected), "{command}\nin this session:{text}");
    }
    console
}

/// A console that has been given these lines.
fn after(lines: &[String]) -> Console {
    let mut console = Console::new();
    lines.iter().for_each(|line| drop(console.answer(line.as_bytes())));
    console
}

/// What shows a panel and its contacts: pins and their registers, flags and settings, codes that wait,
/// the picture and the flag that it clears, samples under way, and at last the contacts as they are.
const SHOWING: [&str; 24] = [
    "drive",
    "read 91 1",
    "read AA 6",
    "read C0 1",
    "read C6 15",
    "read D6 6",
    "read E0 6",
    "irq",
    "read 06 2",
    "read 09 1",
    "read 02 2",
    "read 10 16",
    "read 06 1",
    "read 0C 1",
    "read 0B 4",
    "read 06 1",
    "write 02 04",
    "wait 1",
    "read 10 16",
    "write 02 02",
    "wait 1",
    "read 10 16",
    "write 02 01 8C",
    "wait 1",
];

/// What a console shows of its panel and its contacts, with the keys held before and behind it, and
/// again when no direct key hides its row.
fn seen(console: &mut Console) -> Vec<String> {
    let keys = (0..8).flat_map(|row| (0..13).map(move |column| format!("held {row} {column}")));
    let showing = SHOWING.map(String::from).into_iter();
    let releases = (0..8).map(|row| format!("release {row} SF"));
    let lines = keys.clone().chain(showing).chain(keys.clone()).chain(releases).chain(keys);
    lines.map(|line| console.answer(line.as_bytes()).unwrap()).collect()
}

/// The samples of a row, some of them with its SF contact closed.
const SAMPLES: [u16; 7] = [0, 0, 1, 0x1000, 0x1001, 0x1FFE, 0x0FFF];

/// A line of one word and the same word many times after it.
fn repeated(start: &str, word: &str, count: usize) -> String {
    format!("{start}{}", format!(" {word}").repeat(count))
}

/// The packed list of calls that fit.
fn packed(calls: &[Call]) -> Vec<u8> {
    pack(calls, usize::MAX).unwrap()
}

/// The digits of bytes.
fn digits(bytes: &[u8]) -> String {
    bytes.iter().map(|byte| format!("{byte:02X}")).collect()
}

/// A call that fits in a list.
fn some_call(chance: &mut Chance) -> Call {
    match chance.below(4) {
        0 => Call::Reset,
        1 => Call::Look((0..8).map(|_| chance.below(0x2000) as u16).collect()),
        2 => {
            let count = chance.between(1, 32);
            Call::Write(chance.byte(), (0..count).map(|_| chance.byte()).collect())
        }
        _ => Call::Read(chance.byte(), chance.between(1, 32)),
    }
}

/// A list of calls that fit.
fn some_calls(chance: &mut Chance, most: usize) -> Vec<Call> {
    (0..chance.between(0, most)).map(|_| some_call(chance)).collect()
}
