//! Calls and packed lists as they are typed on the console: read from words, and shown as words.

use crate::calls::Call;
use crate::words::{apart, byte, bytes, none, number, samples, shown, two, Wrong};

/// The most bytes that a read can ask for on the console.
const LONGEST_READ: u32 = 1024;

/// The call of that name with its words.
pub fn call(name: &[u8], words: &[&[u8]]) -> Result<Call, Wrong> {
    match name {
        b"reset" => none(words).map(|_| Call::Reset),
        b"look" => samples(words).map(Call::Look),
        b"write" => {
            let (first, rest) = words.split_first().ok_or("too few words")?;
            Ok(Call::Write(byte(first, 16)?, bytes(rest)?))
        }
        b"read" => {
            let (first, count) = two(words)?;
            Ok(Call::Read(byte(first, 16)?, number(count, 10, LONGEST_READ)? as usize))
        }
        _ => Err(format!("not a call: {}", shown(name))),
    }
}

/// The calls between semicolons, or no call if there is no word.
pub fn calls(words: &[&[u8]]) -> Result<Vec<Call>, Wrong> {
    if words.is_empty() {
        return Ok(Vec::new());
    }
    let text = words.join(&b' ');
    text.split(|byte| *byte == b';').map(piece).collect()
}

/// The call between two semicolons.
fn piece(text: &[u8]) -> Result<Call, Wrong> {
    match apart(text).split_first() {
        Some((name, words)) => call(name, words),
        None => Err("no call beside a semicolon".to_string()),
    }
}

/// A call as it is typed.
pub fn text(call: &Call) -> String {
    match call {
        Call::Reset => "reset".to_string(),
        Call::Look(samples) => sampled("look", samples),
        Call::Write(first, bytes) => format!("write {first:02X}{}", spaced(bytes)),
        Call::Read(first, count) => format!("read {first:02X} {count}"),
    }
}

/// A command with samples behind it, as it is typed.
pub fn sampled(command: &str, samples: &[u16]) -> String {
    let words: String = samples.iter().map(|sample| format!(" {sample:X}")).collect();
    format!("{command}{words}")
}

/// Bytes with a blank before each.
pub fn spaced(bytes: &[u8]) -> String {
    bytes.iter().map(|byte| format!(" {byte:02X}")).collect()
}

/// The bytes of a packed list, of two digits each, which may stand in two words.
pub fn list(words: &[&[u8]]) -> Result<Vec<u8>, Wrong> {
    let digits = words.concat();
    if digits.len() % 2 != 0 {
        return Err("an odd number of digits".to_string());
    }
    digits.chunks(2).map(|pair| byte(pair, 16)).collect()
}
