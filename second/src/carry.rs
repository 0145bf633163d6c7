//! Packed lists of calls (document 02, E1): the writer and the reader.
//!
//! A list is bits, most significant first. A record is a kind of two bits and what belongs to it.
//! Fewer than eight bits, all 0, where a record could begin are the end.

use crate::calls::{Call, ASLEEP};

/// The reader's number: the list is cut short or padded wrongly.
pub const NO_LIST: u8 = 20;

/// The writer's number: the packed list is longer than the buffer.
pub const NO_ROOM: u8 = 21;

/// The kinds.
const LOOK: usize = 0b00;
const WRITE: usize = 0b01;
const READ: usize = 0b10;
const RESET: usize = 0b11;

/// The bits of a sample.
const SAMPLE: usize = 13;

/// The packed list of these calls for a buffer with that much room, or the writer's number.
pub fn pack(calls: &[Call], room: usize) -> Result<Vec<u8>, u8> {
    if let Some(number) = calls.iter().map(judge).find(|number| *number != 0) {
        return Err(number);
    }
    let mut bits = Vec::new();
    calls.iter().for_each(|call| put_call(&mut bits, call));
    let list = padded(&bits);
    if list.len() > room {
        return Err(NO_ROOM);
    }
    Ok(list)
}

/// The calls of a packed list, or none if it is no list's packing.
pub fn unpack(list: &[u8]) -> Option<Vec<Call>> {
    let mut bits = Vec::new();
    list.iter().for_each(|byte| put(&mut bits, 8, (*byte).into()));
    let (mut rest, mut calls) = (bits.as_slice(), Vec::new());
    while !is_end(rest) {
        calls.push(take_call(&mut rest)?);
    }
    Some(calls)
}

/// The first of the numbers 1 to 4 that declines a call, or 0: the call fits in a list.
pub fn judge(call: &Call) -> u8 {
    match call {
        Call::Reset => 0,
        Call::Look(samples) if samples.len() != 8 => 1,
        Call::Look(samples) if samples.iter().any(|sample| sample >> SAMPLE != 0) => 2,
        Call::Look(_) => 0,
        Call::Write(_, bytes) => judge_length(bytes.len()),
        Call::Read(_, count) => judge_length(*count),
    }
}

/// What a recording has of a call that gave a number, if anything. A call that doesn't fit in a list
/// altered nothing, unless it is an access that woke the module: a read of one byte wakes it as well.
pub fn carried(call: Call, number: u8) -> Option<Call> {
    match call {
        _ if judge(&call) == 0 => Some(call),
        Call::Write(first, _) | Call::Read(first, _) if number == ASLEEP => {
            Some(Call::Read(first, 1))
        }
        _ => None,
    }
}

/// The number of an access by its length.
fn judge_length(length: usize) -> u8 {
    match length {
        0 => 3,
        1..=32 => 0,
        _ => 4,
    }
}

// The writer.

/// Adds a value of that many bits.
fn put(bits: &mut Vec<bool>, width: usize, value: usize) {
    bits.extend((0..width).rev().map(|bit| value >> bit & 1 == 1));
}

/// Adds the record of a call that fits.
fn put_call(bits: &mut Vec<bool>, call: &Call) {
    match call {
        Call::Look(samples) => {
            put(bits, 2, LOOK);
            samples.iter().for_each(|sample| put(bits, SAMPLE, (*sample).into()));
        }
        Call::Write(first, bytes) => {
            put_access(bits, WRITE, *first, bytes.len());
            bytes.iter().for_each(|byte| put(bits, 8, (*byte).into()));
        }
        Call::Read(first, count) => put_access(bits, READ, *first, *count),
        Call::Reset => put(bits, 2, RESET),
    }
}

/// Adds what writes and reads share.
fn put_access(bits: &mut Vec<bool>, kind: usize, first: u8, count: usize) {
    put(bits, 2, kind);
    put(bits, 8, first.into());
    put(bits, 5, count - 1);
}

/// The bytes of these bits. Zero bits fill the last one.
fn padded(bits: &[bool]) -> Vec<u8> {
    let bit = |eight: &[bool], place| u8::from(eight.get(place) == Some(&true));
    let byte = |eight: &[bool]| (0..8).fold(0, |byte, place| 2 * byte + bit(eight, place));
    bits.chunks(8).map(byte).collect()
}

// The reader.

/// Whether the list ends where a record could begin.
fn is_end(rest: &[bool]) -> bool {
    rest.len() < 8 && rest.iter().all(|bit| !bit)
}

/// Takes a value of that many bits, if there are so many.
fn take(rest: &mut &[bool], width: usize) -> Option<usize> {
    if rest.len() < width {
        return None;
    }
    let (taken, left) = rest.split_at(width);
    *rest = left;
    Some(taken.iter().fold(0, |value, bit| 2 * value + usize::from(*bit)))
}

/// Takes a record, if it is there to its last bit.
fn take_call(rest: &mut &[bool]) -> Option<Call> {
    match take(rest, 2)? {
        LOOK => {
            let samples = (0..8).map(|_| Some(take(rest, SAMPLE)? as u16));
            Some(Call::Look(samples.collect::<Option<_>>()?))
        }
        WRITE => {
            let (first, count) = take_access(rest)?;
            let bytes = (0..count).map(|_| Some(take(rest, 8)? as u8));
            Some(Call::Write(first, bytes.collect::<Option<_>>()?))
        }
        READ => take_access(rest).map(|(first, count)| Call::Read(first, count)),
        _ => Some(Call::Reset),
    }
}

/// Takes what writes and reads share: the first address and the count.
fn take_access(rest: &mut &[bool]) -> Option<(u8, usize)> {
    Some((take(rest, 8)? as u8, take(rest, 5)? + 1))
}
