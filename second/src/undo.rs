//! Undo groups (document 02, E4): a list of codes cut by the trim key, and what stands at a place.
//!
//! A press is a key's row and column, four bits each; a release is 128 more. The trim key's press
//! opens a group, and its release ends it. A code outside is a group of its own.

use std::collections::BTreeSet;

/// The place is beyond the end.
pub const BEYOND: u8 = 22;

/// The trim key's code is no press of a key, or some code no press or release of one.
pub const NO_KEY: u8 = 23;

/// A press of a key that is down, or a release of one that is up.
pub const WRONG_TURN: u8 = 24;

/// The place is inside a group, or past the start of an open one.
pub const INSIDE: u8 = 25;

/// What a release has more than the press of its key.
const RELEASE: u8 = 128;

/// The last column that has keys.
const LAST_COLUMN: u8 = 12;

/// What stands at a place.
#[derive(Clone, Copy, Debug, PartialEq)]
pub enum Stand {
    /// A finished group: its first place, and the place behind its last.
    Group(usize, usize),
    /// A group that is not finished: its first place.
    Open(usize),
    /// The list's end.
    End,
}

/// What is wrong with a list, with the first place that is.
#[derive(Clone, Copy, Debug, PartialEq)]
pub enum Fault {
    /// The trim key's code is no press of a key.
    Trim,
    /// The code at this place is no press or release of a key.
    Code(usize),
    /// The code at this place presses a key that is down, or lets go one that is up.
    Turn(usize),
}

impl Fault {
    /// The number of a list with this fault.
    pub fn number(self) -> u8 {
        match self {
            Fault::Trim | Fault::Code(_) => NO_KEY,
            Fault::Turn(_) => WRONG_TURN,
        }
    }
}

/// What stands at a place of a list, or the number of the question.
pub fn stands(trim: u8, codes: &[u8], place: usize) -> Result<Stand, u8> {
    if place > codes.len() {
        return Err(BEYOND);
    }
    let groups = groups(trim, codes).map_err(Fault::number)?;
    if place == codes.len() {
        return Ok(Stand::End);
    }
    groups.into_iter().find(|stand| begins_at(*stand, place)).ok_or(INSIDE)
}

/// Whether a group, finished or open, begins at a place.
fn begins_at(stand: Stand, place: usize) -> bool {
    match stand {
        Stand::Group(first, _) | Stand::Open(first) => first == place,
        Stand::End => false,
    }
}

/// The stretch of the list that is the finished group at a place: empty where none begins, and if
/// the question is declined.
pub fn stretch(trim: u8, codes: &[u8], place: usize) -> &[u8] {
    match stands(trim, codes, place) {
        Ok(Stand::Group(first, end)) => &codes[first..end],
        _ => &codes[..0],
    }
}

/// The finished groups in order, and behind them the open one or the end.
pub fn groups(trim: u8, codes: &[u8]) -> Result<Vec<Stand>, Fault> {
    judge(trim, codes)?;
    let (mut groups, mut place) = (Vec::new(), 0);
    while place < codes.len() {
        match end_of(trim, codes, place) {
            Some(end) => {
                groups.push(Stand::Group(place, end));
                place = end;
            }
            None => {
                groups.push(Stand::Open(place));
                return Ok(groups);
            }
        }
    }
    groups.push(Stand::End);
    Ok(groups)
}

/// The place behind the group that begins at a place, if it is finished.
fn end_of(trim: u8, codes: &[u8], first: usize) -> Option<usize> {
    if codes[first] != trim {
        return Some(first + 1);
    }
    (first + 1..=codes.len()).find(|end| ended(trim, &codes[first..*end]))
}

/// Whether a group that the trim key opened is finished with the last of these codes: the rule.
fn ended(trim: u8, group: &[u8]) -> bool {
    group.last() == Some(&(trim + RELEASE))
}

/// Looks for what is wrong with a list, wherever in it that is.
fn judge(trim: u8, codes: &[u8]) -> Result<(), Fault> {
    if !is_press(trim) || !has_key(trim) {
        return Err(Fault::Trim);
    }
    if let Some(place) = codes.iter().position(|code| !has_key(*code)) {
        return Err(Fault::Code(place));
    }
    match wrong_turn(codes) {
        Some(place) => Err(Fault::Turn(place)),
        None => Ok(()),
    }
}

/// Whether a code is a press.
pub fn is_press(code: u8) -> bool {
    code < RELEASE
}

/// The row of a code's key: 0 to 7, whatever the code is.
pub fn row(code: u8) -> u8 {
    code % RELEASE / 16
}

/// The column of a code's key.
pub fn column(code: u8) -> u8 {
    code % 16
}

/// Whether the panel has the key of a code.
fn has_key(code: u8) -> bool {
    column(code) <= LAST_COLUMN
}

/// The first code that presses a key that is down, or lets go one that is up. All keys are up before
/// the first code.
fn wrong_turn(codes: &[u8]) -> Option<usize> {
    let mut down = BTreeSet::new();
    codes.iter().position(|code| {
        let key = (row(*code), column(*code));
        // A set tells whether the key was not there yet, and whether it was there.
        let right = if is_press(*code) { down.insert(key) } else { down.remove(&key) };
        !right
    })
}
