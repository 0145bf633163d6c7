//! The commands about undo groups: read from words, and answered.

use crate::typed::spaced;
use crate::undo::{column, groups, is_press, row, stands, stretch, Fault, Stand};
use crate::words::{shown, value, Wrong};

/// The largest place that can be asked for.
const LARGEST_PLACE: u32 = 999_999;

/// The commands as they are typed.
const GROUP: &str = "group RULE TRIM PLACE C0 C1 ..";
const GROUPS: &str = "groups RULE TRIM C0 C1 ..";
const FETCH: &str = "fetch RULE TRIM PLACE C0 C1 ..";
const UNDO: &str = "undo TRIM, undo TRIM : C0 C1 ..";

/// `group RULE TRIM PLACE C0 C1 ..`
pub fn answer_group(words: &[&[u8]]) -> Result<String, Wrong> {
    let (trim, place, codes) = placed(words, GROUP)?;
    Ok(match stands(trim, &codes, place) {
        Ok(stand) => format!("0 {}", told(stand)),
        Err(number) => number.to_string(),
    })
}

/// `groups RULE TRIM C0 C1 ..`
pub fn answer_groups(words: &[&[u8]]) -> Result<String, Wrong> {
    let mut rest = words;
    let trim = ruled(&mut rest, GROUPS)?;
    Ok(match groups(trim, &codes(rest)?) {
        Ok(groups) => {
            let texts: Vec<String> = groups.into_iter().map(told).collect();
            format!("0 {}", texts.join(" "))
        }
        Err(fault) => fault.number().to_string(),
    })
}

/// `fetch RULE TRIM PLACE C0 C1 ..`
pub fn answer_fetch(words: &[&[u8]]) -> Result<String, Wrong> {
    let (trim, place, codes) = placed(words, FETCH)?;
    let number = stands(trim, &codes, place).err().unwrap_or(0);
    Ok(format!("{number}{}", spaced(stretch(trim, &codes, place))))
}

/// What stands at a place, in words.
fn told(stand: Stand) -> String {
    match stand {
        Stand::Group(first, end) => format!("group {first} {end}"),
        Stand::Open(place) => format!("open {place}"),
        Stand::End => "end".to_string(),
    }
}

// The words, from the left on.

/// The trim key's code and the list of `undo`, or no list if the fetched codes are meant.
pub fn undo(words: &[&[u8]]) -> Result<(u8, Option<Vec<u8>>), Wrong> {
    let mut rest = words;
    let trim = code(take(&mut rest, UNDO)?)?;
    match rest {
        [] => Ok((trim, None)),
        [b":", list @ ..] => Ok((trim, Some(codes(list)?))),
        _ => Err(format!("too many words ({UNDO})")),
    }
}

/// RULE, TRIM, PLACE and the list: the trim key's code, the place and the codes.
fn placed(words: &[&[u8]], form: &str) -> Result<(u8, usize, Vec<u8>), Wrong> {
    let mut rest = words;
    let trim = ruled(&mut rest, form)?;
    let place = place(take(&mut rest, form)?)?;
    Ok((trim, place, codes(rest)?))
}

/// Takes RULE and TRIM. Gives the trim key's code.
fn ruled(rest: &mut &[&[u8]], form: &str) -> Result<u8, Wrong> {
    rule(take(rest, form)?)?;
    code(take(rest, form)?)
}

/// Takes a word that must be there.
fn take<'a>(rest: &mut &[&'a [u8]], form: &str) -> Result<&'a [u8], Wrong> {
    let (word, left) = rest.split_first().ok_or_else(|| format!("too few words ({form})"))?;
    *rest = left;
    Ok(word)
}

/// A rule, which is 1.
fn rule(word: &[u8]) -> Result<(), Wrong> {
    match decimal(word, 1)? {
        Some(1) => Ok(()),
        _ => Err(format!("not a rule: {} (rule 1 is the only one)", shown(word))),
    }
}

/// A place.
fn place(word: &[u8]) -> Result<usize, Wrong> {
    let place = decimal(word, LARGEST_PLACE)?;
    let place = place.ok_or_else(|| too_large(word, &format!("{LARGEST_PLACE} at most")))?;
    Ok(place as usize)
}

/// A decimal number; none if it is above `most`.
fn decimal(word: &[u8], most: u32) -> Result<Option<u32>, Wrong> {
    value(word, 10, most).map_err(|wrong| format!("{wrong} (rules and places are decimal)"))
}

/// A list of codes.
fn codes(words: &[&[u8]]) -> Result<Vec<u8>, Wrong> {
    words.iter().map(|word| code(word)).collect()
}

/// A code.
fn code(word: &[u8]) -> Result<u8, Wrong> {
    let code = value(word, 16, 0xFF);
    let code = code.map_err(|wrong| format!("{wrong} (codes are hexadecimal)"))?;
    Ok(code.ok_or_else(|| too_large(word, "a code is at most FF"))? as u8)
}

/// Says that a number is too large, and what was wanted.
fn too_large(word: &[u8], wanted: &str) -> Wrong {
    format!("number too large: {} ({wanted})", shown(word))
}

// The drawing.

/// The groups of a list, drawn. There may have been more codes than were kept.
pub fn drawing(trim: u8, codes: &[u8], more: bool) -> String {
    let mut lines = match groups(trim, codes) {
        Ok(groups) => drawn(trim, codes, &groups),
        Err(fault) => return format!("{}\n.", complaint(fault, trim, codes)),
    };
    if more {
        let kept = codes.len();
        lines.push(format!("only the first {kept} codes since the restart are kept"));
    }
    lines.push(".".to_string());
    lines.join("\n")
}

/// The lines of a list that is not declined.
fn drawn(trim: u8, codes: &[u8], groups: &[Stand]) -> Vec<String> {
    let key = name(trim);
    let mut lines = vec![format!("trim key {key}; codes: {}; + press, - release", codes.len())];
    for stand in groups {
        match *stand {
            Stand::Group(first, end) => {
                let word = if codes[first] == trim { "group" } else { "alone" };
                lines.push(line(first, word, &codes[first..end]));
            }
            Stand::Open(first) => lines.push(line(first, "open", &codes[first..])),
            Stand::End => {}
        }
    }
    lines
}

/// The line of a group.
fn line(first: usize, word: &str, codes: &[u8]) -> String {
    let codes: Vec<String> = codes.iter().map(|code| signed(*code)).collect();
    format!("{first:4}  {word:7}{}", codes.join(" "))
}

/// What is wrong with a list.
fn complaint(fault: Fault, trim: u8, codes: &[u8]) -> String {
    let number = fault.number();
    match fault {
        Fault::Trim => format!("{number} the trim key's code is no press of a key: {trim:02X}"),
        Fault::Code(place) => {
            let code = codes[place];
            format!("{number} place {place} is no press or release of a key: {code:02X}")
        }
        Fault::Turn(place) => {
            let code = codes[place];
            let turn = if is_press(code) {
                "presses a key that is down"
            } else {
                "lets go a key that is up"
            };
            format!("{number} place {place} {turn}: {}", signed(code))
        }
    }
}

/// A code as it is drawn.
fn signed(code: u8) -> String {
    format!("{}{}", if is_press(code) { "+" } else { "-" }, name(code))
}

/// The key of a code, by row and column.
fn name(code: u8) -> String {
    match column(code) {
        12 => format!("{}.SF", row(code)),
        column => format!("{}.{column}", row(code)),
    }
}
