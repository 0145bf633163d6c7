//! The words of a line: how many there are, and the numbers that they say.

/// What is wrong with a line, in a few words.
pub type Wrong = String;

/// How much is shown of a word.
const SHOWN: usize = 20;

/// The words of a line. One carriage return at its end is ignored.
pub fn words(line: &[u8]) -> Vec<&[u8]> {
    apart(line.strip_suffix(b"\r").unwrap_or(line))
}

/// The words between blanks and tabs.
pub fn apart(text: &[u8]) -> Vec<&[u8]> {
    let words = text.split(|byte| *byte == b' ' || *byte == b'\t');
    words.filter(|word| !word.is_empty()).collect()
}

/// Sees to it that a command has no words.
pub fn none(words: &[&[u8]]) -> Result<(), Wrong> {
    match words {
        [] => Ok(()),
        _ => Err("too many words".to_string()),
    }
}

/// The word of a command that has one.
pub fn one<'a>(words: &[&'a [u8]]) -> Result<&'a [u8], Wrong> {
    let (word, rest) = words.split_first().ok_or("too few words")?;
    none(rest).map(|_| *word)
}

/// The two words of a command that has two.
pub fn two<'a>(words: &[&'a [u8]]) -> Result<(&'a [u8], &'a [u8]), Wrong> {
    let (word, rest) = words.split_first().ok_or("too few words")?;
    Ok((word, one(rest)?))
}

/// A row or a column that the panel has.
pub fn place(word: &[u8], last: u32, name: &str) -> Result<u32, Wrong> {
    let place = value(word, 10, last)?;
    place.ok_or_else(|| format!("not a {name}: {}", shown(word)))
}

/// Samples of 16 bits.
pub fn samples(words: &[&[u8]]) -> Result<Vec<u16>, Wrong> {
    words.iter().map(|word| Ok(number(word, 16, 0xFFFF)? as u16)).collect()
}

/// Bytes that are written.
pub fn bytes(words: &[&[u8]]) -> Result<Vec<u8>, Wrong> {
    words.iter().map(|word| byte(word, 16)).collect()
}

/// A byte, an address, or a row or a column that is asked for.
pub fn byte(word: &[u8], radix: u32) -> Result<u8, Wrong> {
    Ok(number(word, radix, 0xFF)? as u8)
}

/// A number up to `most`.
pub fn number(word: &[u8], radix: u32, most: u32) -> Result<u32, Wrong> {
    let number = value(word, radix, most)?;
    number.ok_or_else(|| format!("number too large: {}", shown(word)))
}

/// The value of a word of digits, however many they are; none if it is above `most`.
pub fn value(word: &[u8], radix: u32, most: u32) -> Result<Option<u32>, Wrong> {
    let (mut value, above) = (0, u64::from(most) + 1);
    for byte in word {
        let digit = char::from(*byte).to_digit(radix).ok_or_else(|| not_a_number(word, radix))?;
        // Once above the most it stays above, and never wraps.
        value = (value * u64::from(radix) + u64::from(digit)).min(above);
    }
    Ok(Some(value).filter(|value| *value < above).map(|value| value as u32))
}

/// Says that a word has other bytes than digits.
fn not_a_number(word: &[u8], radix: u32) -> Wrong {
    let kind = if radix == 16 { "hexadecimal" } else { "decimal" };
    format!("not a {kind} number: {}", shown(word))
}

/// A word as it is shown: not more than its beginning, with `?` for what is no printing ASCII.
pub fn shown(word: &[u8]) -> String {
    let printed = |byte: &u8| if byte.is_ascii_graphic() { char::from(*byte) } else { '?' };
    let rest = if word.len() > SHOWN { ".." } else { "" };
    word.iter().take(SHOWN).map(printed).chain(rest.chars()).collect()
}
