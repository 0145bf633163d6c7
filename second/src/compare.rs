//! The same script to another console and to the second module, and where they first differ. An
//! answer of many lines is compared line by line. How a console ends counts as the last of its
//! answers.
//!
//! A difference is shown twice: where it came up, and at the end of a script cut down to what
//! leads to it.

use crate::calls::Call;
use crate::carry::{pack, unpack};
use crate::console::{end, Console};
use crate::script::Line;
use crate::typed::{calls, list, sampled, spaced, text};
use crate::words::{number, samples, shown, words};
use std::ffi::OsString;
use std::io::{self, Write};
use std::process::{Command, Stdio};
use std::thread;

/// The first line that is answered differently, and both answers.
#[derive(Debug)]
pub struct Difference {
    pub line: usize,
    pub ours: Line,
    pub theirs: Line,
}

/// What stands for an answer that is not there.
const MISSING: &[u8] = b"(no answer)";

/// How much is shown of a very long line.
const SHOWN: usize = 1500;

/// An answer as it is compared: a `?` answer only up to the `?`.
fn comparable(answer: &[u8]) -> &[u8] {
    if answer.starts_with(b"?") {
        &answer[..1]
    } else {
        answer
    }
}

/// Where another console's answers to a script, and its end behind them, first differ from ours.
pub fn difference(script: &[Line], theirs: impl IntoIterator<Item = Line>) -> Option<Difference> {
    let (mut ours, mut theirs) = (Console::new().answers(script), theirs.into_iter());
    let last = script.len().saturating_sub(1);
    loop {
        let (our, their) = match (ours.next(), theirs.next()) {
            (None, None) => return None,
            both => both,
        };
        let (line, our) = our.map_or((last, MISSING.to_vec()), |(line, our)| (line, our.into()));
        let their = their.unwrap_or_else(|| MISSING.to_vec());
        if comparable(&our) != comparable(&their) {
            return Some(Difference { line: line.min(last), ours: our, theirs: their });
        }
    }
}

/// Gives a console program the whole script and takes its whole output, and how it ends.
pub fn run_program(program: &[OsString], script: &[Line]) -> io::Result<Vec<Line>> {
    let mut child = Command::new(&program[0])
        .args(&program[1..])
        .stdin(Stdio::piped())
        .stdout(Stdio::piped())
        .spawn()?;
    let mut input = Line::new();
    for line in script {
        input.extend_from_slice(line);
        input.push(b'\n');
    }
    let pipe = child.stdin.take();
    // The answers must be read while the script is written, or both sides could wait for ever.
    // A program that stops reading early shows by its answers.
    let writer = thread::spawn(move || pipe.map(|mut pipe| pipe.write_all(&input)));
    let output = child.wait_with_output()?;
    let _ = writer.join();
    let lines = output.stdout.split(|byte| *byte == b'\n');
    let mut answers: Vec<Line> = lines.map(Line::from).collect();
    if answers.last().map_or(false, Line::is_empty) {
        answers.pop();
    }
    let ended = output.status.code().map_or_else(|| format!("(ends by {})", output.status), end);
    answers.push(ended.into_bytes());
    Ok(answers)
}

/// Tells where the answers to a script first differ, if they do.
pub type Differs<'a> = dyn FnMut(&[Line]) -> Option<usize> + 'a;

/// Cuts a script down to a short one that still leads to a difference.
pub fn cut_down(script: &[Line], differs: &mut Differs) -> Vec<Line> {
    let mut kept = script.to_vec();
    keep_if(&mut kept, script.to_vec(), differs);
    let mut chunk = kept.len();
    loop {
        chunk = (chunk / 2).max(1);
        let dropped = drop_chunks(&mut kept, chunk, differs);
        if chunk == 1 && !dropped && !make_all_plainer(&mut kept, differs) {
            return kept;
        }
    }
}

/// Makes lines plainer in the first way in which some can be.
fn make_all_plainer(kept: &mut Vec<Line>, differs: &mut Differs) -> bool {
    shorten(kept, differs) || thin(kept, differs) || quieten(kept, differs) || lower(kept, differs)
}

/// Takes the shorter or plainer script, up to its difference, if it has one.
fn keep_if(kept: &mut Vec<Line>, mut candidate: Vec<Line>, differs: &mut Differs) -> bool {
    match differs(&candidate) {
        Some(line) => {
            candidate.truncate(line + 1);
            *kept = candidate;
            true
        }
        None => false,
    }
}

/// Drops every stretch of `chunk` lines that is not needed, from the end on.
fn drop_chunks(kept: &mut Vec<Line>, chunk: usize, differs: &mut Differs) -> bool {
    let before = kept.len();
    let mut end = kept.len();
    while end > 0 {
        let start = end.saturating_sub(chunk);
        let mut candidate = kept.clone();
        candidate.drain(start..end);
        keep_if(kept, candidate, differs);
        end = start.min(kept.len());
    }
    kept.len() < before
}

/// A line with less in a stretch of its parts, from a place on, if it has less then.
type Plainer<'a> = dyn Fn(&[u8], usize, usize) -> Option<Line> + 'a;

/// Makes lines of several parts plainer, all parts of a line first. Of very long lines some is left
/// that is not needed.
fn make_plainer(
    kept: &mut Vec<Line>,
    parts: fn(&[u8]) -> usize,
    plainer: &Plainer,
    differs: &mut Differs,
) -> bool {
    let mut changed = false;
    for line in 0..kept.len() {
        let most = kept.get(line).map_or(0, |line| parts(line));
        let mut count = most;
        // Nothing is tried of a line that can't be plainer.
        let can_be = |line: &Line| plainer(line, 0, most).is_some();
        while count > most / 64 && kept.get(line).map_or(false, can_be) {
            for place in (0..most).step_by(count) {
                while replace(kept, line, |line| plainer(line, place, count), differs) {
                    changed = true;
                }
            }
            count /= 2;
        }
    }
    changed
}

/// Puts a plainer line in the place of another, if there is one and it still leads to a difference.
fn replace(
    kept: &mut Vec<Line>,
    line: usize,
    plainer: impl Fn(&[u8]) -> Option<Line>,
    differs: &mut Differs,
) -> bool {
    kept.get(line).and_then(|line| plainer(line)).map_or(false, |plain| {
        let mut candidate = kept.clone();
        candidate[line] = plain;
        keep_if(kept, candidate, differs)
    })
}

/// Leaves calls out of the lists and looks out of the blocks.
fn shorten(kept: &mut Vec<Line>, differs: &mut Differs) -> bool {
    let count = |line: &[u8]| calls_of(line).map_or(0, |calls| calls.len());
    make_plainer(kept, count, &without_calls, differs)
}

/// The calls of a line's list, or the looks of its block, if it has one. The last look of a block
/// may be short.
fn calls_of(line: &[u8]) -> Option<Vec<Call>> {
    match words(line).as_slice() {
        [b"pack", _, rest @ ..] => calls(rest).ok(),
        [b"unpack" | b"play", rest @ ..] => unpack(&list(rest).ok()?),
        [b"looks", rest @ ..] => {
            Some(samples(rest).ok()?.chunks(8).map(|look| Call::Look(look.to_vec())).collect())
        }
        _ => None,
    }
}

/// A line with fewer calls in its list or its block, if it has any from that place on.
fn without_calls(line: &[u8], place: usize, count: usize) -> Option<Line> {
    let mut calls = calls_of(line).filter(|calls| place < calls.len())?;
    calls.drain(place..calls.len().min(place + count));
    let texts = || calls.iter().map(text).collect::<Vec<_>>();
    let line = match words(line).as_slice() {
        [b"pack", room, ..] => format!("pack {} {}", shown(room), texts().join(" ; ")),
        [b"looks", ..] => format!("looks{}", texts().concat().replace("look", "")),
        words => format!("{}{}", shown(words.first()?), spaced(&pack(&calls, usize::MAX).ok()?)),
    };
    Some(line.into_bytes())
}

/// Leaves codes out of the lists that are cut into undo groups.
fn thin(kept: &mut Vec<Line>, differs: &mut Differs) -> bool {
    let count = |line: &[u8]| before_codes(line).map_or(0, |before| words(line).len() - before);
    make_plainer(kept, count, &without_codes, differs)
}

/// How many words stand before a line's list of codes, if it has one.
fn before_codes(line: &[u8]) -> Option<usize> {
    match words(line).as_slice() {
        [b"group" | b"fetch", _, _, _, ..] => Some(4),
        [b"groups", _, _, ..] | [b"undo", _, b":", ..] => Some(3),
        _ => None,
    }
}

/// A line with fewer codes in its list, if it has any from that place on.
fn without_codes(line: &[u8], place: usize, count: usize) -> Option<Line> {
    let first = before_codes(line)? + place;
    let mut words = words(line);
    if first >= words.len() {
        return None;
    }
    words.drain(first..words.len().min(first + count));
    Some(words.join(&b' '))
}

/// Opens the contacts that are not needed, whole rows first.
fn quieten(kept: &mut Vec<Line>, differs: &mut Differs) -> bool {
    let mut changed = false;
    let masks = std::iter::once(0).chain((0..16).map(|bit| !(1 << bit)));
    for (mask, row) in masks.flat_map(|mask| (0..8).map(move |row| (mask, row))) {
        let quieter = |line: &[u8], place, count| with_row_masked(line, (row, mask), place, count);
        changed |= make_plainer(kept, count_looks, &quieter, differs);
    }
    changed
}

/// The samples of a look or of a block of looks, with the command before them.
fn samples_of(line: &[u8]) -> Option<(String, Vec<u16>)> {
    match words(line).as_slice() {
        [name @ (b"look" | b"looks"), rest @ ..] => Some((shown(name), samples(rest).ok()?)),
        _ => None,
    }
}

/// How many looks a line has, a last short one included.
fn count_looks(line: &[u8]) -> usize {
    samples_of(line).map_or(0, |(_, samples)| samples.chunks(8).len())
}

/// A line with fewer closed contacts in one row of some of its looks, if there are fewer then.
fn with_row_masked(
    line: &[u8],
    (row, mask): (usize, u16),
    place: usize,
    count: usize,
) -> Option<Line> {
    let (command, before) = samples_of(line)?;
    let mut samples = before.clone();
    let rows = samples.iter_mut().skip(8 * place + row).step_by(8);
    rows.take(count).for_each(|sample| *sample &= mask);
    Some(sampled(&command, &samples).into_bytes()).filter(|_| samples != before)
}

/// Clears the bits of pin samples that are not needed.
fn lower(kept: &mut Vec<Line>, differs: &mut Differs) -> bool {
    let bits = |line: &[u8]| levels_of(line).map_or(0, |_| 32);
    make_plainer(kept, bits, &with_bits_cleared, differs)
}

/// The bits of a pin sample.
fn levels_of(line: &[u8]) -> Option<u32> {
    match words(line).as_slice() {
        [b"pins", sample] => number(sample, 16, u32::MAX).ok(),
        _ => None,
    }
}

/// A pin sample with some bits cleared, if there are fewer then.
fn with_bits_cleared(line: &[u8], place: usize, count: usize) -> Option<Line> {
    let before = levels_of(line)?;
    let bits = (place..place + count).fold(before, |bits, bit| bits & !(1 << bit));
    Some(format!("pins {bits:X}").into_bytes()).filter(|_| bits != before)
}

/// Compares a program with the second module on a script. Says whether they are the same.
pub fn compare(seed: u64, script: &[Line], program: &[OsString]) -> io::Result<bool> {
    let found = match difference(script, run_program(program, script)?) {
        Some(found) => found,
        None => {
            println!("same: seed {seed}, {} lines", script.len());
            return Ok(true);
        }
    };
    println!("different: seed {seed}, line {} of {}", found.line + 1, script.len());
    show(script, &found)?;
    let mut differs = |lines: &[Line]| {
        let theirs = run_program(program, lines).ok()?;
        difference(lines, theirs).map(|found| found.line)
    };
    let short = cut_down(script, &mut differs);
    println!("cut down to {} lines:", short.len());
    for line in &short {
        show_line("", line)?;
    }
    if let Some(found) = difference(&short, run_program(program, &short)?) {
        show(&short, &found)?;
    }
    Ok(false)
}

/// Shows the command that is answered differently and both answers.
fn show(script: &[Line], found: &Difference) -> io::Result<()> {
    let command = script.get(found.line).map_or("(none)".as_bytes(), Line::as_slice);
    show_line("command:       ", command)?;
    show_line("second module: ", &found.ours)?;
    show_line("the program:   ", &found.theirs)
}

/// Shows a line byte for byte, unless it is very long.
fn show_line(name: &str, line: &[u8]) -> io::Result<()> {
    let mut out = io::stdout();
    out.write_all(name.as_bytes())?;
    out.write_all(&line[..line.len().min(SHOWN)])?;
    if line.len() > SHOWN {
        write!(out, " .. ({} bytes)", line.len())?;
    }
    out.write_all(b"\n")
}
