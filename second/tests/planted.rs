//! The random scripts find every planted error, and what they find is cut down to a few lines.
//!
//! A planted error is a plausible mistake: an edit of the module, of the console or of what the
//! console is made of, tests/planted/NAME.edit. The console with the edit in it is compared as
//! another console is. Each error can be seen through the console's language, or in the recording of
//! a session; mistakes that no bus can see are not among them.

// The edited copies find here what they name.
use second::{calls, carry, fetched, grouped, module, pins, typed, undo, words};

use second::compare::{cut_down, difference};
use second::console::Console;
use second::script::{script, Line};

/// The answers that a console gives to a script, with their places.
type Answers<'a> = Box<dyn Iterator<Item = (usize, String)> + 'a>;

/// The lists that a console records of a script, one for every so many lines.
type Lists<'a> = Box<dyn Iterator<Item = Vec<u8>> + 'a>;

/// How many lines are recorded in a list.
const RECORDED: usize = 100;

/// The name of an error, and what the console with this error answers to a script, and records of it.
type Planted =
    (&'static str, for<'a> fn(&'a [Line]) -> Answers<'a>, for<'a> fn(&'a [Line]) -> Lists<'a>);

/// An error by its name and the console with it.
macro_rules! planted {
    ($name:expr, $console:expr) => {
        (
            $name,
            |script| Box::new($console.answers(script)),
            |script| {
                let mut console = $console;
                Box::new(script.chunks(RECORDED).map(move |lines| {
                    console.record();
                    lines.iter().for_each(|line| drop(console.answer(line)));
                    console.recorded()
                }))
            },
        )
    };
}

include!(concat!(env!("OUT_DIR"), "/planted.rs"));

const SEED: u64 = 1;
const LINES: usize = 60_000;

/// The longest cut-down script. One error takes 255 looks to show.
fn longest(name: &str) -> usize {
    if name == "short-memory" {
        260
    } else {
        25
    }
}

/// The console without an error.
const PLAIN: Planted = planted!("none", Console::new());

/// The first line that a console with a planted error answers differently. Of an error of the
/// recorder, the last line of the first list that is another.
fn differs(lines: &[Line], planted: &Planted) -> Option<usize> {
    if planted.0.starts_with("record-") {
        let mut lists = planted.2(lines).zip(PLAIN.2(lines));
        let place = lists.position(|(theirs, ours)| theirs != ours)?;
        return Some(lines.len().min(RECORDED * (place + 1)) - 1);
    }
    let answers = planted.1(lines).map(|(_, answer)| answer.into_bytes());
    difference(lines, answers).map(|found| found.line)
}

#[test]
fn every_planted_error_is_found_and_cut_down() {
    let whole = script(SEED, LINES);
    for planted in PLANTED {
        let name = planted.0;
        let line = differs(&whole, planted).unwrap_or_else(|| panic!("{name} is not found"));
        let short = cut_down(&whole[..=line], &mut |lines| differs(lines, planted));
        assert!(differs(&short, planted).is_some(), "{name} is lost");
        assert!(short.len() <= longest(name), "{name} takes {} lines", short.len());
    }
}

#[test]
fn every_planted_error_is_found_by_other_seeds() {
    for seed in 2..5 {
        let whole = script(seed, LINES);
        let missed = PLANTED.iter().filter(|planted| differs(&whole, planted).is_none());
        let missed: Vec<&str> = missed.map(|planted| planted.0).collect();
        assert!(missed.is_empty(), "not found with seed {seed}: {missed:?}");
    }
}

#[test]
fn without_an_error_there_is_no_difference() {
    let whole = script(SEED, LINES);
    assert_eq!(differs(&whole, &PLAIN), None);
    assert_eq!(differs(&whole, &("record-none", PLAIN.1, PLAIN.2)), None);
}

#[test]
fn many_errors_are_planted() {
    assert!(PLANTED.len() >= 24);
}
