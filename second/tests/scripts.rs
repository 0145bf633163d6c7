//! What the random scripts reach.

mod watched;

use second::console::{Console, LONGEST};
use second::malformed::{BYTES, ODD, WRONG};
use second::script::{script, Line};
use std::collections::{HashMap, HashSet};
use watched::sleep::{self, Calm};
use watched::{counts, pins, Kind};

/// The answers to a script.
fn answers(script: &[Line]) -> Vec<String> {
    let mut console = Console::new();
    script.iter().filter_map(|line| console.answer(line)).collect()
}

/// The answers to those lines of a script.
fn answers_where(script: &[Line], those: impl Fn(&Line) -> bool) -> Vec<String> {
    let mut console = Console::new();
    let with_lines = script.iter().map(|line| (line, console.answer(line)));
    with_lines.filter(|(line, _)| those(line)).filter_map(|pair| pair.1).collect()
}

/// The answers to the lines of a script that are exactly this command.
fn answers_to(script: &[Line], command: &str) -> Vec<String> {
    answers_where(script, |line| line == command.as_bytes())
}

#[test]
fn a_longer_script_begins_with_a_shorter_one() {
    assert_eq!(script(1, 1000), script(1, 5000)[..1000]);
    // All but its last tenth, if there is a special line.
    for seed in 2..4 {
        assert_eq!(script(seed, 1000)[..900], script(seed, 5000)[..900]);
    }
    assert_ne!(script(3, 1000), script(4, 1000));
    assert!(script(3, 0).is_empty());
}

#[test]
fn every_number_is_given_but_eight_and_nine() {
    let answers = answers(&script(1, 20_000));
    for number in (0..=6).chain(20..=27).map(|number| number.to_string()) {
        assert!(answers.contains(&number), "{number}");
    }
    for number in ["7 no", "0 yes", "0 no", "0 reset", "0 look ", "0 write ", "0 read ", "? "] {
        assert!(answers.iter().any(|answer| answer.starts_with(number)), "{number}");
    }
    assert!(!answers.iter().any(|answer| answer.starts_with(['8', '9'])));
}

#[test]
fn all_flags_occur_together() {
    let seen = answers_to(&script(1, 60_000), "read 06 1");
    for flags in 0..16 {
        assert!(seen.contains(&format!("0 {flags:02X}")), "{flags:02X}");
    }
}

#[test]
fn the_queue_runs_full_and_empty() {
    let seen = answers_to(&script(1, 20_000), "read 10 32");
    for waiting in [0, 1, 2, 5, 10, 14, 15] {
        let empty = 32 - waiting;
        let found = seen.iter().any(|answer| answer.matches(" 7F").count() == empty);
        assert!(found, "{waiting} waiting");
    }
}

#[test]
fn nothing_without_counterpart_is_asked() {
    let lines = script(1, 60_000);
    assert!(lines.iter().all(|line| !line.contains(&b'\n')));
    assert!(!answers(&lines).contains(&".".to_string()));
}

/// How many lines of a script begin with this word.
fn count(script: &[Line], word: &str) -> usize {
    let first = |line: &&Line| {
        let text = String::from_utf8_lossy(line);
        text.split_whitespace().next() == Some(word)
    };
    script.iter().filter(first).count()
}

/// Whether a script has a line of exactly these words.
fn says(script: &[Line], line: &str) -> bool {
    script.iter().any(|said| said == line.as_bytes())
}

#[test]
fn every_malformed_line_is_in_every_script() {
    for seed in 1..4 {
        let lines = script(seed, 60_000);
        let found: HashSet<&[u8]> = lines.iter().map(Line::as_slice).collect();
        let texts = WRONG.iter().chain(&ODD).map(|text| text.as_bytes());
        for line in texts.chain(BYTES) {
            assert!(found.contains(line), "{} with seed {seed}", String::from_utf8_lossy(line));
        }
    }
}

#[test]
fn every_wrong_line_is_refused() {
    for line in WRONG.iter().map(|text| text.as_bytes()).chain(BYTES) {
        let answer = Console::new().answer(line).unwrap();
        assert!(answer.starts_with("? "), "{}", String::from_utf8_lossy(line));
    }
}

#[test]
fn one_script_of_eight_quits_late() {
    for seed in 1..17 {
        let lines = script(seed, 2000);
        let (mut console, mut ends) = (Console::new(), None);
        for (place, line) in lines.iter().enumerate() {
            console.answer(line);
            ends = ends.or(Some(place).filter(|_| console.has_ended()));
        }
        match seed % 8 {
            3 => assert!((1800..2000).contains(&ends.unwrap()), "seed {seed}"),
            _ => assert_eq!(ends, None, "seed {seed}"),
        }
    }
}

#[test]
fn one_script_of_eight_waits_as_long_as_can_be() {
    for seed in 1..17 {
        let lines = script(seed, 2000);
        assert!(!says(&lines[..1800], "wait 65535"), "seed {seed}");
        assert_eq!(says(&lines[1800..], "wait 65535"), seed % 8 == 2, "seed {seed}");
    }
}

#[test]
fn fingers_move_in_every_script() {
    for seed in 1..4 {
        let lines = script(seed, 30_000);
        for word in ["press", "release", "wait"] {
            assert!(count(&lines, word) > 250, "{word} with seed {seed}");
        }
        for line in ["wait 0", "wait 1", "wait 256", "press 0 SF", "release 1 sf"] {
            assert!(says(&lines, line), "{line} with seed {seed}");
        }
    }
}

/// How often each number is the answer to each command.
fn numbers(script: &[Line]) -> HashMap<(String, String), usize> {
    let (mut console, mut numbers) = (Console::new(), HashMap::new());
    let first = |text: &str| text.split_whitespace().next().unwrap_or_default().to_string();
    for line in script {
        if let Some(answer) = console.answer(line) {
            let pair = (first(&String::from_utf8_lossy(line)), first(&answer));
            *numbers.entry(pair).or_default() += 1;
        }
    }
    numbers
}

#[test]
fn lists_and_blocks_are_in_every_script() {
    for seed in 1..4 {
        let given = numbers(&script(seed, 60_000));
        for (word, answers) in [
            ("pack", &["0", "1", "2", "3", "4", "21", "?"][..]),
            ("unpack", &["0", "20", "?"]),
            ("play", &["0", "20", "?"]),
            ("looks", &["0", "1", "2", "?"]),
        ] {
            for number in answers {
                let times = given.get(&(word.to_string(), number.to_string()));
                assert!(
                    times > Some(&20),
                    "{word} gives {number} {times:?} times with seed {seed}"
                );
            }
            let others = given.keys().filter(|(first, _)| first == word).count();
            assert_eq!(others, answers.len(), "{word} with seed {seed}");
        }
    }
}

#[test]
fn blocks_are_done_and_stopped_at_every_place() {
    for seed in 1..4 {
        let seen = answers_where(&script(seed, 60_000), |line| line.starts_with(b"looks"));
        let times = |answer: &str| seen.iter().filter(|seen| *seen == answer).count();
        for done in 0..8 {
            assert!(times(&format!("0 {done}")) > 20, "0 {done} with seed {seed}");
            assert!(times(&format!("2 {done}")) > 3, "2 {done} with seed {seed}");
        }
        for number in ["0 ", "2 "] {
            let hundreds = seen.iter().filter_map(|seen| seen.strip_prefix(number)?.parse().ok());
            assert!(hundreds.filter(|done: &usize| *done > 255).count() > 2, "{number}, {seed}");
        }
    }
}

#[test]
fn the_longest_lists_are_carried() {
    let lines = script(1, 60_000);
    for word in ["pack", "unpack", "play"] {
        for length in [LONGEST - 1, LONGEST] {
            let long = lines.iter().filter(|line| line.len() == length);
            let long: Vec<Line> = long.cloned().collect();
            assert!(count(&long, word) > 0, "{word} of {length} bytes");
        }
    }
    let longest = answers(&lines).iter().map(String::len).max();
    assert!(longest > Some(250_000));
}

#[test]
fn rows_are_hidden_in_a_quarter_of_the_looks() {
    for seed in 1..4 {
        let counts = counts(&script(seed, 60_000));
        assert!(4 * counts[&Kind::Hiding] >= counts[&Kind::Done], "seed {seed}: {counts:?}");
        // Looks without a closed SF contact stay frequent.
        assert!(5 * counts[&Kind::Plain] >= counts[&Kind::Done], "seed {seed}: {counts:?}");
        for (kind, least) in [
            (Kind::HidingLong, 15_000),
            (Kind::HidingAll, 30),
            (Kind::Outside, 1000),
            (Kind::Settling, 2000),
            (Kind::Changing, 3000),
            (Kind::Due, 150),
            (Kind::Across, 150),
        ] {
            let times = counts[&kind];
            assert!(times >= least, "{kind:?} {times} times with seed {seed}");
        }
    }
}

/// How often what is worth watching happens to the pins, at least.
const PINS: [(pins::Kind, usize); 20] = [
    (pins::Kind::Sampled, 2000),
    (pins::Kind::LineRises, 30),
    (pins::Kind::Falling, 80),
    (pins::Kind::Many, 2),
    (pins::Kind::FreedTurns, 20),
    (pins::Kind::UsedChanges, 500),
    (pins::Kind::LevelChanges, 30),
    (pins::Kind::First, 40),
    (pins::Kind::FirstHigh, 40),
    (pins::Kind::Declined, 100),
    (pins::Kind::DeclinedFirst, 20),
    (pins::Kind::DeclinedChanges, 50),
    (pins::Kind::TakenPending, 40),
    (pins::Kind::FreedDrives, 20),
    (pins::Kind::AgainstTransistor, 15),
    (pins::Kind::ByTransistor, 15),
    (pins::Kind::ClearLeaves, 50),
    (pins::Kind::Clears, 150),
    (pins::Kind::NoneEnabled, 500),
    (pins::Kind::EnableRaises, 15),
];

/// Where runs of pin registers end: what reads and writes can't cross, and where they can't begin.
const READ_OVER: [u8; 8] = [0x92, 0xB0, 0xC1, 0xC3, 0xC5, 0xD5, 0xDC, 0xE6];
const WRITTEN_OVER: [u8; 4] = [0xB0, 0xD5, 0xDF, 0xE6];
const NOT_READ: [u8; 10] = [0x92, 0xB0, 0xC1, 0xC3, 0xC5, 0xD5, 0xDC, 0xDE, 0xDF, 0xE6];
const NOT_WRITTEN: [u8; 9] = [0x91, 0x92, 0xB0, 0xD5, 0xD6, 0xD9, 0xDB, 0xDF, 0xE6];

#[test]
fn pins_of_every_kind_occur() {
    let mut least = PINS.to_vec();
    least.extend(READ_OVER.map(|gap| (pins::Kind::Crosses(gap, true), 5)));
    least.extend(WRITTEN_OVER.map(|gap| (pins::Kind::Crosses(gap, false), 2)));
    least.extend(NOT_READ.map(|gap| (pins::Kind::Unknown(gap, true), 1)));
    least.extend(NOT_WRITTEN.map(|gap| (pins::Kind::Unknown(gap, false), 1)));
    for seed in 1..5 {
        let counts = pins::counts(&script(seed, 60_000));
        for (kind, least) in &least {
            let times = counts.get(kind).copied().unwrap_or(0);
            assert!(times >= *least, "{kind:X?} {times} times with seed {seed}");
        }
    }
}

#[test]
fn every_interrupt_status_is_read() {
    for seed in 1..5 {
        let seen = answers_to(&script(seed, 60_000), "read 91 1");
        for status in ["00", "01", "40", "41", "80", "81", "C0", "C1"] {
            assert!(seen.contains(&format!("0 {status}")), "{status} with seed {seed}");
        }
    }
}

#[test]
fn pins_have_their_share_of_every_script() {
    for seed in 1..5 {
        let lines = script(seed, 60_000);
        let given = numbers(&lines);
        for (number, least) in [("0", 2000), ("26", 100), ("?", 20)] {
            let times = given.get(&("pins".to_string(), number.to_string()));
            assert!(times > Some(&least), "pins gives {number} {times:?} times with seed {seed}");
        }
        assert!((400..2500).contains(&count(&lines, "drive")), "seed {seed}");
        assert!((2500..6000).contains(&count(&lines, "pins")), "seed {seed}");
    }
}

/// How often what is worth watching happens to the panel's sleep, at least.
const SLEEP: [(sleep::Kind, usize); 37] = [
    (sleep::Kind::Falls, 150),
    (sleep::Kind::FallsInBlock, 10),
    (sleep::Kind::FallsWaiting, 100),
    (sleep::Kind::FallsHeld, 100),
    (sleep::Kind::FallsHiding, 60),
    (sleep::Kind::FallsOutside, 80),
    (sleep::Kind::FallsBehind(Calm::Declined(3)), 5),
    (sleep::Kind::FallsBehind(Calm::Declined(4)), 5),
    (sleep::Kind::FallsBehind(Calm::Declined(5)), 5),
    (sleep::Kind::FallsBehind(Calm::Declined(6)), 5),
    (sleep::Kind::FallsBehind(Calm::Look), 5),
    (sleep::Kind::FallsBehind(Calm::Block), 1),
    (sleep::Kind::FallsBehind(Calm::Pins(true)), 5),
    (sleep::Kind::FallsBehind(Calm::Pins(false)), 2),
    (sleep::Kind::FallsBehind(Calm::Question), 10),
    (sleep::Kind::Asleep(Calm::Look), 10),
    (sleep::Kind::Asleep(Calm::Block), 5),
    (sleep::Kind::Asleep(Calm::Pins(true)), 20),
    (sleep::Kind::Asleep(Calm::Pins(false)), 2),
    (sleep::Kind::Asleep(Calm::Question), 20),
    (sleep::Kind::Refused(true), 60),
    (sleep::Kind::Refused(false), 30),
    (sleep::Kind::RefusedFor(0), 60),
    (sleep::Kind::RefusedFor(3), 5),
    (sleep::Kind::RefusedFor(4), 5),
    (sleep::Kind::RefusedFor(5), 5),
    (sleep::Kind::RefusedFor(6), 5),
    (sleep::Kind::RefusedSize, 5),
    (sleep::Kind::RefusedCode, 10),
    (sleep::Kind::Change, 15),
    (sleep::Kind::Dropped, 2),
    (sleep::Kind::Settling, 15),
    (sleep::Kind::BusyInBlock, 2),
    (sleep::Kind::Reset, 5),
    (sleep::Kind::ResetBreaks, 5),
    (sleep::Kind::LastDone, 10),
    (sleep::Kind::HiddenAwake, 20),
];

#[test]
fn nights_of_every_kind_occur() {
    for seed in 1..5 {
        let counts = sleep::counts(&script(seed, 60_000));
        for (kind, least) in &SLEEP {
            let times = counts.get(kind).copied().unwrap_or(0);
            assert!(times >= *least, "{kind:?} {times} times with seed {seed}");
        }
        assert!(counts[&sleep::Kind::SleepsOn] >= 1000, "seed {seed}");
    }
}

#[test]
fn most_short_scripts_fall_asleep() {
    let falls = |seed: &u64| sleep::counts(&script(*seed, 2000)).contains_key(&sleep::Kind::Falls);
    let asleep = (1..33).filter(falls).count();
    assert!(asleep >= 24, "{asleep} of 32");
}

/// The lines of a script about undo groups, with their answers.
struct Grouped {
    seed: u64,
    answers: Vec<(String, String)>,
}

impl Grouped {
    /// Those of the script of a seed.
    fn new(seed: u64) -> Grouped {
        let (mut console, mut answers) = (Console::new(), Vec::new());
        for line in script(seed, 60_000) {
            let answer = console.answer(&line);
            let text = String::from_utf8_lossy(&line).into_owned();
            let word = text.split_whitespace().next().unwrap_or_default();
            if ["group", "groups", "fetch", "undo"].contains(&word) {
                answers.extend(answer.map(|answer| (text, answer)));
            }
        }
        Grouped { seed, answers }
    }

    /// The answers to those lines.
    fn to(&self, those: impl Fn(&str) -> bool) -> Vec<&str> {
        let lines = self.answers.iter().filter(|(line, _)| those(line));
        lines.map(|(_, answer)| answer.as_str()).collect()
    }

    /// Sees to it that more than so many answers are such ones.
    fn see(&self, answers: &[&str], least: usize, name: &str, such: impl Fn(&str) -> bool) {
        let times = answers.iter().filter(|answer| such(answer)).count();
        assert!(times > least, "{name} {times} times with seed {}", self.seed);
    }

    /// Every answer to a question for a place or for all groups.
    fn see_answers(&self) {
        for (word, answers) in [
            ("group ", &["0 group", "0 open", "0 end", "22", "23", "24", "25", "?"][..]),
            ("groups ", &["0 group", "0 open", "0 end", "23", "24", "?"]),
            ("fetch ", &["0 ", "0", "22", "23", "24", "25", "?"]),
        ] {
            let seen = self.to(|line| line.starts_with(word));
            for begin in answers {
                self.see(&seen, 5, &format!("{word}{begin}"), |answer| answer.starts_with(begin));
            }
            let known = |answer: &&&str| answers.iter().any(|begin| answer.starts_with(begin));
            assert_eq!(seen.iter().filter(known).count(), seen.len(), "{word}");
        }
        let all = self.to(|line| line.starts_with("groups "));
        self.see(&all, 50, "an open tail", |answer| answer.contains(" open "));
        self.see(&all, 50, "no open tail", |answer| answer.ends_with(" end"));
    }

    /// Every kind of drawing, of lists and of sessions.
    fn see_drawings(&self) {
        let lists = self.to(|line| line.starts_with("undo ") && line.contains(':'));
        let sessions = self.to(|line| line.starts_with("undo ") && !line.contains(':'));
        for seen in [&lists, &sessions] {
            for kind in ["  group  +", "  alone  +", "  alone  -", "  open   +", "codes: 0;"] {
                self.see(seen, 20, kind, |drawing| drawing.contains(kind));
            }
            for kind in ["23 the trim key", "24 place ", "? "] {
                self.see(seen, 5, kind, |drawing| drawing.starts_with(kind));
            }
            for turn in [" presses a key ", " lets go a key "] {
                self.see(seen, 5, turn, |drawing| drawing.contains(turn));
            }
        }
        self.see(&lists, 20, "23 place", |drawing| drawing.starts_with("23 place "));
    }

    /// Short and long groups, and keys that are held over them.
    fn see_groups(&self) {
        let drawings = self.to(|line| line.starts_with("undo "));
        let lines = drawings.iter().flat_map(|drawing| drawing.lines());
        let groups: Vec<&str> = lines.filter(|line| line.contains("  group  ")).collect();
        let length = |line: &str| line.split_whitespace().count() - 2;
        for exact in 2..10 {
            self.see(&groups, 10, &format!("length {exact}"), |line| length(line) == exact);
        }
        let answers = self.to(|line| line.starts_with("group"));
        self.see(&answers, 0, "more than 255 codes", |answer| longest(answer) > 255);
        self.see(&groups, 100, "a key held over", is_held_over);
    }

    /// As many codes of a session as are kept, just less and just more.
    fn see_more(&self) {
        let drawings = self.to(|line| line.starts_with("undo "));
        for (count, more) in [(8191, false), (8192, false), (8192, true)] {
            let count = format!("codes: {count};");
            self.see(&drawings, 0, &count, |drawing| {
                drawing.contains(&count) && drawing.contains("only the first") == more
            });
        }
    }
}

/// How long the longest group is that an answer tells.
fn longest(answer: &str) -> usize {
    let words: Vec<&str> = answer.split(' ').collect();
    let groups = words.windows(3).filter(|words| words[0] == "group");
    let place = |word: &str| word.parse().unwrap_or(0);
    groups.map(|words| place(words[2]) - place(words[1])).max().unwrap_or(0_usize)
}

/// Whether a group has a release whose press is not in it.
fn is_held_over(line: &str) -> bool {
    let codes: Vec<&str> = line.split_whitespace().skip(2).collect();
    let keys = |sign| codes.iter().filter_map(move |code| code.strip_prefix(sign));
    let pressed: HashSet<&str> = keys('+').collect();
    keys('-').any(|key| !pressed.contains(key))
}

#[test]
fn undo_groups_of_every_kind_occur() {
    for seed in 1..5 {
        let seen = Grouped::new(seed);
        // About a tenth of all lines.
        assert!((3500..7500).contains(&seen.answers.len()), "seed {seed}");
        seen.see_answers();
        seen.see_drawings();
        seen.see_groups();
        seen.see_more();
    }
}

#[test]
fn the_longest_lists_are_cut_into_groups() {
    let mut lines = script(1, 60_000);
    lines.retain(|line| line.len() == LONGEST - 1 || line.len() == LONGEST);
    for word in ["group", "groups", "fetch", "undo"] {
        assert!(count(&lines, word) > 0, "{word}");
    }
}
