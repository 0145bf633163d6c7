//! How answers and ends are compared and scripts are cut down.

use second::compare::{cut_down, difference};
use second::console::{end, Console};
use second::script::Line;

/// Lines from texts.
fn lines(texts: &[&str]) -> Vec<Line> {
    texts.iter().map(|text| text.as_bytes().to_vec()).collect()
}

/// The line of the first difference from a console that gives these answers and ends.
fn differs_at(script: &[&str], theirs: &[&str], status: i32) -> Option<usize> {
    let end = end(status).into_bytes();
    difference(&lines(script), lines(theirs).into_iter().chain([end])).map(|found| found.line)
}

#[test]
fn the_words_after_a_question_mark_do_not_count() {
    let script = ["foo", "irq"];
    assert_eq!(differs_at(&script, &["? unknown command", "0 yes"], 1), None);
    assert_eq!(differs_at(&script, &["? what is foo", "0 yes"], 1), None);
    assert_eq!(differs_at(&script, &["?", "0 yes"], 1), None);
    assert_eq!(differs_at(&script, &["0", "0 yes"], 1), Some(0));
    assert_eq!(differs_at(&script, &["foo?", "0 yes"], 1), Some(0));
    assert_eq!(differs_at(&script, &["?", "? yes"], 1), Some(1));
}

#[test]
fn a_drawing_is_compared_line_by_line() {
    let script = ["irq", "undo 10 : 21 10", "irq"];
    let first = "trim key 1.0; codes: 2; + press, - release";
    let (alone, open) = ("   0  alone  +2.1", "   1  open   +1.0");
    assert_eq!(differs_at(&script, &["0 yes", first, alone, open, ".", "0 yes"], 0), None);
    for wrong in [
        &["0 yes", first, alone, "   1  open   +1.1", ".", "0 yes"][..],
        &["0 yes", first, alone, ".", "0 yes"],
        &["0 yes", first, alone, open, "0 yes"],
        &["0 yes", ".", "0 yes"],
        &["0 yes", first, alone, open],
    ] {
        assert_eq!(differs_at(&script, wrong, 0), Some(1), "{wrong:?}");
    }
    assert_eq!(differs_at(&script, &["0 yes", first, alone, open, "."], 0), Some(2));
}

#[test]
fn answers_that_are_missing_or_too_many() {
    let script = ["# comment", "irq", "", "read 10 1"];
    assert_eq!(differs_at(&script, &["0 yes", "0 7F"], 0), None);
    assert_eq!(differs_at(&script, &["0 yes", "0 7f"], 0), Some(3));
    assert_eq!(differs_at(&script, &["0 yes"], 0), Some(3));
    assert_eq!(differs_at(&script, &[], 0), Some(1));
    assert_eq!(differs_at(&script, &["0 yes", "0 7F", "0"], 0), Some(3));
    assert_eq!(differs_at(&[], &[], 0), None);
    assert_eq!(differs_at(&[], &["0"], 0), Some(0));
}

#[test]
fn the_status_is_that_of_the_lines_that_were_read() {
    for (script, answers, status) in [
        (&["irq", "#", "read 10 1"][..], &["0 yes", "0 7F"][..], 0),
        (&["irq", "foo", "read 10 1"], &["0 yes", "?", "0 7F"], 1),
        (&["irq", "quit", "foo"], &["0 yes"], 0),
        (&["foo", "irq", "quit"], &["?", "0 yes"], 1),
        (&["quit now", "irq"], &["?", "0 yes"], 1),
    ] {
        let last = Some(script.len() - 1);
        assert_eq!(differs_at(script, answers, status), None, "{script:?}");
        for wrong in [1 - status, 2, 255] {
            assert_eq!(differs_at(script, answers, wrong), last, "{script:?}, {wrong}");
        }
    }
}

#[test]
fn what_stands_after_quit_is_not_read() {
    let script = ["irq", "quit", "irq", "read 10 1"];
    assert_eq!(differs_at(&script, &["0 yes"], 0), None);
    assert_eq!(differs_at(&script, &["0 yes", "0 yes", "0 7F"], 0), Some(3));
    assert_eq!(differs_at(&script, &["0 yes", "?", "0 yes", "0 7F"], 1), Some(3));
}

#[test]
fn only_what_leads_to_the_difference_is_kept() {
    // A stand-in that goes wrong at a line `c` after a line `a` and a look with row 2 column 0.
    let mut differs = |script: &[Line]| {
        let key = |line: &Line| line.starts_with(b"look 0 0 1 ");
        let a = script.iter().position(|line| line == b"a")?;
        let look = a + script[a..].iter().position(key)?;
        Some(look + script[look..].iter().position(|line| line == b"c")?)
    };
    let mut script = lines(&["b", "a", "b", "b", "a"]);
    script.extend(lines(&["look 0 0 1 0FFF 1FFF 0000 0 0"]));
    script.extend(lines(&["b", "b", "c", "b", "c", "a"]));
    let expected = ["a", "look 0 0 1 0 0 0 0 0", "c"];
    assert_eq!(cut_down(&script, &mut differs), lines(&expected));
}

#[test]
fn only_the_calls_that_lead_to_the_difference_are_kept() {
    // A stand-in that goes wrong at a list with a read of EVTCODE and a write behind it.
    let calls = |line: &Line| match line.starts_with(b"unpack") {
        true => Console::new().answer(line).unwrap(),
        false => String::from_utf8_lossy(line).into_owned(),
    };
    let mut differs = |script: &[Line]| {
        script.iter().map(calls).position(|calls| {
            let read = calls.find("read 10");
            read.map_or(false, |read| calls[read..].contains("write"))
        })
    };
    for (line, short) in [
        (
            "pack 99 reset;read 10 1;look 0 0 0 0 0 0 0 0;read 10 2;write 02 01;reset",
            "pack 99 read 10 2 ; write 02 01",
        ),
        // 11, 10 00010000 00000, 01 10000100 00000 00000001, and the last two of them
        ("unpack E1003080 01", "unpack 84 00 C2 00 04"),
    ] {
        assert_eq!(cut_down(&lines(&["irq", line, "irq"]), &mut differs), lines(&[short]));
    }
}

#[test]
fn only_the_codes_that_lead_to_the_difference_are_kept() {
    // A stand-in that goes wrong at a list with a 10 and a 90 somewhere behind it.
    let mut differs = |script: &[Line]| {
        script.iter().map(|line| String::from_utf8_lossy(line).into_owned()).position(|text| {
            let list = text.find(" 10").filter(|_| text.contains("3C"));
            list.map_or(false, |list| text[list..].contains(" 90"))
        })
    };
    let codes = " 21 A1 10 05 85 21 90 A1".to_string() + &" 32 B2".repeat(120);
    for start in ["group 1 3C 7", "groups 1 3C", "fetch\t1  3C 7", "undo 3C :"] {
        let cut = cut_down(&lines(&["irq", &format!("{start}{codes} \r"), "irq"]), &mut differs);
        let words: Vec<&str> = start.split_whitespace().collect();
        assert_eq!(cut, lines(&[&format!("{} 10 90", words.join(" "))]));
    }
}

#[test]
fn only_the_pins_that_lead_to_the_difference_are_kept() {
    // A stand-in that goes wrong at a sample with pin 2 high and a later one with pin 18 high.
    let mut differs = |script: &[Line]| {
        let has = |line: &Line, bit: u32| {
            let text = String::from_utf8_lossy(line);
            let sample = text.trim().strip_prefix("pins ").map(|text| text.trim().to_string());
            let sample = sample.and_then(|text| u32::from_str_radix(&text, 16).ok());
            sample.map_or(false, |sample| sample >> bit & 1 == 1)
        };
        let first = script.iter().position(|line| has(line, 2))?;
        Some(first + script[first..].iter().position(|line| has(line, 18))?)
    };
    let script = lines(&["pins 0", "pins FC", "irq", "pins  00fffffFfF \r", "drive"]);
    assert_eq!(cut_down(&script, &mut differs), lines(&["pins 40004"]));
    let script = lines(&["pins 3FFFC", "pins", "pins 40000 0", "pins 7ffff"]);
    assert_eq!(cut_down(&script, &mut differs), lines(&["pins 40004"]));
    let script = lines(&["pins 3FFFC", "irq", "pins 7fff8"]);
    assert_eq!(cut_down(&script, &mut differs), lines(&["pins 4", "pins 40000"]));
}

/// The samples of a block, or none of any other line.
fn block(line: &Line) -> Vec<u16> {
    let text = String::from_utf8_lossy(line);
    let words = text.strip_prefix("looks").unwrap_or_default().split_whitespace();
    words.map(|word| u16::from_str_radix(word, 16).unwrap()).collect()
}

#[test]
fn only_the_looks_that_lead_to_the_difference_are_kept() {
    // A stand-in that goes wrong at a block with row 2 column 0 in a look and row 0 column 1 later.
    let mut differs = |script: &[Line]| {
        script.iter().map(block).position(|block| {
            let mut looks = block.chunks(8);
            let first = looks.any(|look| look.get(2).map_or(false, |sample| sample & 1 == 1));
            first && looks.any(|look| look[0] & 2 == 2)
        })
    };
    let quiet = " 0000 0 0 0 0 0 0 0";
    let (first, then) = (" 1 2 0003 1fff 0 0 0 1000", " 7 0 1 0 0 0 0 FFFF");
    let short = "looks 0 0 1 0 0 0 0 0 2 0 0 0 0 0 0 0";
    for line in [
        format!("looks{first}{then}"),
        format!("looks {quiet}{first}{quiet}\t{then}{quiet} \r"),
        format!("looks{}{first}{}{then}{first}", quiet.repeat(100), quiet.repeat(300)),
    ] {
        let cut = cut_down(&lines(&["irq", "looks 3 3", &line, "irq"]), &mut differs);
        assert_eq!(cut, lines(&[short]), "{line}");
    }
    // A part of a look at the end goes by itself, and stays where it is needed.
    let line = format!("looks{first}{then} 1FF0 3");
    assert_eq!(cut_down(&lines(&[&line]), &mut differs), lines(&[short]));
    let mut uneven = |script: &[Line]| script.iter().position(|line| block(line).len() % 8 != 0);
    assert_eq!(cut_down(&lines(&[&line]), &mut uneven), lines(&["looks 0 0"]));
}

#[test]
fn of_a_very_long_block_some_looks_are_left() {
    // A stand-in that goes wrong at a block of more than 256 looks.
    let mut differs = |script: &[Line]| script.iter().position(|line| block(line).len() > 8 * 256);
    let line = format!("looks{}", " 0 0 0 0 0 0 0 1".repeat(1023));
    let cut = cut_down(&lines(&["looks 0", &line]), &mut differs);
    assert_eq!(cut.len(), 1);
    let samples = block(&cut[0]);
    assert!(samples.len() < 8 * 270, "{} samples", samples.len());
    assert!(samples.iter().all(|sample| *sample == 0));
}
