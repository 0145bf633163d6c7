//! Sleep (document 02, E7): after 255 quiet looks in a row the module sleeps, and the next access is
//! declined with 27, which wakes it.

use crate::playing::recorded;
use crate::{digits, packed, repeated, session};
use second::calls::{Call, Calls};
use second::console::Console;
use second::module::Module;

/// A look of nothing.
const OPEN: &str = "look 0 0 0 0 0 0 0 0";

/// A line that writes so many bytes of 0.
fn write_of(first: &str, count: usize) -> String {
    repeated(&format!("write {first}"), "00", count)
}

/// A block of so many looks of nothing, and these samples behind them.
fn block(count: usize, behind: &str) -> String {
    format!("{}{behind}", repeated("looks", "0 0 0 0 0 0 0 0", count))
}

// The edge.

#[test]
fn the_255th_quiet_look_falls_asleep() {
    for (looks, first) in [(0, "0 00"), (1, "0 00"), (253, "0 00"), (254, "0 00"), (255, "27")] {
        session(&format!(
            "
            wait {looks} -> 0
            read 06 1 -> {first}
            read 06 1 -> 0 00
            "
        ));
    }
}

#[test]
fn it_sleeps_on_however_long_it_lasts() {
    for looks in [256, 257, 300, 509, 510, 511, 512, 767, 65_535] {
        session(&format!(
            "
            wait {looks} -> 0
            read 06 1 -> 27
            read 06 1 -> 0 00
            "
        ));
    }
}

#[test]
fn every_access_is_declined_once_and_then_as_usual() {
    for (access, usual) in [
        ("read 06 1".to_string(), "0 00"),
        ("read 10 2".to_string(), "0 7F 7F"),
        ("read 0B 4".to_string(), "0 7F 7F 7F 7F"),
        ("read 91 1".to_string(), "0 80"),
        ("read 10 0".to_string(), "3"),
        ("read 10 33".to_string(), "4"),
        ("read 10 1024".to_string(), "4"),
        ("read 00 0".to_string(), "3"),
        ("read 00 1".to_string(), "5"),
        ("read 08 1".to_string(), "5"),
        ("read FF 2".to_string(), "5"),
        ("write 02 01".to_string(), "0"),
        ("write 03 22".to_string(), "0"),
        ("write 84 01".to_string(), "0"),
        ("write C6 0C".to_string(), "0"),
        ("write 03 1C".to_string(), "6"),
        ("write 06 00".to_string(), "5"),
        (write_of("02", 0), "3"),
        (write_of("02", 33), "4"),
    ] {
        session(&format!(
            "
            wait 255 -> 0
            {access} -> 27
            {access} -> {usual}
            "
        ));
    }
}

#[test]
fn the_buffer_stays() {
    let mut module = Module::new();
    (0..255).for_each(|_| assert_eq!(module.look(&[0; 8]), 0));
    let mut buffer = [0x55; 4];
    assert_eq!(module.read(0x02, &mut buffer[..2]), 27);
    assert_eq!(buffer, [0x55; 4]);
    assert_eq!(module.read(0x02, &mut buffer[..2]), 0);
    assert_eq!(buffer, [0x03, 0x22, 0x55, 0x55]);
}

// The row, and what breaks it.

#[test]
fn a_done_access_breaks_the_row() {
    for (access, answer) in [
        ("read 06 1", "0 00"),
        ("read 10 1", "0 7F"),
        ("read 91 1", "0 80"),
        ("write 02 03", "0"),
        ("write 08 00", "0"),
        ("write DC 00", "0"),
        ("write 03 22", "0"),
    ] {
        session(&format!(
            "
            wait 254 -> 0
            {access} -> {answer}
            wait 254 -> 0
            {access} -> {answer}
            wait 255 -> 0
            {access} -> 27
            "
        ));
    }
}

#[test]
fn an_access_declined_by_three_to_six_does_not() {
    for (access, number) in [
        ("read 10 0".to_string(), 3),
        ("read 10 33".to_string(), 4),
        ("read 00 1".to_string(), 5),
        ("read 09 2".to_string(), 5),
        (write_of("02", 0), 3),
        (write_of("02", 33), 4),
        ("write 06 00".to_string(), 5),
        ("write 03 22 00".to_string(), 5),
        ("write 03 1C".to_string(), 6),
        ("write 02 01 1C".to_string(), 6),
    ] {
        for (before, behind) in [(254, 1), (1, 254), (100, 155)] {
            session(&format!(
                "
                wait {before} -> 0
                {access} -> {number}
                {access} -> {number}
                wait {behind} -> 0
                {access} -> 27
                {access} -> {number}
                "
            ));
        }
    }
}

#[test]
fn a_refused_access_begins_the_row_anew() {
    session(
        "
        wait 255 -> 0
        read 06 1 -> 27
        wait 1 -> 0
        read 06 1 -> 0 00
        wait 300 -> 0
        write 03 1C -> 27
        wait 254 -> 0
        write 03 1C -> 6
        wait 1 -> 0
        write 03 1C -> 27
        wait 255 -> 0
        write 03 1C -> 27
        wait 254 -> 0
        read 06 1 -> 0 00
        ",
    );
}

#[test]
fn declined_looks_neither_break_the_row_nor_count() {
    let nine = repeated("look", "0", 9);
    session(&format!(
        "
        wait 254 -> 0
        look 2000 0 0 0 0 0 0 0 -> 2
        look 0 0 0 0 0 0 0 E001 -> 2
        look -> 1
        look 1 -> 1
        {nine} -> 1
        looks -> 0 0
        looks 0 -> 1 0
        looks 0 0 0 8000 0 0 0 0 0 0 0 0 0 0 0 0 -> 2 0
        read 00 1 -> 5
        wait 1 -> 0
        read 00 1 -> 27
        "
    ));
}

#[test]
fn questions_and_pin_samples_neither_break_the_row_nor_count() {
    session(
        "
        wait 254 -> 0
        held 0 0 -> 0 no
        held 8 0 -> 7 no
        irq -> 0 yes
        drive -> 0 -------------------
        pins 0 -> 0
        pins 7FFFF -> 0
        pins 80000 -> 26
        pack 9 read 10 1 -> 0 84 00
        unpack 84 00 -> 0 read 10 1
        play 00 -> 20
        read 00 1 -> 5
        wait 1 -> 0
        read 00 1 -> 27
        ",
    );
}

#[test]
fn a_restart_begins_the_row_anew() {
    session(
        "
        wait 254 -> 0
        reset -> 0
        wait 254 -> 0
        read 06 1 -> 0 00
        wait 200 -> 0
        write 03 22 -> 0
        wait 254 -> 0
        read 06 1 -> 0 00
        wait 200 -> 0
        reset -> 0
        wait 255 -> 0
        read 06 1 -> 27
        ",
    );
}

// Asleep.

#[test]
fn looks_questions_and_pin_samples_wake_nothing() {
    session(
        "
        wait 255 -> 0
        held 0 0 -> 0 no
        held 8 0 -> 7 no
        irq -> 0 yes
        drive -> 0 -------------------
        look 0 0 0 0 0 0 0 0 -> 0
        look 2000 0 0 0 0 0 0 0 -> 2
        look 1 -> 1
        looks -> 0 0
        looks 1 -> 1 0
        looks 0 0 0 0 0 0 0 2000 -> 2 0
        pins 80000 -> 26
        pins 0 -> 0
        pins 4 -> 0
        pack 9 read 10 1 -> 0 84 00
        play 00 -> 20
        foo -> ? unknown command: foo
        read D6 3 -> 27
        read D6 3 -> 0 04 00 00
        ",
    );
}

#[test]
fn a_pin_edge_asks_for_the_line_asleep() {
    session(
        "
        write 84 01 -> 0
        write D2 04 -> 0
        pins 0 -> 0
        wait 255 -> 0
        irq -> 0 no
        pins 4 -> 0
        irq -> 0 yes
        write DC 04 -> 27
        irq -> 0 yes
        write DC 04 -> 0
        irq -> 0 no
        ",
    );
}

#[test]
fn a_size_write_asleep_is_declined_and_restarts_nothing() {
    session(
        "
        write 02 01 8C -> 0
        press 1 1 -> 0
        wait 255 -> 0
        write 03 22 -> 27
        held 1 1 -> 0 yes
        read 02 2 -> 0 01 8C
        read 10 2 -> 0 11 7F
        write 03 22 -> 0
        held 1 1 -> 0 no
        ",
    );
    session(
        "
        wait 255 -> 0
        write 02 05 33 -> 27
        read 02 2 -> 0 03 22
        write 02 05 33 -> 0
        read 02 2 -> 0 05 33
        ",
    );
}

#[test]
fn a_refused_read_takes_nothing() {
    session(
        "
        write 02 01 8C -> 0
        look 3 0 0 0 0 0 0 0 -> 0
        read 0B 3 -> 0 80 01 7F
        wait 255 -> 0
        read 0E 1 -> 27
        read 06 1 -> 0 05
        read 0E 1 -> 0 7F
        read 06 1 -> 0 04
        wait 255 -> 0
        read 10 2 -> 27
        read 10 3 -> 0 00 01 7F
        ",
    );
}

#[test]
fn no_code_is_fetched_by_a_refused_read() {
    let lines = ["press 0 0", "wait 255", "read 10 1", "undo 10", "read 10 1", "undo 10"];
    let mut console = Console::new();
    let answers = lines.map(|line| console.answer(line.as_bytes()).unwrap());
    let drawn = |codes: &str| format!("trim key 1.0; codes: {codes}\n.");
    let none = drawn("0; + press, - release");
    let one = drawn("1; + press, - release\n   0  alone  +0.0");
    assert_eq!(answers, ["0", "0", "27", &none, "0 00", &one]);
}

#[test]
fn reset_wakes() {
    session(
        "
        wait 255 -> 0
        reset -> 0
        read 06 1 -> 0 00
        wait 255 -> 0
        reset -> 0
        wait 254 -> 0
        read 06 1 -> 0 00
        ",
    );
}

// Quiet looks, and others.

#[test]
fn a_change_wakes_and_breaks_the_row() {
    for (before, behind, answer) in [
        (255, 0, "0 00 7F"),
        (400, 254, "0 00 7F"),
        (254, 254, "0 00 7F"),
        (254, 255, "27"),
        (255, 255, "27"),
    ] {
        session(&format!(
            "
            write 02 01 -> 0
            wait {before} -> 0
            press 0 0 -> 0
            wait {behind} -> 0
            read 10 2 -> {answer}
            "
        ));
    }
    // So does a release, and the third of three looks.
    session(
        "
        press 0 0 -> 0
        wait 255 -> 0
        release 0 0 -> 0
        wait 254 -> 0
        read 10 3 -> 0 00 80 7F
        press 0 0 -> 0
        wait 255 -> 0
        read 10 3 -> 27
        ",
    );
}

#[test]
fn a_contact_that_settles_wakes_and_breaks_the_row() {
    // Three looks must agree: one closed sample changes nothing, and the next open one is quiet.
    for (before, behind, answer) in
        [(255, 0, "0 7F"), (254, 0, "0 7F"), (254, 253, "0 7F"), (255, 253, "0 7F"), (9, 254, "27")]
    {
        session(&format!(
            "
            wait {before} -> 0
            look 1 0 0 0 0 0 0 0 -> 0
            {OPEN} -> 0
            wait {behind} -> 0
            read 10 1 -> {answer}
            "
        ));
    }
    session(
        "
        wait 255 -> 0
        look 1 0 0 0 0 0 0 0 -> 0
        read 10 1 -> 0 7F
        look 1 0 0 0 0 0 0 0 -> 0
        look 1 0 0 0 0 0 0 0 -> 0
        read 10 2 -> 0 00 7F
        wait 255 -> 0
        look 0 0 0 0 0 0 0 0 -> 0
        read 10 1 -> 0 7F
        ",
    );
}

#[test]
fn a_long_bounce_keeps_it_awake() {
    // The key changes at the 255th look. Until then it settles, and behind it the row begins.
    session(
        "
        write 02 FF -> 0
        look 1 0 0 0 0 0 0 0 -> 0
        wait 253 -> 0
        read 10 1 -> 0 7F
        wait 1 -> 0
        wait 254 -> 0
        read 10 1 -> 0 00
        wait 255 -> 0
        read 10 1 -> 27
        ",
    );
}

#[test]
fn a_dropped_change_is_a_change() {
    session(
        "
        write 02 01 8C -> 0
        look FFF 7 0 0 0 0 0 0 -> 0
        wait 255 -> 0
        look FFF F 0 0 0 0 0 0 -> 0
        read 06 1 -> 0 0F
        wait 200 -> 0
        look FFF 1F 0 0 0 0 0 0 -> 0
        wait 254 -> 0
        read 00 1 -> 5
        wait 1 -> 0
        read 00 1 -> 27
        ",
    );
}

#[test]
fn codes_that_wait_and_the_line_keep_nothing_awake() {
    session(
        "
        write 02 01 -> 0
        write 09 00 -> 0
        press 0 0 -> 0
        irq -> 0 yes
        wait 255 -> 0
        irq -> 0 yes
        held 0 0 -> 0 yes
        read 10 1 -> 27
        irq -> 0 yes
        read 10 2 -> 0 00 7F
        ",
    );
}

#[test]
fn contacts_out_of_the_size_keep_nothing_awake() {
    // Each press makes three quiet looks: these keys are none after reset.
    session(
        "
        press 5 5 -> 0
        press 0 2 -> 0
        press 2 SF -> 0
        wait 245 -> 0
        read 00 1 -> 5
        release 5 5 -> 0
        read 06 1 -> 27
        wait 253 -> 0
        look 0 0 1000 0 0 0 0 0 -> 0
        read 00 1 -> 5
        look 4 0 0 0 0 0 0 1FFF -> 0
        read 06 1 -> 27
        ",
    );
}

#[test]
fn fingers_make_no_access() {
    session(
        "
        write 02 01 -> 0
        wait 253 -> 0
        press 7 7 -> 0
        release 7 7 -> 0
        read 06 1 -> 27
        wait 255 -> 0
        press 7 7 -> 0
        read 06 1 -> 27
        ",
    );
}

// Hidden keys.

#[test]
fn a_half_pressed_key_under_a_direct_key_keeps_it_awake() {
    session(
        "
        write 02 02 -> 0
        look 1 0 0 0 0 0 0 0 -> 0
        look 1001 0 0 0 0 0 0 0 -> 0
        look 1001 0 0 0 0 0 0 0 -> 0
        wait 600 -> 0
        read 10 2 -> 0 0C 7F
        look 1000 0 0 0 0 0 0 0 -> 0
        wait 600 -> 0
        read 10 1 -> 0 7F
        ",
    );
    // Half let go, likewise.
    session(
        "
        write 02 02 -> 0
        press 0 0 -> 0
        look 0 0 0 0 0 0 0 0 -> 0
        press 0 SF -> 0
        wait 600 -> 0
        read 10 3 -> 0 00 0C 7F
        ",
    );
    // Due by a lower bounce, it still has no sample to change at.
    session(
        "
        write 02 05 -> 0
        look 1 0 0 0 0 0 0 0 -> 0
        look 1 0 0 0 0 0 0 0 -> 0
        look 1001 0 0 0 0 0 0 0 -> 0
        write 02 01 -> 0
        wait 600 -> 0
        read 10 2 -> 0 0C 7F
        ",
    );
}

#[test]
fn once_it_is_seen_again_the_row_begins() {
    // The direct key opens in one look (it settles), and is let go in the next.
    for (looks, answer) in [(254, "0 0C 8C 7F"), (255, "27")] {
        session(&format!(
            "
            write 02 02 -> 0
            look 1 0 0 0 0 0 0 0 -> 0
            look 1001 0 0 0 0 0 0 0 -> 0
            wait 300 -> 0
            look 0 0 0 0 0 0 0 0 -> 0
            look 0 0 0 0 0 0 0 0 -> 0
            wait {looks} -> 0
            read 10 3 -> {answer}
            "
        ));
    }
}

#[test]
fn what_happens_under_a_direct_key_is_quiet() {
    // The direct key settles in its first look and changes in the second. Then its row is hidden,
    // whatever its contacts do, and those of the row after it are seen.
    for (behind, answer) in [(151, "0 0C 7F"), (152, "27")] {
        session(&format!(
            "
            write 02 02 22 -> 0
            look 1003 0 0 0 0 0 0 0 -> 0
            look 1003 0 0 0 0 0 0 0 -> 0
            wait 100 -> 0
            look 1001 0 0 0 0 0 0 0 -> 0
            look 1002 0 0 0 0 0 0 0 -> 0
            look 1000 0 0 0 0 0 0 0 -> 0
            wait {behind} -> 0
            read 10 2 -> {answer}
            "
        ));
    }
    session(
        "
        write 02 02 22 -> 0
        press 0 SF -> 0
        wait 255 -> 0
        look 1000 1 0 0 0 0 0 0 -> 0
        read 10 2 -> 0 0C 7F
        ",
    );
}

#[test]
fn a_hidden_key_that_has_settled_is_quiet() {
    // One closed sample and then an open one, before the row is hidden.
    session(
        "
        write 02 02 -> 0
        look 1 0 0 0 0 0 0 0 -> 0
        look 0 0 0 0 0 0 0 0 -> 0
        press 0 SF -> 0
        wait 255 -> 0
        read 10 2 -> 27
        read 10 2 -> 0 0C 7F
        ",
    );
}

#[test]
fn a_restart_forgets_the_sample_that_settles() {
    session(
        "
        write 02 02 -> 0
        look 1 0 0 0 0 0 0 0 -> 0
        press 0 SF -> 0
        wait 300 -> 0
        write 03 22 -> 0
        look 1001 0 0 0 0 0 0 0 -> 0
        look 1001 0 0 0 0 0 0 0 -> 0
        wait 255 -> 0
        read 10 2 -> 27
        read 10 2 -> 0 0C 7F
        ",
    );
}

// Blocks.

#[test]
fn each_look_of_a_block_counts() {
    for (count, behind, answer, first) in [
        (254, "", "0 254", "5"),
        (255, "", "0 255", "27"),
        (256, "", "0 256", "27"),
        (300, "", "0 300", "27"),
        // A contact settles in its last look.
        (300, " 1 0 0 0 0 0 0 0", "0 301", "5"),
        (254, " 1 0 0 0 0 0 0 0", "0 255", "5"),
        // It stops at a look.
        (254, " 2000 0 0 0 0 0 0 0", "2 254", "5"),
        (255, " 2000 0 0 0 0 0 0 0", "2 255", "27"),
        // It is no number of looks.
        (255, " 0", "1 0", "5"),
    ] {
        let block = block(count, behind);
        session(&format!("{block} -> {answer}\nread 00 1 -> {first}\nread 00 1 -> 5"));
    }
}

#[test]
fn the_row_goes_on_through_blocks() {
    let (forty, hundred) = (block(40, ""), block(100, ""));
    session(&format!(
        "
        wait 100 -> 0
        {hundred} -> 0 100
        looks -> 0 0
        {OPEN} -> 0
        {forty} -> 0 40
        wait 13 -> 0
        read 00 1 -> 5
        looks 0 0 0 0 0 0 0 0 -> 0 1
        {hundred} -> 0 100
        read 00 1 -> 27
        "
    ));
}

#[test]
fn a_block_falls_asleep_and_wakes() {
    // 300 quiet looks, a key in one, and then as many looks as make it sleep again, or not.
    for (behind, answer) in [(253, "0 7F"), (254, "27")] {
        let quiet = " 0 0 0 0 0 0 0 0".repeat(behind + 1);
        let block = block(300, &format!(" 1 0 0 0 0 0 0 0{quiet}"));
        session(&format!("{block} -> 0 {}\nread 10 1 -> {answer}", 302 + behind));
    }
    let block = block(255, " 1 0 0 0 0 0 0 0");
    session(&format!("write 02 01 -> 0\n{block} -> 0 256\nread 10 2 -> 0 00 7F"));
}

// Lists.

/// So many looks of nothing, and these calls behind them.
fn night(looks: usize, behind: impl IntoIterator<Item = Call>) -> String {
    let mut calls = vec![Call::Look(vec![0; 8]); looks];
    calls.extend(behind);
    digits(&packed(&calls))
}

#[test]
fn a_played_list_sleeps() {
    let (awake, asleep) = (night(254, []), night(255, []));
    session(&format!(
        "
        play {awake} -> 0
        read 00 1 -> 5
        wait 1 -> 0
        read 00 1 -> 27
        play {asleep} -> 0
        play 00 -> 20
        read 06 1 -> 27
        play {asleep} -> 0
        play -> 0
        read 06 1 -> 0 00
        "
    ));
}

#[test]
fn a_played_list_is_declined_asleep() {
    let bounce = Call::Write(0x02, vec![9]);
    let once = night(255, [bounce.clone()]);
    let twice = night(255, [bounce.clone(), bounce.clone()]);
    let unknown = night(254, [Call::Read(0x00, 1), Call::Look(vec![0; 8]), bounce]);
    session(&format!(
        "
        play {once} -> 0
        read 02 1 -> 0 03
        play {twice} -> 0
        read 02 1 -> 0 09
        play {unknown} -> 0
        wait 254 -> 0
        read 02 1 -> 0 03
        play {once} -> 0
        wait 255 -> 0
        read 02 1 -> 27
        "
    ));
}

// Recordings.

/// What is recorded of a session behind so many looks of nothing.
fn recorded_behind(looks: usize, lines: &[&str]) -> Vec<String> {
    let wait = format!("wait {looks}");
    let mut calls = recorded(&[&[wait.as_str()], lines].concat());
    assert!(calls.drain(..looks).all(|look| look == OPEN));
    calls
}

#[test]
fn an_access_that_wakes_is_recorded_whatever_its_length() {
    let (none, long) = (write_of("06", 0), write_of("06", 33));
    for (line, call) in [
        ("read 10 0", "read 10 1"),
        ("read 10 33", "read 10 1"),
        ("read 03 1024", "read 03 1"),
        ("read FF 0", "read FF 1"),
        (none.as_str(), "read 06 1"),
        (long.as_str(), "read 06 1"),
        ("read 10 32", "read 10 32"),
        ("write 03 1C", "write 03 1C"),
        ("read 00 2", "read 00 2"),
    ] {
        assert_eq!(recorded_behind(255, &[line]), [call], "{line}");
        assert_eq!(recorded_behind(300, &[line, "reset"]), [call, "reset"], "{line}");
    }
}

#[test]
fn awake_it_is_left_out_as_before() {
    let (none, long) = (write_of("02", 0), write_of("02", 33));
    let lines = ["read 10 0", "read 10 33", none.as_str(), long.as_str()];
    assert!(recorded_behind(0, &lines).is_empty());
    assert!(recorded_behind(254, &lines).is_empty());
    // The first one wakes, and the others alter nothing.
    assert_eq!(recorded_behind(255, &lines), ["read 10 1"]);
    // Looks that don't fit wake nothing.
    assert!(recorded_behind(255, &["look 1", "look 2000 0 0 0 0 0 0 0"]).is_empty());
}

#[test]
fn a_recorded_night_plays_to_the_same_row() {
    for lines in [
        &["wait 255", "read 10 0", "wait 200"][..],
        &["wait 300", "write 03", "wait 254"],
        &["wait 255", "read 10 33"],
        &["wait 255", "read 10 33", "wait 255"],
        &["wait 254", "read 10 0", "wait 1"],
        &["press 0 0", "wait 255", "read 10 1"],
    ] {
        let mut console = Console::new();
        console.record();
        lines.iter().for_each(|line| drop(console.answer(line.as_bytes())));
        let mut there = Console::new();
        assert_eq!(there.play(&console.recorded()), 0);
        // An access that gives 5 tells when it falls asleep, and breaks no row.
        for line in ["read 00 1", "wait 1"].repeat(256) {
            let answer = there.answer(line.as_bytes());
            assert_eq!(answer, console.answer(line.as_bytes()), "{lines:?}");
        }
    }
}

#[test]
fn the_writer_has_no_state() {
    session(
        "
        wait 255 -> 0
        pack 99 read 10 0 -> 3
        pack 99 read 10 33 -> 4
        pack 99 read 10 1 -> 0 84 00
        read 10 1 -> 27
        ",
    );
}
