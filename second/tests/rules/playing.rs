//! Packed lists that are played, and sessions that are recorded as one.

use crate::{after, digits, packed, seen, session, some_call, some_calls, SAMPLES};
use second::calls::Call;
use second::carry::unpack;
use second::chance::Chance;
use second::console::Console;
use second::script::script;
use second::typed::text;
use second::words::words;

// Playing.

#[test]
fn a_list_plays_as_its_calls_do() {
    let mut chance = Chance::new(3);
    for _ in 0..300 {
        let mut calls = some_calls(&mut chance, 3);
        // Calls that do something, among calls that are mostly declined.
        calls.push(Call::Write(0x02, vec![chance.below(3) as u8, chance.pick(&[0x8C, 0x33])]));
        for _ in 0..chance.below(12) {
            calls.push(match chance.below(6) {
                0 => Call::Read(0x10, chance.between(1, 4)),
                1 => Call::Read(0x0B, chance.between(1, 5)),
                2 => Call::Write(chance.pick(&[0x08, 0x09, 0x84]), vec![chance.byte()]),
                3 => some_call(&mut chance),
                _ => Call::Look((0..8).map(|_| chance.pick(&SAMPLES)).collect()),
            });
        }
        let before = ["write 02 01 8C", "look 3 0 0 0 0 0 0 1000", "read 0B 2", "press 5 5"];
        let before: Vec<String> = before.map(String::from).to_vec();
        let mut singly = before.clone();
        singly.push("reset".to_string());
        singly.extend(calls.iter().map(text));
        let mut played = before;
        played.push(format!("play {}", digits(&packed(&calls))));
        assert_eq!(seen(&mut after(&played)), seen(&mut after(&singly)), "{calls:?}");
    }
}

#[test]
fn a_played_session_goes_on() {
    // The first write has 31 bits: 40 82 03 18 and the look's first bit. Row 3 bit 12 is bit
    // 31 + 14 + 39 - 12 = 72: 80 at byte 9. The last write begins at bit 137, the second of byte 17:
    // 0 0110000  10000000  00000001.
    session(
        "
        pack 99 write 02 01 8C ; look 0 0 0 1000 0 0 0 0 ; write 84 01 -> 0 40 82 03 18 00 00 00 00 00 80 00 00 00 00 00 00 00 30 80 01
        press 1 1 -> 0
        read 10 2 -> 0 11 7F
        play 40 82 03 18 00 00 00 00 00 80 00 00 00 00 00 00 00 30 80 01 -> 0
        held 1 1 -> 0 no
        held 3 12 -> 0 yes
        irq -> 0 yes
        read 10 2 -> 0 3C 7F
        irq -> 0 no
        press 0 0 -> 0
        read 10 3 -> 0 00 7F 7F
        release 3 SF -> 0
        read 10 3 -> 0 BC 7F 7F
        ",
    );
}

#[test]
fn a_list_without_a_look_leaves_the_contacts() {
    // The key is forgotten and found again, since its contact is still closed.
    for list in ["", "C0", "40820318", "8400"] {
        session(&format!(
            "
            write 02 01 -> 0
            press 1 1 -> 0
            play {list} -> 0
            held 1 1 -> 0 no
            read 02 1 -> 0 {}
            wait 3 -> 0
            held 1 1 -> 0 yes
            ",
            if list == "40820318" { "01" } else { "03" },
        ));
    }
}

#[test]
fn the_last_look_of_a_list_sets_the_contacts() {
    // Two looks, row 0 column 0 and then row 0 column 1: bits 14, and 106 + 13.
    session(
        "
        pack 99 look 1 0 0 0 0 0 0 0 ; look 2 0 0 0 0 0 0 0 ; read 10 1 -> 0 00 02 00 00 00 00 00 00 00 00 00 00 00 00 01 00 00 00 00 00 00 00 00 00 00 00 08 40 00
        press 1 1 -> 0
        play 00020000000000000000000000000100000000000000000000000000084000 -> 20
        play 0002000000000000000000000000010000000000000000000000000840 -> 20
        held 1 1 -> 0 yes
        read 10 2 -> 0 11 7F
        play 0002000000000000000000000000010000000000000000000000084000 -> 0
        wait 2 -> 0
        read 10 2 -> 0 01 7F
        ",
    );
}

#[test]
fn a_list_that_is_refused_alters_nothing() {
    let before: Vec<String> = [
        "write 02 02 8C",
        "look 1 0 0 0 0 0 0 0",
        "look 1 0 0 0 0 0 0 0",
        "read 0B 3",
        "press 3 SF",
    ]
    .map(String::from)
    .to_vec();
    let whole = packed(&[
        Call::Write(0x02, vec![1, 0x8C]),
        Call::Look(vec![2; 8]),
        Call::Reset,
        Call::Write(0x84, vec![1]),
    ]);
    for length in 0..whole.len() {
        let mut lines = before.clone();
        lines.push(format!("play {}", digits(&whole[..length])));
        let refused = unpack(&whole[..length]).is_none();
        // Cut behind its first record and nowhere else the list is another one.
        assert_eq!(refused, length != 0 && length != 4, "{length}");
        if refused {
            assert_eq!(seen(&mut after(&lines)), seen(&mut after(&before)), "{length}");
        }
    }
}

#[test]
fn declined_calls_are_played_and_declined() {
    // A size that isn't acceptable (6), an unknown address (5), a run that leaves the registers (5).
    // From bit 31: 01 00000011 00000 00011100, 10 00000000 00000, 01 00001001 00001 and two bytes;
    // from byte 3: 00011000 10000001 10000000 01110010 00000000 00000010 00010010 00010000. The look
    // begins at bit 100, and row 0 bit 0 is bit 114: 20 at byte 14. 206 bits are 26 bytes.
    session(
        "
        pack 99 write 02 01 8C ; write 03 1C ; read 00 1 ; write 09 00 00 ; look 1 0 0 0 0 0 0 0 -> 0 40 82 03 18 81 80 72 00 02 12 10 00 00 00 20 00 00 00 00 00 00 00 00 00 00 00
        play 40 82 03 18 81 80 72 00 02 12 10 00 00 00 20 00 00 00 00 00 00 00 00 00 00 00 -> 0
        read 02 2 -> 0 01 8C
        read 09 1 -> 0 03
        read 10 2 -> 0 00 7F
        ",
    );
}

// Recording.

/// What a session of these lines is recorded as, in words.
pub fn recorded(lines: &[&str]) -> Vec<String> {
    let mut console = Console::new();
    console.record();
    lines.iter().for_each(|line| drop(console.answer(line.as_bytes())));
    unpack(&console.recorded()).unwrap().iter().map(text).collect()
}

#[test]
fn what_is_recorded() {
    assert!(recorded(&[]).is_empty());
    let nothing = [
        "# a comment",
        "",
        "irq",
        "held 0 0",
        "show",
        "help",
        "pack 9 reset",
        "unpack F0",
        "play 00",
        "play F",
        "read 10 0",
        "read 10 33",
        "write 02",
        "look",
        "look 0 0 0 0 0 0 0",
        "look 2000 0 0 0 0 0 0 0",
        "looks",
        "looks 0 0 0 0 0 0 0",
        "looks 0 0 0 0 0 0 0 0 0",
        "looks 2000 0 0 0 0 0 0 0 0 0 0 0 0 0 0 0",
        "looks 0 0 0 0 0 0 0 0 g",
        "press 8 0",
        "wait 0",
        "reset 0",
        "foo",
    ];
    assert!(recorded(&nothing).is_empty());
    let calls = ["reset", "look 1 0 0 0 0 0 0 1FFF", "write 02 01 8C", "read 10 32"];
    assert_eq!(recorded(&calls), calls);
    let declined = ["read 00 1", "write 03 1C", "write 06 00", "read FF 2"];
    assert_eq!(recorded(&declined), declined);
    assert_eq!(recorded(&["reset", "quit", "reset"]), ["reset"]);
}

#[test]
fn every_look_of_a_finger_is_recorded() {
    let (down, up) = ("look 0 0 0 1000 0 0 0 0", "look 0 0 0 0 0 0 0 0");
    assert_eq!(recorded(&["press 3 SF", "release 3 SF"]), [down, down, down, up, up, up]);
    assert_eq!(
        recorded(&["write 02 00", "press 3 SF", "wait 2", "reset", "wait 1"]),
        ["write 02 00", down, down, down, "reset", down],
    );
}

#[test]
fn every_look_of_a_block_that_was_done_is_recorded() {
    let (one, two) = ("look 1 0 0 0 0 0 0 0", "look 0 0 0 0 0 0 0 1FFF");
    assert_eq!(recorded(&["looks 1 0 0 0 0 0 0 0"]), [one]);
    let lines = ["reset", "looks 1 0 0 0 0 0 0 0 0 0 0 0 0 0 0 1FFF", "wait 1"];
    assert_eq!(recorded(&lines), ["reset", one, two, two]);
    // The third look is declined, and the fourth is not made.
    let stops = "looks 1 0 0 0 0 0 0 0 0 0 0 0 0 0 0 1FFF 2000 0 0 0 0 0 0 0 1 0 0 0 0 0 0 0";
    assert_eq!(recorded(&[stops, "read 10 1"]), [one, two, "read 10 1"]);
}

#[test]
fn a_played_list_is_recorded_as_a_reset_and_its_calls() {
    assert_eq!(recorded(&["play"]), ["reset"]);
    assert_eq!(recorded(&["play F0"]), ["reset"; 3]);
    assert_eq!(
        recorded(&["read 10 1", "play 80010400", "read 10 2"]),
        ["read 10 1", "reset", "read 00 1", "read 08 1", "read 10 2"],
    );
}

#[test]
fn a_recorded_session_plays_to_the_same_panel() {
    for seed in 1..9 {
        let mut lines = script(seed, 2500);
        // A list has no record for them.
        lines.retain(|line| words(line).first() != Some(&&b"pins"[..]));
        let mut console = Console::new();
        console.record();
        lines.iter().for_each(|line| drop(console.answer(line)));
        let list = console.recorded();
        let mut there = Console::new();
        there.record();
        assert_eq!(there.play(&list), 0);
        let again = packed(&[&[Call::Reset], unpack(&list).unwrap().as_slice()].concat());
        assert_eq!(there.recorded(), again);
        // A console that has quit answers no more.
        if !console.has_ended() {
            assert_eq!(seen(&mut there), seen(&mut console), "seed {seed}");
        }
    }
}
