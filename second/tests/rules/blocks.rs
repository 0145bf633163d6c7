//! Blocks of looks (document 02, E2): what single looks give, in order, up to one that is declined.

use crate::{after, repeated, seen, session, SAMPLES};
use second::calls::{Call, Calls};
use second::chance::Chance;
use second::console::Console;
use second::module::Module;
use second::typed::{sampled, text};

/// A look of nothing.
const QUIET: &str = "0 0 0 0 0 0 0 0";

/// The answer of a console after reset.
fn answer(line: &str) -> String {
    Console::new().answer(line.as_bytes()).unwrap()
}

#[test]
fn a_block_is_its_looks_in_order() {
    // A press, a second one, and the release of both, by row and column.
    session(
        "
        write 02 01 -> 0
        looks 0 2 0 0 0 0 0 0 1 2 0 0 0 0 0 0 0 0 0 0 0 0 0 0 -> 0 3
        read 10 5 -> 0 11 00 80 91 7F
        held 1 1 -> 0 no
        ",
    );
    // Closed, open, closed is no press under bounce 2; two closed ones are.
    session(
        "
        write 02 02 -> 0
        looks 0 2 0 0 0 0 0 0 0 0 0 0 0 0 0 0 0 2 0 0 0 0 0 0 -> 0 3
        read 10 1 -> 0 7F
        looks 0 0 0 0 0 0 0 0 0 2 0 0 0 0 0 0 0 2 0 0 0 0 0 0 -> 0 3
        read 10 2 -> 0 11 7F
        ",
    );
}

#[test]
fn a_run_goes_on_through_blocks_and_single_looks() {
    session(
        "
        write 02 06 -> 0
        look 0 2 0 0 0 0 0 0 -> 0
        looks 0 2 0 0 0 0 0 0 0 2 0 0 0 0 0 0 -> 0 2
        wait 1 -> 0
        looks 0 2 0 0 0 0 0 0 -> 0 1
        read 10 1 -> 0 7F
        looks 0 2 0 0 0 0 0 0 0 2 0 0 0 0 0 0 -> 0 2
        read 10 2 -> 0 11 7F
        ",
    );
}

#[test]
fn an_empty_list_does_nothing() {
    // Three picture registers stay marked: the fourth one read clears RSINT.
    session(
        "
        looks -> 0 0
        write 02 01 -> 0
        press 0 0 -> 0
        read 10 2 -> 0 00 7F
        read 0B 3 -> 0 00 7F 7F
        looks -> 0 0
        read 06 1 -> 0 01
        read 0E 1 -> 0 7F
        read 06 1 -> 0 00
        wait 1 -> 0
        read 10 1 -> 0 7F
        held 0 0 -> 0 yes
        ",
    );
}

#[test]
fn a_length_that_is_no_multiple_of_eight_goes_first() {
    // Nothing is done, with good looks in front, with high bits anywhere, and the contacts stay.
    session(
        "
        write 02 01 -> 0
        press 1 1 -> 0
        read 10 2 -> 0 11 7F
        looks 1 -> 1 0
        looks 2000 -> 1 0
        looks 1 0 0 0 0 0 0 -> 1 0
        looks 1 0 0 0 0 0 0 0 1 -> 1 0
        looks 1 0 0 0 0 0 0 0 2000 -> 1 0
        looks 2000 0 0 0 0 0 0 0 0 -> 1 0
        looks 1 0 0 0 0 0 0 0 1 0 0 0 0 0 0 -> 1 0
        looks 1 0 0 0 0 0 0 0 1 0 0 0 0 0 0 FFFF 1 -> 1 0
        read 10 1 -> 0 7F
        read 06 1 -> 0 01
        wait 1 -> 0
        read 10 1 -> 0 7F
        held 1 1 -> 0 yes
        ",
    );
    for length in (1..100).filter(|length| length % 8 != 0) {
        assert_eq!(answer(&repeated("looks", "FFFF", length)), "1 0", "{length}");
        assert_eq!(answer(&repeated("looks", "0", length)), "1 0", "{length}");
    }
}

#[test]
fn a_block_stops_at_the_look_that_is_declined() {
    // The two looks in front are kept; neither the declined one nor the one behind it is made.
    session(
        "
        write 02 01 -> 0
        looks 1 0 0 0 0 0 0 0 3 0 0 0 0 0 0 0 0 3 0 0 0 0 0 2000 0 0 0 0 0 0 0 0 -> 2 2
        read 06 1 -> 0 07
        read 10 3 -> 0 00 01 7F
        held 0 0 -> 0 yes
        held 0 1 -> 0 yes
        held 1 0 -> 0 no
        looks 8000 0 0 0 0 0 0 0 0 0 0 0 0 0 0 0 -> 2 0
        wait 1 -> 0
        read 10 1 -> 0 7F
        held 0 0 -> 0 yes
        ",
    );
}

#[test]
fn the_look_that_is_declined_leaves_no_sample() {
    session(
        "
        write 02 03 -> 0
        looks 1 0 0 0 0 0 0 0 1 0 0 0 0 0 0 0 2001 0 0 0 0 0 0 0 -> 2 2
        read 10 1 -> 0 7F
        looks 0 0 0 0 0 0 0 4000 1 0 0 0 0 0 0 0 -> 2 0
        look 1 0 0 0 0 0 0 0 -> 0
        read 10 2 -> 0 00 7F
        ",
    );
}

#[test]
fn high_bits_stop_a_block_in_every_look_and_row() {
    for place in 0..4 {
        for row in 0..8 {
            for bit in 13..16 {
                let mut samples = [0; 32];
                samples[8 * place + row] = 1 << bit;
                assert_eq!(answer(&sampled("looks", &samples)), format!("2 {place}"));
                // A second one behind it is not seen.
                samples[31] = 0xFFFF;
                assert_eq!(answer(&sampled("looks", &samples)), format!("2 {place}"));
            }
        }
    }
    assert_eq!(answer(&repeated("looks", "1FFF", 32)), "0 4");
}

#[test]
fn the_flags_are_set_look_by_look() {
    // Two changes in one look, one look after the other, and one change in two looks.
    for (block, flags) in [
        ("3 0 0 0 0 0 0 0", "05"),
        ("1 0 0 0 0 0 0 0 3 0 0 0 0 0 0 0", "07"),
        ("1 0 0 0 0 0 0 0 1 0 0 0 0 0 0 0", "05"),
    ] {
        let looks = block.split(' ').count() / 8;
        session(&format!(
            "
            write 02 01 -> 0
            looks {block} -> 0 {looks}
            read 06 1 -> 0 {flags}
            "
        ));
    }
    // A change in the first of two looks forgets which picture registers were read.
    session(
        "
        write 02 01 -> 0
        looks 1 0 0 0 0 0 0 0 -> 0 1
        read 0B 3 -> 0 00 7F 7F
        looks 3 0 0 0 0 0 0 0 3 0 0 0 0 0 0 0 -> 0 2
        read 0E 1 -> 0 7F
        read 06 1 -> 0 07
        ",
    );
}

#[test]
fn codes_are_dropped_in_a_block() {
    // Twelve codes, then four of which three have room, then a release that has none.
    session(
        "
        write 02 01 8C -> 0
        looks FFF 0 0 0 0 0 0 0 FFF F 0 0 0 0 0 0 FFF E 0 0 0 0 0 0 -> 0 3
        read 06 2 -> 0 0F 0C
        held 1 3 -> 0 yes
        held 1 0 -> 0 no
        read 10 16 -> 0 00 01 02 03 04 05 06 07 08 09 0A 0B 10 11 12 7F
        looks 0 0 0 0 0 0 0 0 -> 0 1
        read 10 16 -> 0 80 81 82 83 84 85 86 87 88 89 8A 8B 91 92 93 7F
        ",
    );
}

#[test]
fn the_contacts_are_as_in_the_last_look_that_was_done() {
    session(
        "
        write 02 01 -> 0
        looks 1 0 0 0 0 0 0 0 2 0 0 0 0 0 0 0 -> 0 2
        wait 1 -> 0
        read 10 4 -> 0 00 80 01 7F
        looks 1 0 0 0 0 0 0 0 0 0 0 0 0 0 0 E000 2 0 0 0 0 0 0 0 -> 2 1
        press 1 1 -> 0
        read 10 4 -> 0 00 81 11 7F
        looks 2000 0 0 0 0 0 0 0 -> 2 0
        looks 2 0 0 0 0 0 0 -> 1 0
        looks -> 0 0
        wait 1 -> 0
        read 10 1 -> 0 7F
        ",
    );
}

#[test]
fn any_number_of_looks_is_counted() {
    for count in [0, 1, 2, 255, 256, 257, 300, 511, 512, 1000] {
        let block = repeated("looks", QUIET, count);
        assert_eq!(answer(&block), format!("0 {count}"));
        assert_eq!(answer(&format!("{block} 2000 0 0 0 0 0 0 0 {QUIET}")), format!("2 {count}"));
    }
    // More than a line can hold.
    let mut samples = vec![0; 8 * 65_538];
    assert_eq!(Module::new().looks(&samples), (0, 65_538));
    samples[8 * 65_537] = 0x8000;
    assert_eq!(Module::new().looks(&samples), (2, 65_537));
    assert_eq!(Module::new().looks(&samples[1..]), (1, 0));
}

/// A look, which is declined now and then.
fn some_look(chance: &mut Chance) -> Vec<u16> {
    let mut samples: Vec<u16> = (0..8).map(|_| chance.pick(&SAMPLES)).collect();
    if chance.one_in(12) {
        samples[chance.below(8)] |= chance.pick(&[0x2000, 0x4000, 0x8000]);
    }
    samples
}

#[test]
fn a_block_gives_what_single_looks_give() {
    let mut chance = Chance::new(4);
    for _ in 0..500 {
        let looks: Vec<Vec<u16>> = (0..chance.below(10)).map(|_| some_look(&mut chance)).collect();
        let settings = format!("write 02 {} {}", chance.below(4), chance.pick(&["8C", "22", "33"]));
        let before = [settings.as_str(), "press 1 1", "look 1 0 0 0 0 0 0 0", "read 0B 2"];
        let before = before.map(String::from).to_vec();
        let (mut single, mut block) = (after(&before), after(&before));
        let numbers = looks
            .iter()
            .map(|look| single.answer(text(&Call::Look(look.clone())).as_bytes()).unwrap());
        // The single looks end with the first that is declined.
        let (mut number, mut done) = ("0".to_string(), 0);
        for given in numbers {
            number = given;
            if number != "0" {
                break;
            }
            done += 1;
        }
        let line = sampled("looks", &looks.concat());
        assert_eq!(block.answer(line.as_bytes()).unwrap(), format!("{number} {done}"), "{line}");
        assert_eq!(seen(&mut block), seen(&mut single), "{line}");
    }
}
