//! The spare pins (document 02, E6), by document 000's registers.

use crate::fingers::watched;
use crate::{repeated, session};
use second::calls::Calls;
use second::console::Console;
use second::module::Module;

/// The answer of a console after reset.
fn answer(line: &str) -> String {
    Console::new().answer(line.as_bytes()).unwrap()
}

#[test]
fn registers_after_reset() {
    session(
        "
        read 91 1 -> 0 80
        read AA 6 -> 0 AA AA 55 55 15 5A
        read C0 1 -> 0 00
        read C2 1 -> 0 00
        read C4 1 -> 0 00
        read C6 15 -> 0 00 00 08 00 00 00 00 00 00 FF FF FF 00 00 00
        read D6 6 -> 0 00 00 00 00 00 00
        read E0 6 -> 0 00 00 00 00 08 00
        drive -> 0 -------------------
        ",
    );
}

#[test]
fn each_register_after_reset() {
    for (address, byte) in [
        ("91", "80"),
        ("AA", "AA"),
        ("AB", "AA"),
        ("AC", "55"),
        ("AD", "55"),
        ("AE", "15"),
        ("AF", "5A"),
        ("C0", "00"),
        ("C2", "00"),
        ("C4", "00"),
        ("C6", "00"),
        ("C7", "00"),
        ("C8", "08"),
        ("C9", "00"),
        ("CA", "00"),
        ("CB", "00"),
        ("CC", "00"),
        ("CD", "00"),
        ("CE", "00"),
        ("CF", "FF"),
        ("D0", "FF"),
        ("D1", "FF"),
        ("D2", "00"),
        ("D3", "00"),
        ("D4", "00"),
        ("D6", "00"),
        ("D7", "00"),
        ("D8", "00"),
        ("D9", "00"),
        ("DA", "00"),
        ("DB", "00"),
        ("E0", "00"),
        ("E1", "00"),
        ("E2", "00"),
        ("E3", "00"),
        ("E4", "08"),
        ("E5", "00"),
    ] {
        assert_eq!(answer(&format!("read {address} 1")), format!("0 {byte}"), "{address}");
    }
    // These only write.
    for address in ["C1", "C3", "C5", "DC", "DD", "DE"] {
        assert_eq!(answer(&format!("read {address} 1")), "5", "{address}");
        assert_eq!(answer(&format!("write {address} FF")), "0", "{address}");
    }
}

#[test]
fn what_only_reads_and_what_is_unknown() {
    for address in ["91", "D6", "D7", "D8", "D9", "DA", "DB"] {
        assert_eq!(answer(&format!("write {address} 00")), "5", "{address}");
    }
    for address in ["90", "92", "A7", "A9", "B0", "BF", "D5", "DF", "E6", "E9", "EA", "EB"] {
        assert_eq!(answer(&format!("read {address} 1")), "5", "{address}");
        assert_eq!(answer(&format!("write {address} 00")), "5", "{address}");
    }
}

#[test]
fn whole_runs_are_judged() {
    session(&format!(
        "
        read C0 2 -> 5
        read C2 2 -> 5
        read C4 2 -> 5
        read C5 2 -> 5
        read 91 2 -> 5
        read AA 7 -> 5
        read A9 2 -> 5
        read C6 16 -> 5
        read D4 2 -> 5
        read D5 7 -> 5
        read DB 2 -> 5
        read E0 7 -> 5
        read D6 33 -> 4
        write D4 01 02 -> 5
        write DE FF FF -> 5
        write E5 00 00 -> 5
        write AF 00 00 -> 5
        write 90 00 00 -> 5
        read C6 15 -> 0 00 00 08 00 00 00 00 00 00 FF FF FF 00 00 00
        read AA 6 -> 0 AA AA 55 55 15 5A
        read E0 6 -> 0 00 00 00 00 08 00
        {} -> 0
        read C6 15 -> {}
        {} -> 5
        {} -> 5
        ",
        repeated("write C0", "A5", 21),
        repeated("0", "A5", 15),
        repeated("write C0", "00", 22),
        repeated("write C0", "00", 32),
    ));
}

#[test]
fn a_declined_write_writes_nothing() {
    session(
        "
        write D2 11 22 44 -> 0
        write D3 FF FF FF -> 5
        write E4 00 00 00 -> 5
        read D2 3 -> 0 11 22 44
        read E4 2 -> 0 08 00
        ",
    );
}

#[test]
fn bytes_are_kept_whole() {
    // Those of used pins, of pin 19 and the reserved bits too.
    session(
        "
        write 03 8C -> 0
        write AA 01 02 03 04 05 06 -> 0
        read AA 6 -> 0 01 02 03 04 05 06
        write C6 FF FE FD FC FB FA F9 F8 F7 F6 F5 F4 F3 F2 F1 -> 0
        read C6 15 -> 0 FF FE FD FC FB FA F9 F8 F7 F6 F5 F4 F3 F2 F1
        write E0 E1 E2 E3 E4 E5 E6 -> 0
        read E0 6 -> 0 E1 E2 E3 E4 E5 E6
        write AF 00 -> 0
        read AF 1 -> 0 00
        ",
    );
}

#[test]
fn status_has_no_bits_above_the_pins() {
    session(
        "
        write C0 FF FF FF FF FF FF FF FF FF -> 0
        read C4 1 -> 0 07
        write C6 00 00 00 -> 0
        write CC FF FF FF -> 0
        write D2 FF FF FF -> 0
        pins 0 -> 0
        pins 7FFFF -> 0
        read C4 1 -> 0 07
        read D6 6 -> 0 FC FC 07 FC FC 07
        ",
    );
}

/// The edges of a size under which every pin, one after the other, goes up.
fn pins_with_edges(size: &str) -> String {
    let mut console = Console::new();
    let mut say = |line: &str| console.answer(line.as_bytes()).unwrap();
    say(&format!("write 03 {size}"));
    say("pins 0");
    for pin in 0..19 {
        assert_eq!(say(&format!("pins {:X}", (1 << (pin + 1)) - 1)), "0");
    }
    say("read D6 3")
}

/// What is driven under a size when every pin is an enabled output that is high.
fn pins_driven(size: &str) -> String {
    let mut console = Console::new();
    let mut say = |line: &str| console.answer(line.as_bytes()).unwrap();
    say("write C0 FF FF FF FF FF FF FF FF FF");
    say(&format!("write 03 {size}"));
    say("drive")
}

#[test]
fn pins_that_the_keypad_uses() {
    for (size, edges, driven) in [
        ("22", "0 FC FC 07", "0 --111111--111111111"),
        ("23", "0 FC F8 07", "0 --111111---11111111"),
        ("32", "0 F8 FC 07", "0 ---11111--111111111"),
        ("44", "0 F0 F0 07", "0 ----1111----1111111"),
        ("82", "0 00 FC 07", "0 ----------111111111"),
        ("28", "0 FC 00 07", "0 --111111--------111"),
        ("78", "0 80 00 07", "0 -------1--------111"),
        ("88", "0 00 00 07", "0 ----------------111"),
        ("89", "0 00 00 06", "0 -----------------11"),
        ("8A", "0 00 00 04", "0 ------------------1"),
        ("8B", "0 00 00 00", "0 -------------------"),
        ("8C", "0 00 00 00", "0 -------------------"),
        ("2B", "0 FC 00 00", "0 --111111-----------"),
        ("2C", "0 FC 00 00", "0 --111111-----------"),
    ] {
        assert_eq!(pins_with_edges(size), edges, "{size}");
        assert_eq!(pins_driven(size), driven, "{size}");
    }
}

#[test]
fn the_first_sample_makes_no_edge() {
    session(
        "
        pins 7FFFF -> 0
        read D6 3 -> 0 00 00 00
        pins 0 -> 0
        pins 7FFFF -> 0
        read D6 3 -> 0 FC FC 07
        reset -> 0
        read D6 3 -> 0 00 00 00
        write CC FF FF FF -> 0
        pins 0 -> 0
        read D6 3 -> 0 00 00 00
        pins 4 -> 0
        read D6 3 -> 0 04 00 00
        ",
    );
}

#[test]
fn a_sample_with_a_bit_above_eighteen_is_none() {
    session(
        "
        pins 80000 -> 26
        pins FFFFFFFF -> 26
        pins 80000000 -> 26
        pins 100004 -> 26
        pins 4 -> 0
        read D6 3 -> 0 00 00 00
        pins 0 -> 0
        pins 80004 -> 26
        read D6 3 -> 0 00 00 00
        pins 4 -> 0
        read D6 3 -> 0 04 00 00
        write DC FF -> 0
        pins 80000 -> 26
        pins 4 -> 0
        read D6 3 -> 0 00 00 00
        write C1 FF -> 0
        pins FFF80000 -> 26
        read C0 1 -> 0 04
        pins 7FFFF -> 0
        read C0 1 -> 0 FC
        ",
    );
}

#[test]
fn which_edges_count() {
    // Pins 2 to 5: rising, falling, both with each IEV. Pin 6 is an output, pin 7 has levels.
    session(
        "
        write C6 40 -> 0
        write C9 80 -> 0
        write CC 30 -> 0
        write CF D4 -> 0
        pins 0 -> 0
        pins FC -> 0
        read D6 3 -> 0 34 00 00
        write DC FF -> 0
        pins FC -> 0
        read D6 3 -> 0 00 00 00
        pins 0 -> 0
        read D6 3 -> 0 38 00 00
        write DC FF -> 0
        pins 0 -> 0
        read D6 3 -> 0 00 00 00
        ",
    );
}

#[test]
fn mask_and_enable_have_no_part_in_an_edge() {
    session(
        "
        pins 0 -> 0
        pins 10 -> 0
        read D6 6 -> 0 10 00 00 00 00 00
        write 84 01 -> 0
        irq -> 0 no
        read 91 1 -> 0 00
        write D2 10 -> 0
        irq -> 0 yes
        read 91 1 -> 0 01
        read D6 6 -> 0 10 00 00 10 00 00
        write D2 EF -> 0
        irq -> 0 no
        read D6 6 -> 0 10 00 00 00 00 00
        ",
    );
}

#[test]
fn settings_count_at_the_sample() {
    // They are as they are at the later of two samples.
    session(
        "
        write C6 04 -> 0
        pins 0 -> 0
        write C6 00 -> 0
        pins 4 -> 0
        read D6 1 -> 0 04
        write DC 04 -> 0
        write C9 04 -> 0
        pins 0 -> 0
        write C9 00 -> 0
        read D6 1 -> 0 00
        pins 4 -> 0
        read D6 1 -> 0 04
        write DC 04 -> 0
        write C6 04 -> 0
        pins 0 -> 0
        pins 4 -> 0
        write C6 00 -> 0
        pins 4 -> 0
        read D6 1 -> 0 00
        ",
    );
}

#[test]
fn a_freed_pin_makes_an_edge_at_once() {
    session(
        "
        write 03 44 -> 0
        pins 0 -> 0
        write 03 22 -> 0
        pins 0404 -> 0
        read D6 3 -> 0 04 04 00
        write DC FF FF -> 0
        write 03 44 -> 0
        pins 0 -> 0
        pins 0404 -> 0
        write 03 22 -> 0
        pins 0404 -> 0
        read D6 3 -> 0 00 00 00
        write 03 44 -> 0
        pins 0 -> 0
        write 03 22 -> 0
        pins 0404 -> 0
        read D6 3 -> 0 04 04 00
        ",
    );
}

#[test]
fn a_size_write_leaves_the_pins() {
    session(
        "
        write C0 FC FF F8 FF 07 FF 04 00 00 -> 0
        write CC FF FF FF 00 00 00 FF FF FF -> 0
        write 84 01 -> 0
        pins 0 -> 0
        pins 7FFFF -> 0
        read D6 6 -> 0 F8 FC 07 F8 FC 07
        write 03 8C -> 0
        read D6 6 -> 0 F8 FC 07 F8 FC 07
        irq -> 0 yes
        read 91 1 -> 0 01
        read C6 15 -> 0 04 00 00 00 00 00 FF FF FF 00 00 00 FF FF FF
        drive -> 0 -------------------
        write DC FF 00 06 -> 0
        read D6 6 -> 0 00 FC 01 00 FC 01
        write 03 22 -> 0
        read D6 6 -> 0 00 FC 01 00 FC 01
        drive -> 0 --1----------------
        read C0 1 -> 0 FC
        pins 7FFFF -> 0
        read D6 6 -> 0 00 FC 01 00 FC 01
        ",
    );
}

#[test]
fn a_declined_size_leaves_the_pins() {
    session(
        "
        write C0 FF FF FF FF FF FF FF FF FF -> 0
        write 03 8D -> 6
        drive -> 0 --111111--111111111
        write 02 01 1C -> 6
        drive -> 0 --111111--111111111
        ",
    );
}

#[test]
fn kept_bits_drive_once_the_pin_is_free() {
    session(
        "
        write 03 88 -> 0
        write C0 A8 FF -> 0
        write C6 FF -> 0
        drive -> 0 -------------------
        read C0 1 -> 0 00
        write 03 42 -> 0
        drive -> 0 ----0101-----------
        read C0 1 -> 0 A0
        write 03 22 -> 0
        drive -> 0 --010101-----------
        read C0 1 -> 0 A8
        write 03 88 -> 0
        drive -> 0 -------------------
        ",
    );
}

#[test]
fn data_reads() {
    // Pins 2 and 3 are outputs, 4 to 7 inputs; 3, 5 and 7 are not enabled.
    session(
        "
        write C6 0C -> 0
        write C0 FF 54 -> 0
        read C0 1 -> 0 04
        pins FF -> 0
        read C0 1 -> 0 54
        pins 0 -> 0
        read C0 1 -> 0 04
        write C0 F0 -> 0
        read C0 1 -> 0 00
        pins AA -> 0
        read C0 1 -> 0 00
        write C1 FF -> 0
        read C0 1 -> 0 A0
        write C6 FF -> 0
        read C0 1 -> 0 F0
        reset -> 0
        write C1 FF -> 0
        read C0 1 -> 0 00
        ",
    );
}

#[test]
fn data_and_mask_in_any_order() {
    session(
        "
        write C6 FF FF FF -> 0
        write C0 FC -> 0
        drive -> 0 -------------------
        write C1 0C -> 0
        drive -> 0 --11---------------
        write C0 08 -> 0
        drive -> 0 --01---------------
        write C1 F0 -> 0
        drive -> 0 ----0000-----------
        write C0 F0 FF -> 0
        drive -> 0 --001111-----------
        write C2 54 FC 02 07 -> 0
        drive -> 0 --001111--101010010
        read C0 1 -> 0 F0
        read C2 1 -> 0 54
        read C4 1 -> 0 02
        ",
    );
}

#[test]
fn an_open_drain_drives_one_level() {
    // Pins 4 to 7: low and high by the nmos transistor, low and high by the pmos transistor.
    session(
        "
        write C6 FF -> 0
        write C0 AC FF -> 0
        drive -> 0 --110101-----------
        write E0 F0 C0 -> 0
        drive -> 0 --110--1-----------
        write E0 00 -> 0
        drive -> 0 --110101-----------
        read C0 1 -> 0 AC
        write E0 F0 FF -> 0
        drive -> 0 --11-1-1-----------
        write E1 00 -> 0
        drive -> 0 --110-0------------
        read C0 1 -> 0 AC
        ",
    );
}

#[test]
fn open_drain_registers_are_interleaved() {
    // Each of the six registers alone, with every pin an output that is high or low.
    for (address, high, low) in [
        ("E0", "0 ----------111111111", "0 --000000--000000000"),
        ("E1", "0 --111111--111111111", "0 --000000--000000000"),
        ("E2", "0 --111111--------111", "0 --000000--000000000"),
        ("E3", "0 --111111--111111111", "0 --000000--000000000"),
        ("E4", "0 --111111--111111---", "0 --000000--000000000"),
        ("E5", "0 --111111--111111111", "0 --000000--000000000"),
    ] {
        session(&format!(
            "
            write C0 FF FF FF FF FF FF FF FF FF -> 0
            write {address} FF -> 0
            drive -> {high}
            write C0 00 FF 00 FF 00 FF -> 0
            drive -> {low}
            "
        ));
    }
    // And beside the other one of its pins.
    for (first, high, low) in [
        ("E0", "0 --111111--111111111", "0 ----------000000000"),
        ("E1", "0 --111111--------111", "0 --000000--000000000"),
        ("E2", "0 --111111--111111111", "0 --000000--------000"),
        ("E4", "0 --111111--111111111", "0 --000000--000000---"),
    ] {
        session(&format!(
            "
            write C0 FF FF FF FF FF FF FF FF FF -> 0
            write {first} FF FF -> 0
            drive -> {high}
            write C0 00 FF 00 FF 00 FF -> 0
            drive -> {low}
            "
        ));
    }
}

#[test]
fn what_clears_an_edge() {
    session(
        "
        write 84 01 -> 0
        write D2 FF FF FF -> 0
        pins 0 -> 0
        pins 7FFFF -> 0
        read D6 3 -> 0 FC FC 07
        write DC 00 00 00 -> 0
        read D6 3 -> 0 FC FC 07
        write DC 0F -> 0
        read D6 3 -> 0 F0 FC 07
        write DD 10 FA -> 0
        read D6 3 -> 0 F0 EC 05
        write 08 FF -> 0
        write 84 FF -> 0
        write 03 88 -> 0
        read D6 6 -> 0 F0 EC 05 F0 EC 05
        read 91 1 -> 0 01
        irq -> 0 yes
        write DC FF FF 04 -> 0
        irq -> 0 yes
        write DE 01 -> 0
        irq -> 0 no
        read D6 6 -> 0 00 00 00 00 00 00
        ",
    );
}

#[test]
fn bits_are_taken_by_their_group() {
    session(
        "
        write D2 04 08 02 -> 0
        pins 0 -> 0
        pins 20804 -> 0
        read D6 6 -> 0 04 08 02 04 08 02
        write D2 08 02 04 -> 0
        read D9 3 -> 0 00 00 00
        pins 0 -> 0
        pins 40408 -> 0
        read D6 6 -> 0 0C 0C 06 08 00 04
        ",
    );
}

#[test]
fn interrupt_status() {
    session(
        "
        read 91 1 -> 0 80
        write 09 0F -> 0
        write 02 01 -> 0
        look 1 0 0 0 0 0 0 0 -> 0
        read 06 2 -> 0 05 00
        read 91 1 -> 0 80
        write 09 00 -> 0
        read 91 1 -> 0 C0
        pins 0 -> 0
        pins 4 -> 0
        read 91 1 -> 0 C0
        write D2 04 -> 0
        read 91 1 -> 0 C1
        read 91 1 -> 0 C1
        write 84 01 -> 0
        read 91 1 -> 0 41
        read 10 1 -> 0 00
        read 91 1 -> 0 41
        write 08 01 -> 0
        read 91 1 -> 0 01
        irq -> 0 yes
        write DC 04 -> 0
        read 91 1 -> 0 00
        irq -> 0 no
        reset -> 0
        read 91 1 -> 0 80
        ",
    );
}

#[test]
fn the_line_is_asserted_exactly_while_the_status_is_not_zero() {
    let mut console = Console::new();
    let mut say = |line: &str| console.answer(line.as_bytes()).unwrap();
    for line in [
        "write 84 01",
        "pins 0",
        "pins 40000",
        "write D4 04",
        "write D4 FB",
        "write D4 FF",
        "write 02 01",
        "look 1 0 0 0 0 0 0 0",
        "write 09 00",
        "write DE 04",
        "read 10 1",
        "write 08 01",
        "pins 0",
        "write D1 00",
        "pins 40000",
        "pins 0",
        "write DC FF FF FF",
        "reset",
    ] {
        say(line);
        let expected = if say("read 91 1") == "0 00" { "0 no" } else { "0 yes" };
        assert_eq!(say("irq"), expected, "{line}");
    }
}

#[test]
fn samples_of_pins_leave_the_keys() {
    session(
        "
        write 02 02 33 -> 0
        look 1 0 0 0 0 0 0 0 -> 0
        pins 7FFFF -> 0
        pins 0 -> 0
        write C0 FF FF FF FF FF FF FF FF FF -> 0
        look 1 0 0 0 0 0 0 0 -> 0
        pins 7FFFF -> 0
        read D6 6 -> 0 00 00 00 00 00 00
        read 10 2 -> 0 00 7F
        read 0B 3 -> 0 00 7F 7F
        pins 0 -> 0
        drive -> 0 ---11111---11111111
        read 91 1 -> 0 80
        read 06 1 -> 0 01
        read 0E 1 -> 0 7F
        read 06 1 -> 0 00
        held 0 0 -> 0 yes
        read 02 2 -> 0 02 33
        ",
    );
}

#[test]
fn looks_leave_the_pins() {
    session(
        "
        write D2 FF -> 0
        pins 0 -> 0
        pins 8 -> 0
        write 02 01 -> 0
        looks 1 0 0 0 0 0 0 0 0 0 0 0 0 0 0 0 -> 0 2
        press 1 1 -> 0
        wait 3 -> 0
        read D6 6 -> 0 08 00 00 08 00 00
        pins 8 -> 0
        read D6 1 -> 0 08
        ",
    );
}

#[test]
fn reset_puts_the_pins_back() {
    session(
        "
        write AA 00 00 00 00 00 00 -> 0
        write C0 FF FF FF FF FF FF FF FF FF -> 0
        write C6 00 00 00 FF 00 00 FF FF FF 00 00 00 FF FF FF -> 0
        write E0 FF FF FF FF FF FF -> 0
        pins 0 -> 0
        pins 7FFFF -> 0
        read D6 3 -> 0 00 FC 07
        reset -> 0
        read AA 6 -> 0 AA AA 55 55 15 5A
        read C6 15 -> 0 00 00 08 00 00 00 00 00 00 FF FF FF 00 00 00
        read D6 6 -> 0 00 00 00 00 00 00
        read E0 6 -> 0 00 00 00 00 08 00
        write C6 FF FF FF -> 0
        drive -> 0 -------------------
        write C1 FF -> 0
        drive -> 0 --000000-----------
        ",
    );
}

#[test]
fn a_list_carries_accesses_to_pin_registers() {
    // 01 11000000 00001 11111100 11111111, 01 11000110 00000 11111111
    session(
        "
        pack 99 write C0 FC FF ; write C6 FF -> 0 70 03 F9 FE E3 03 FC
        pins 7FFFF -> 0
        play 70 03 F9 FE E3 03 FC -> 0
        drive -> 0 --111111-----------
        read C0 1 -> 0 FC
        pins 0 -> 0
        read D6 3 -> 0 00 00 00
        ",
    );
    // What number 5 declines is carried all the same.
    session(
        "
        pack 99 read D5 1 -> 0 B5 40
        unpack B5 40 -> 0 read D5 1
        ",
    );
}

#[test]
fn a_list_has_no_record_for_samples_of_pins() {
    for line in ["pack 99 pins 0", "pack 99 reset ; pins 1", "pack 99 drive", "pack 99 drive;reset"]
    {
        assert!(answer(line).starts_with("? not a call: "), "{line}");
    }
}

#[test]
fn samples_by_their_value() {
    session(
        "
        pins 0 -> 0
        pins 000000000000000000000000000000007fC -> 0
        read D6 3 -> 0 FC 04 00
        pins 00000000FFFFFFFF -> 26
        pins 7FFFFFFF -> 26
        pins 80000 -> 26
        pins 7ffff -> 0
        ",
    );
    for line in ["pins", "pins 0 0", "pins 100000000", "pins g", "pins 0x1", "drive 0", "Drive"] {
        assert!(answer(line).starts_with("? "), "{line}");
    }
}

#[test]
fn an_unsound_state_is_told_by_its_number_alone() {
    let (mut console, _) = watched(1, 0);
    assert_eq!(console.answer(b"drive").as_deref(), Some("8"));
    assert_eq!(console.answer(b"pins FFFFFFFF").as_deref(), Some("8"));
}

#[test]
fn every_pin_alone() {
    for pin in 0..19 {
        for size in [0x22, 0x58, 0x8C] {
            let mut module = Module::new();
            assert_eq!(module.write(0x03, &[size]), 0);
            assert_eq!(module.write(0xD2, &[0xFF; 3]), 0);
            assert_eq!(module.write(0x84, &[1]), 0);
            assert_eq!((module.pins(0), module.pins(1 << pin)), (0, 0));
            let used = pin < usize::from(size / 16)
                || (8..19).contains(&pin) && pin < 8 + usize::from(size % 16);
            let mut status = [0; 6];
            assert_eq!(module.read(0xD6, &mut status), 0);
            let mut expected = [0; 6];
            if !used {
                expected[pin / 8] = 1 << (pin % 8);
                expected[3 + pin / 8] = 1 << (pin % 8);
            }
            assert_eq!(status, expected, "{pin} {size:X}");
            assert_eq!(module.interrupt(), (0, !used), "{pin} {size:X}");
        }
    }
}

#[test]
fn a_declined_read_leaves_the_buffer() {
    let mut module = Module::new();
    for (first, length) in [(0xC0, 2), (0xD4, 2), (0xDB, 2), (0x91, 2), (0xDC, 1), (0xC6, 16)] {
        let mut buffer = vec![0xAA; length];
        assert_eq!(module.read(first, &mut buffer), 5);
        assert_eq!(buffer, vec![0xAA; length]);
    }
}
