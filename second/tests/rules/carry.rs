//! Packed lists (document 02, E1): their bytes, the writer's numbers, and how they are typed.

use crate::{repeated, session};
use second::console::Console;

// The bytes, worked out by hand.

#[test]
fn resets() {
    // 11, four to a byte; zeros behind the last.
    session(
        "
        pack 0 -> 0
        pack 1 reset -> 0 C0
        pack 1 reset ; reset -> 0 F0
        pack 1 reset ; reset ; reset -> 0 FC
        pack 1 reset ; reset ; reset ; reset -> 0 FF
        pack 2 reset ; reset ; reset ; reset ; reset -> 0 FF C0
        unpack -> 0
        unpack C0 -> 0 reset
        unpack F0 -> 0 reset ; reset
        unpack FC -> 0 reset ; reset ; reset
        unpack FF -> 0 reset ; reset ; reset ; reset
        unpack FFC0 -> 0 reset ; reset ; reset ; reset ; reset
        ",
    );
}

#[test]
fn reads() {
    session(
        "
        pack 2 read 10 1 -> 0 84 00
        pack 2 read 10 32 -> 0 84 3E
        pack 2 read FF 17 -> 0 BF E0
        pack 2 read 00 2 -> 0 80 02
        unpack 8400 -> 0 read 10 1
        unpack 843E -> 0 read 10 32
        unpack BFE0 -> 0 read FF 17
        unpack 8002 -> 0 read 00 2
        ",
    );
    // 10 00010000 00000 0    1000 0100  0000 0000
    // 10 00010000 11111 0    1000 0100  0011 1110
    // 10 11111111 10000 0    1011 1111  1110 0000
    // 10 00000000 00001 0    1000 0000  0000 0010
}

#[test]
fn writes() {
    session(
        "
        pack 3 write 84 01 -> 0 61 00 02
        pack 4 write 02 01 8C -> 0 40 82 03 18
        pack 3 write FF FF -> 0 7F C1 FE
        unpack 610002 -> 0 write 84 01
        unpack 40820318 -> 0 write 02 01 8C
        unpack 7FC1FE -> 0 write FF FF
        ",
    );
    // 01 10000100 00000 00000001 0             0110 0001  0000 0000  0000 0010
    // 01 00000010 00001 00000001 10001100 0    0100 0000  1000 0010  0000 0011  0001 1000
    // 01 11111111 00000 11111111 0             0111 1111  1100 0001  1111 1110
}

#[test]
fn looks() {
    // 2 + 8 * 13 = 106 bits, and 6 behind them: 14 bytes. Bit c of row r is bit 14 + 13 r - c of the
    // list. Row 0 bit 12 is bit 2, row 0 bit 0 is bit 14, row 1 bit 1 is bit 26, row 7 bit 0 is 105.
    session(
        "
        pack 14 look 0 0 0 0 0 0 0 0 -> 0 00 00 00 00 00 00 00 00 00 00 00 00 00 00
        pack 14 look 1000 0 0 0 0 0 0 0 -> 0 20 00 00 00 00 00 00 00 00 00 00 00 00 00
        pack 14 look 1 0 0 0 0 0 0 0 -> 0 00 02 00 00 00 00 00 00 00 00 00 00 00 00
        pack 14 look 0 2 0 0 0 0 0 0 -> 0 00 00 00 20 00 00 00 00 00 00 00 00 00 00
        pack 14 look 0 0 0 0 0 0 0 1 -> 0 00 00 00 00 00 00 00 00 00 00 00 00 00 40
        pack 14 look 1FFF 1FFF 1FFF 1FFF 1FFF 1FFF 1FFF 1FFF -> 0 3F FF FF FF FF FF FF FF FF FF FF FF FF C0
        unpack 2000000000000000000000000000 -> 0 look 1000 0 0 0 0 0 0 0
        unpack 0002000000000000000000000000 -> 0 look 1 0 0 0 0 0 0 0
        unpack 0000002000000000000000000000 -> 0 look 0 2 0 0 0 0 0 0
        unpack 0000000000000000000000000040 -> 0 look 0 0 0 0 0 0 0 1
        unpack 3FFFFFFFFFFFFFFFFFFFFFFFFFC0 -> 0 look 1FFF 1FFF 1FFF 1FFF 1FFF 1FFF 1FFF 1FFF
        ",
    );
}

#[test]
fn records_one_behind_another() {
    // 11  01 10000100 00000 00000001  10 00010000 00000
    // 1101 1000  0100 0000  0000 0000  1100 0010  0000 0000
    session(
        "
        pack 5 reset ; write 84 01 ; read 10 1 -> 0 D8 40 00 C2 00
        unpack D84000C200 -> 0 reset ; write 84 01 ; read 10 1
        ",
    );
    // A look begins at bit 2 and row 1 bit 1 is now bit 28. Behind it are 4 bits of a read, and 11
    // more: 10 00010000 00000 is 1000 0100 0000 000.
    session(
        "
        pack 16 reset ; look 0 2 0 0 0 0 0 0 ; read 10 1 -> 0 C0 00 00 08 00 00 00 00 00 00 00 00 00 08 40 00
        unpack C0000008000000000000000000084000 -> 0 reset ; look 0 2 0 0 0 0 0 0 ; read 10 1
        ",
    );
}

#[test]
fn the_end_of_a_list() {
    session(
        "
        unpack 00 -> 20
        unpack 0000 -> 20
        unpack C000 -> 20
        unpack FF00 -> 20
        unpack 01 -> 20
        unpack 40 -> 20
        unpack 80 -> 20
        unpack 03 -> 20
        unpack 0F -> 20
        unpack 30 -> 20
        unpack C3 -> 20
        unpack CC -> 20
        unpack C1 -> 20
        unpack E0 -> 20
        unpack D0 -> 20
        unpack F1 -> 20
        unpack 84 -> 20
        unpack 8401 -> 20
        unpack 840000 -> 20
        unpack 6100 -> 20
        unpack 610003 -> 20
        unpack 61000200 -> 20
        unpack 408203 -> 20
        ",
    );
    // 106 bits are a look, and 6 zeros the end; 13 bytes are cut short, and 15 have 14 bits over.
    // Two looks are 212 bits: 27 bytes, with 4 over.
    for (count, answer) in [(13, "20"), (14, "0 look 0 0 0 0 0 0 0 0"), (15, "20"), (26, "20")] {
        session(&format!("unpack {} -> {answer}", "00".repeat(count)));
    }
    let looks = "look 0 0 0 0 0 0 0 0 ; look 0 0 0 0 0 0 0 0";
    session(&format!("unpack {} -> 0 {looks}", "00".repeat(27)));
    session(&format!("unpack {} -> 20", "00".repeat(28)));
    // Four looks are 424 bits, 53 bytes and no padding. A zero byte more is the beginning of a look.
    session(&format!("unpack {} -> 0 {looks} ; {looks}", "00".repeat(53)));
    session(&format!("unpack {} -> 20", "00".repeat(54)));
    // Six bits behind a look: all 0, one, two or three resets, a reset too far to the right.
    let look = "look 0 0 0 0 0 0 0 0";
    for (tail, answer) in [
        ("00", format!("0 {look}")),
        ("30", format!("0 {look} ; reset")),
        ("3C", format!("0 {look} ; reset ; reset")),
        ("3F", format!("0 {look} ; reset ; reset ; reset")),
        ("03", "20".to_string()),
        ("0C", "20".to_string()),
        ("33", "20".to_string()),
        ("18", "20".to_string()),
        ("20", "20".to_string()),
        ("10", "20".to_string()),
        ("01", "20".to_string()),
    ] {
        session(&format!("unpack {}{tail} -> {answer}", "00".repeat(13)));
    }
}

// The writer's numbers.

#[test]
fn the_first_call_that_is_declined() {
    session(
        "
        pack 99 look -> 1
        pack 99 look 0 0 0 0 0 0 0 -> 1
        pack 99 look 0 0 0 0 0 0 0 0 0 -> 1
        pack 99 look FFFF -> 1
        pack 99 look 2000 0 0 0 0 0 0 0 -> 2
        pack 99 look 0 0 0 0 0 0 0 4000 -> 2
        pack 99 look 0 0 0 8000 0 0 0 0 -> 2
        pack 99 write 02 -> 3
        pack 99 read 10 0 -> 3
        pack 99 read 10 33 -> 4
        pack 99 read 10 256 -> 4
        pack 99 read 10 257 -> 4
        pack 99 read 10 288 -> 4
        pack 99 read 10 1024 -> 4
        pack 99 read 10 0 ; look 0 0 0 0 0 0 0 -> 3
        pack 99 look 0 0 0 0 0 0 0 ; read 10 0 -> 1
        pack 99 read 10 33 ; look 2000 0 0 0 0 0 0 0 ; look -> 4
        pack 99 reset ; reset ; read 10 1 ; look E000 0 0 0 0 0 0 0 ; look -> 2
        ",
    );
    for (count, answer) in [(33, 4), (256, 4), (257, 4), (288, 4)] {
        session(&format!("{} -> {answer}", repeated("pack 999 write 02", "0", count)));
    }
    for count in [16, 256, 264] {
        session(&format!("{} -> 1", repeated("pack 999 look", "0", count)));
    }
}

#[test]
fn addresses_and_sizes_are_not_judged() {
    session(
        "
        pack 9 read 00 1 ; read 08 1 -> 0 80 01 04 00
        pack 9 write 03 1C -> 0 40 C0 38
        pack 9 write 06 00 -> 0 41 80 00
        unpack 80010400 -> 0 read 00 1 ; read 08 1
        unpack 40C038 -> 0 write 03 1C
        ",
    );
    // 10 00000000 00000 10 00001000 00000 00    1000 0000  0000 0001  0000 0100  0000 0000
    // 01 00000011 00000 00011100 0              0100 0000  1100 0000  0011 1000
    // 01 00000110 00000 00000000 0              0100 0001  1000 0000  0000 0000
}

#[test]
fn no_room_comes_after_the_calls() {
    session(
        "
        pack 0 reset -> 21
        pack 0 read 10 0 -> 3
        pack 0 reset ; reset ; look -> 1
        pack 1 read 10 1 -> 21
        pack 2 read 10 1 -> 0 84 00
        pack 3 read 10 1 -> 0 84 00
        pack 999999 read 10 1 -> 0 84 00
        pack 65536 read 10 1 -> 0 84 00
        pack 13 look 0 0 0 0 0 0 0 1 -> 21
        pack 14 look 0 0 0 0 0 0 0 1 -> 0 00 00 00 00 00 00 00 00 00 00 00 00 00 40
        pack 1 reset ; reset ; reset ; reset -> 0 FF
        pack 1 reset ; reset ; reset ; reset ; reset -> 21
        ",
    );
    // 32 bytes are 15 + 256 bits: 34 bytes.
    let write = repeated("write 02", "0", 32);
    session(&format!("pack 33 {write} -> 21"));
    let list = repeated("40 BE", "00", 32);
    session(&format!("pack 34 {write} -> 0 {list}"));
    session(&format!("unpack {list} -> 0 {}", repeated("write 02", "00", 32)));
}

// The console's language.

#[test]
fn semicolons() {
    for line in [
        "pack 1 reset;reset",
        "pack 1 reset ;reset",
        "pack 1 reset; reset",
        "pack 1 reset\t;\treset \r",
        "\tpack   01\treset;reset",
    ] {
        assert_eq!(Console::new().answer(line.as_bytes()).as_deref(), Some("0 F0"), "{line:?}");
    }
    for line in [
        "pack 1;",
        "pack 1 ;",
        "pack 1 ;reset",
        "pack 1;reset",
        "pack 1 reset;",
        "pack 1 reset; ",
        "pack 1 reset;\r",
        "pack 1 reset;;reset",
        "pack 1 reset; \t;reset",
        "pack 1 reset reset",
        "pack 1 reset\r;reset",
        "pack;1",
        "pack ;",
        "pack",
    ] {
        let answer = Console::new().answer(line.as_bytes()).unwrap();
        assert!(answer.starts_with("? "), "{line:?}");
    }
}

#[test]
fn digits_in_pairs() {
    for line in
        ["unpack 843e", "unpack 84 3E", "unpack 8 4 3 E", "unpack\t84\t3\tE\r", "unpack 843 E"]
    {
        let answer = Console::new().answer(line.as_bytes());
        assert_eq!(answer.as_deref(), Some("0 read 10 32"), "{line:?}");
    }
    for line in ["unpack 8", "unpack 84 3", "unpack 0x84", "unpack 84;", "unpack 8g", "play 843"] {
        let answer = Console::new().answer(line.as_bytes()).unwrap();
        assert!(answer.starts_with("? "), "{line:?}");
    }
}

#[test]
fn the_longest_answer() {
    // 8,188 bytes of resets fill a line.
    let line = format!("unpack  {}", "FF".repeat(8188));
    assert_eq!(line.len(), 16_384);
    let answer = Console::new().answer(line.as_bytes()).unwrap();
    assert_eq!(answer, format!("0 reset{}", " ; reset".repeat(4 * 8188 - 1)));
}
