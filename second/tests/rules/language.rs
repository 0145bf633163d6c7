//! The console's language: words, numbers, lines and what is wrong with them.

use crate::{repeated, session};
use second::console::{Console, LONGEST};

/// The whole output for a whole input, given in pieces of some length.
fn output_in_pieces(input: &[u8], length: usize) -> String {
    let (mut console, mut output) = (Console::new(), Vec::new());
    for piece in input.chunks(length) {
        console.feed(piece, &mut output);
    }
    console.finish(&mut output);
    String::from_utf8(output).unwrap()
}

/// The whole output for a whole input, which is the same in pieces of any length.
fn output(input: &[u8]) -> String {
    let whole = output_in_pieces(input, input.len().max(1));
    for length in [1, 2, 3, 7, 64, 4096] {
        assert_eq!(output_in_pieces(input, length), whole);
    }
    whole
}

/// Whether a line gets a `?` answer.
fn refused(line: &[u8]) -> bool {
    let answer = Console::new().answer(line).unwrap();
    answer.starts_with("? ") && answer.len() > 2 && !answer.contains('\n')
}

#[test]
fn numbers_by_their_value() {
    session(
        "
        write 002 0000000000000000000000000000000001 -> 0
        read 2 1 -> 0 01
        write 02 fF -> 0
        read 0000000000000000000000000000000000000000002 000000000000000000000000001 -> 0 FF
        write 02 1 8c -> 0
        look 0000fff 0001000 00 000 0000 00000 000000 0 -> 0
        read 0b 4 -> 0 80 81 82 83
        held 00000000000000000000000001 00000000000000000000000012 -> 0 yes
        held 007 012 -> 0 no
        held 255 255 -> 7 no
        read 10 1024 -> 4
        read FF 1 -> 5
        look FFFF 0 0 0 0 0 0 0 -> 2
        ",
    );
}

#[test]
fn numbers_that_are_too_large() {
    for line in [
        "read 100 1",
        "read 10 1025",
        "read 10 4294967297",
        "read 10 18446744073709551617",
        "read 10 340282366920938463463374607431768211457",
        "read 10000000000000010 1",
        "write 100",
        "write 02 100",
        "write 02 01 00000000000000000000122",
        "write 84 10000000000000001",
        "held 256 0",
        "held 0 256",
        "held 4294967296 0",
        "held 0 18446744073709551616",
        "press 8 0",
        "press 0 13",
        "press 256 0",
        "press 0 4294967296",
        "release 8 SF",
        "release 0 18446744073709551616",
        "release 18446744073709551616 0",
        "wait 65536",
        "wait 00000000000000000000000065536",
        "wait 4294967296",
        "wait 18446744073709551616",
        "look 10000 0 0 0 0 0 0 0",
        "look 0 0 0 0 0 0 0 10000000000000000",
        "looks 10000",
        "looks 0 0 0 0 0 0 0 0 10000 0 0 0 0 0 0 0",
        "looks 0 0 0 0 0 0 0 10000000000000000",
    ] {
        assert!(refused(line.as_bytes()), "{line}");
    }
}

#[test]
fn digits_that_are_none() {
    for line in [
        "read 1G 1",
        "read 10 A",
        "read 10 -1",
        "read 10 +1",
        "read 10 1.",
        "read 0x10 1",
        "read 10 1_0",
        "write 02 g",
        "write g",
        "write 02 0x1",
        "write 02 -1",
        "held A 0",
        "held 0 c",
        "held 0 -0",
        "held +1 0",
        "look g",
        "look 0 0 0 0 0 0 0 0 g",
        "look 0,0",
        "looks g",
        "looks 0 0 0 0 0 0 0 0 g",
        "looks 0 0 0 0 0 0 0 0 ; 0 0 0 0 0 0 0 0",
        "looks # none",
    ] {
        assert!(refused(line.as_bytes()), "{line}");
    }
}

#[test]
fn digits_that_are_none_of_fingers_and_waits() {
    for line in [
        "held 0 SF",
        "held SF 0",
        "press A 0",
        "press 0 C",
        "press 0 c",
        "press 0 S",
        "press 0 F",
        "press 0 SFx",
        "press 0 SF12",
        "press 0 0SF",
        "press SF 0",
        "press -0 0",
        "press 0 0x1",
        "release 0 B",
        "release sf 0",
        "release 0 ssf",
        "wait A",
        "wait SF",
        "wait -1",
        "wait +1",
        "wait 1.0",
    ] {
        assert!(refused(line.as_bytes()), "{line}");
    }
}

#[test]
fn words_too_many_and_too_few() {
    for line in [
        "reset 0",
        "irq 0",
        "irq # asked",
        "read",
        "read 10",
        "read 10 1 1",
        "write",
        "held",
        "held 1",
        "held 1 1 1",
        "press",
        "press 0",
        "press SF",
        "press 0 0 0",
        "release",
        "release 0",
        "release 0 0 0",
        "wait",
        "wait 1 1",
        "quit now",
        "quit 0",
        "quit # at once",
        "show all",
        "show numbers",
        "help me",
        "help look",
        "help quit",
        "help number",
        "help NUMBERS",
        "help numbers numbers",
    ] {
        assert!(refused(line.as_bytes()), "{line}");
    }
}

#[test]
fn unknown_words() {
    for line in ["foo", "RESET", "Irq", "LOOK 0", "look0", "res", "resets", "?", ".", "0", "irq;"] {
        assert!(refused(line.as_bytes()), "{line}");
    }
    for line in ["LOOKS", "Looks 0", "looks0", "lookss", "loo"] {
        assert!(refused(line.as_bytes()), "{line}");
    }
    for line in ["Press 0 0", "RELEASE 0 0", "press0 0", "Wait 1", "waits 1", "QUIT", "qui", "exit"]
    {
        assert!(refused(line.as_bytes()), "{line}");
    }
}

#[test]
fn a_refused_line_does_nothing() {
    session(
        "
        write 02 01 -> 0
        look 1 0 0 0 0 0 0 0 -> 0
        read 10 1 1 -> ? too many words
        read 10 1G -> ? not a decimal number: 1G
        write 02 05 100 -> ? number too large: 100
        write 03 22 x -> ? not a hexadecimal number: x
        look 0 0 0 0 0 0 0 10000 -> ? number too large: 10000
        reset now -> ? too many words
        held 0 0 -> 0 yes
        read 02 2 -> 0 01 22
        read 10 2 -> 0 00 7F
        ",
    );
}

#[test]
fn what_is_wrong_and_the_word() {
    session(
        "
        rest -> ? unknown command: rest
        held C 0 -> ? not a decimal number: C
        look 0x1 -> ? not a hexadecimal number: 0x1
        look 10000 -> ? number too large: 10000
        looks 0x1 -> ? not a hexadecimal number: 0x1
        looks 0 10000 -> ? number too large: 10000
        pack 9 looks 0 -> ? not a call: looks
        press 8 0 -> ? not a row: 8
        release 0 13 -> ? not a column: 13
        read 10 -> ? too few words
        irq 0 -> ? too many words
        abcdefghijklmnopqrst -> ? unknown command: abcdefghijklmnopqrst
        abcdefghijklmnopqrstu -> ? unknown command: abcdefghijklmnopqrst..
        ",
    );
    let answer = Console::new().answer(b"a\0b\xC3\xA9\x7F~");
    assert_eq!(answer.unwrap(), "? unknown command: a?b???~");
}

#[test]
fn lists_of_any_length() {
    session(&format!(
        "
        look -> 1
        write 02 -> 3
        write FF -> 3
        {} -> 1
        {} -> 4
        ",
        repeated("look", "0", 8000),
        repeated("write 02", "0", 8000),
    ));
}

#[test]
fn bytes_that_are_no_text() {
    let lines: [&[u8]; 10] = [
        b"\xFF",
        b"\0",
        b"irq\0",
        b"irq\xC3\xA9",
        b"\x0Birq",
        b"irq\x0C",
        b"\rirq",
        b"irq\r\r",
        b"read 10 \xD9\xA1",
        b"look \xFF\xFE",
    ];
    for line in lines {
        assert!(refused(line), "{line:?}");
    }
}

#[test]
fn blank_lines_and_comments_give_no_answer() {
    let input = b"\n\r\n \n\t\n \t \r\n#\n# irq\n#irq\r\n  # irq\n\t#irq\n# \xFF\0\nirq\n";
    assert_eq!(output(input), "0 yes\n");
}

#[test]
fn blanks_tabs_and_carriage_returns() {
    let input = b"\tirq\nirq \t\nirq\r\n \tread\t\t10 \t 2\t \r\n  held 0\t0\r\n";
    assert_eq!(output(input), "0 yes\n0 yes\n0 yes\n0 7F 7F\n0 no\n");
}

#[test]
fn a_final_line_without_a_newline() {
    assert_eq!(output(b"irq\nread 10 1"), "0 yes\n0 7F\n");
    assert_eq!(output(b"irq\r"), "0 yes\n");
    assert_eq!(output(b"# irq"), "");
    assert_eq!(output(b" "), "");
    assert_eq!(output(b""), "");
    assert_eq!(output(b"\n"), "");
}

#[test]
fn show_and_help_have_no_counterpart() {
    assert_eq!(output(b"show\nhelp\nirq\n"), ".\n.\n0 yes\n");
    assert_eq!(output(b"help numbers\n help\tnumbers \r\nirq\n"), ".\n.\n0 yes\n");
}

#[test]
fn what_stands_after_quit_is_not_read() {
    for quit in ["quit", " quit", "quit \t", "quit\r", "\t quit \r"] {
        let input = format!("irq\n{quit}\nirq\nfoo\nread 10 1");
        assert_eq!(output(input.as_bytes()), "0 yes\n", "{quit:?}");
        assert_eq!(output(format!("irq\n{quit}").as_bytes()), "0 yes\n", "{quit:?}");
    }
    for line in ["quit\r\r", "quit now", "quit quit", "#quit", "Quit", "quitt"] {
        let input = format!("{line}\nread 10 1\n");
        assert!(output(input.as_bytes()).ends_with("0 7F\n"), "{line:?}");
    }
}

#[test]
fn the_longest_quit() {
    let fits = format!("quit{}\nirq\n", " ".repeat(LONGEST - 4));
    let over = format!("quit{}\nirq\n", " ".repeat(LONGEST - 3));
    assert_eq!(output(fits.as_bytes()), "");
    assert_eq!(output(over.as_bytes()), "? line too long\n0 yes\n");
}

#[test]
fn the_status_is_one_after_a_question_mark() {
    for (script, status) in [
        ("irq", 0),
        ("", 0),
        ("# foo", 0),
        ("held 8 0", 0),
        ("look", 0),
        ("foo", 1),
        ("press 8 0", 1),
        ("quit now", 1),
        ("foo\nirq\nreset", 1),
        ("irq\nquit\nfoo", 0),
        ("foo\nquit", 1),
    ] {
        let mut console = Console::new();
        console.feed(script.as_bytes(), &mut Vec::new());
        console.finish(&mut Vec::new());
        assert_eq!(console.status(), status, "{script}");
    }
    let mut console = Console::new();
    console.answer(&[b' '; LONGEST + 1]);
    assert_eq!(console.status(), 1);
}

#[test]
fn the_longest_line() {
    let padded = |text: &str, fill: &str, length: usize| {
        let mut line = text.to_string();
        while line.len() < length {
            line.push_str(fill);
        }
        line.truncate(length);
        line
    };
    for (text, fill, whole) in [
        ("irq", " ", "0 yes\n"),
        ("# irq", "x", ""),
        ("", "\t", ""),
        ("look", " 0", "1\n"),
        ("looks", " 0", "1 0\n"),
        ("looks 00000000000", " 0", "0 1023\n"),
    ] {
        let (fits, over) = (padded(text, fill, LONGEST), padded(text, fill, LONGEST + 1));
        assert_eq!(output(format!("{fits}\nirq\n").as_bytes()), format!("{whole}0 yes\n"));
        assert_eq!(output(fits.as_bytes()), whole);
        assert_eq!(output(format!("{over}\nirq\n").as_bytes()), "? line too long\n0 yes\n");
        assert_eq!(output(over.as_bytes()), "? line too long\n");
    }
}

#[test]
fn a_carriage_return_counts_for_the_longest_line() {
    let fits = format!("irq{}\r\n", " ".repeat(LONGEST - 4));
    let over = format!("irq{}\r\n", " ".repeat(LONGEST - 3));
    assert_eq!(output(fits.as_bytes()), "0 yes\n");
    assert_eq!(output(over.as_bytes()), "? line too long\n");
}

#[test]
fn a_line_far_too_long_gets_one_answer() {
    let input = format!("irq\n{}\nread 10 1\n", "reset ".repeat(20_000));
    assert_eq!(output(input.as_bytes()), "0 yes\n? line too long\n0 7F\n");
}
