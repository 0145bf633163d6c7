//! Undo groups as they are drawn: those of a list, and those of the codes that a session fetched.

use crate::{answered, repeated};
use second::console::Console;

// The drawing.

/// Sees to it that a console draws this, up to the full stop.
fn draws(console: &mut Console, command: &str, expected: &[&str]) {
    let answer = console.answer(command.as_bytes()).unwrap();
    let lines: Vec<&str> = answer.split('\n').collect();
    assert_eq!(lines, [expected, &["."]].concat(), "{command}");
}

#[test]
fn a_list_is_drawn() {
    for command in
        ["undo 3C : 3C 05 85 05 85 BC 05 85 3C 05", "undo\t3c :  3c 5 85 005 85 bc 05 85 3C 5 \r"]
    {
        draws(
            &mut Console::new(),
            command,
            &[
                "trim key 3.SF; codes: 10; + press, - release",
                "   0  group  +3.SF +0.5 -0.5 +0.5 -0.5 -3.SF",
                "   6  alone  +0.5",
                "   7  alone  -0.5",
                "   8  open   +3.SF +0.5",
            ],
        );
    }
}

#[test]
fn small_lists_are_drawn() {
    let console = &mut Console::new();
    draws(console, "undo 00 :", &["trim key 0.0; codes: 0; + press, - release"]);
    draws(
        console,
        "undo 7B : 7B",
        &["trim key 7.11; codes: 1; + press, - release", "   0  open   +7.11"],
    );
    draws(
        console,
        "undo 7B : 00 80 7C FC",
        &[
            "trim key 7.11; codes: 4; + press, - release",
            "   0  alone  +0.0",
            "   1  alone  -0.0",
            "   2  alone  +7.SF",
            "   3  alone  -7.SF",
        ],
    );
}

#[test]
fn places_of_more_digits_are_drawn() {
    let list = repeated("", "10 90", 502);
    let answer = Console::new().answer(format!("undo 10 :{list}").as_bytes()).unwrap();
    let lines: Vec<&str> = answer.split('\n').collect();
    assert_eq!(lines.len(), 504);
    assert_eq!(lines[0], "trim key 1.0; codes: 1004; + press, - release");
    assert_eq!(lines[5], "   8  group  +1.0 -1.0");
    assert_eq!(lines[6], "  10  group  +1.0 -1.0");
    assert_eq!(lines[51], " 100  group  +1.0 -1.0");
    assert_eq!(lines[500], " 998  group  +1.0 -1.0");
    assert_eq!(lines[501], "1000  group  +1.0 -1.0");
    assert_eq!(lines[503], ".");
}

#[test]
fn declined_lists_are_drawn() {
    let console = &mut Console::new();
    for (command, expected) in [
        ("undo 90 :", "23 the trim key's code is no press of a key: 90"),
        ("undo 7F : 10 10", "23 the trim key's code is no press of a key: 7F"),
        ("undo D : 0D", "23 the trim key's code is no press of a key: 0D"),
        ("undo 90", "23 the trim key's code is no press of a key: 90"),
        ("undo 10 : 10 10 0D", "23 place 2 is no press or release of a key: 0D"),
        ("undo 10 : 7F FF", "23 place 0 is no press or release of a key: 7F"),
        ("undo 10 : 10 ff 7f", "23 place 1 is no press or release of a key: FF"),
        (
            "undo 3C : 3C 05 85 05 85 BC 05 85 3C 3C 10 10",
            "24 place 9 presses a key that is down: +3.SF",
        ),
        (
            "undo 3C : 3C 05 85 05 85 BC 05 85 3C 85 10 10",
            "24 place 9 lets go a key that is up: -0.5",
        ),
        ("undo 10 : 80", "24 place 0 lets go a key that is up: -0.0"),
        ("undo 10 : 10 90 90", "24 place 2 lets go a key that is up: -1.0"),
    ] {
        draws(console, command, &[expected]);
    }
}

// The codes of a session.

#[test]
fn the_codes_that_were_fetched_are_drawn() {
    let console = &mut answered(
        "
        write 02 01 8C -> 0
        press 3 SF -> 0
        press 0 5 -> 0
        read 10 1 -> 0 3C
        release 0 5 -> 0
        release 3 SF -> 0
        read 10 8 -> 0 05 85 BC 7F 7F 7F 7F 7F
        press 0 5 -> 0
        read 10 2 -> 0 05 7F
        release 0 5 -> 0
        ",
    );
    // The last release still waits.
    draws(
        console,
        "undo 3C",
        &[
            "trim key 3.SF; codes: 5; + press, - release",
            "   0  group  +3.SF +0.5 -0.5 -3.SF",
            "   4  alone  +0.5",
        ],
    );
    draws(
        console,
        "undo 05",
        &[
            "trim key 0.5; codes: 5; + press, - release",
            "   0  alone  +3.SF",
            "   1  group  +0.5 -0.5",
            "   3  alone  -3.SF",
            "   4  open   +0.5",
        ],
    );
    // A question takes nothing, and is no restart.
    assert_eq!(console.answer(b"read 10 2").as_deref(), Some("0 85 7F"));
    draws(
        console,
        "undo 3C",
        &[
            "trim key 3.SF; codes: 6; + press, - release",
            "   0  group  +3.SF +0.5 -0.5 -3.SF",
            "   4  alone  +0.5",
            "   5  alone  -0.5",
        ],
    );
}

/// A console that has fetched the press of key 1, 1.
fn with_a_press() -> Console {
    answered(
        "
        write 02 01 -> 0
        press 1 1 -> 0
        read 10 2 -> 0 11 7F
        ",
    )
}

/// What is drawn of the press of key 1, 1 and of nothing.
const PRESS: [&str; 2] = ["trim key 1.1; codes: 1; + press, - release", "   0  open   +1.1"];
const NOTHING: [&str; 1] = ["trim key 1.1; codes: 0; + press, - release"];

#[test]
fn a_restart_begins_anew() {
    draws(&mut Console::new(), "undo 11", &NOTHING);
    draws(&mut with_a_press(), "undo 11", &PRESS);
    for restart in ["reset", "write 03 22", "write 03 8C", "write 02 01 22", "play", "play C0"] {
        let console = &mut with_a_press();
        assert_eq!(console.answer(restart.as_bytes()).as_deref(), Some("0"), "{restart}");
        draws(console, "undo 11", &NOTHING);
    }
}

#[test]
fn what_is_no_restart_leaves_the_codes() {
    for (command, answer) in [
        // Sizes that are declined, and runs with a size that are.
        ("write 03 1C", "6"),
        ("write 02 01 00", "6"),
        ("write 03 22 22", "5"),
        ("write 02 01 22 22", "5"),
        ("write 01 01 22 22", "5"),
        // Other writes.
        ("write 02 05", "0"),
        ("write 08 03", "0"),
        ("write 84 01", "0"),
        ("play 00", "20"),
        ("play F", "? an odd number of digits"),
        ("reset now", "? too many words"),
        ("unpack C0", "0 reset"),
        ("pack 9 reset", "0 C0"),
        ("undo 22 : 22", "trim key 2.2; codes: 1; + press, - release\n   0  open   +2.2\n."),
        ("groups 1 11 91", "24"),
        ("wait 1", "0"),
    ] {
        let console = &mut with_a_press();
        assert_eq!(console.answer(command.as_bytes()).as_deref(), Some(answer), "{command}");
        draws(console, "undo 11", &PRESS);
    }
}

#[test]
fn only_done_reads_of_evtcode_fetch_codes() {
    for (command, answer) in [
        ("read 10 33", "4"),
        ("read 10 0", "3"),
        ("read 0F 2", "5"),
        ("read 0E 3", "5"),
        ("read 10 1", "0 7F"),
        // The picture has codes too.
        ("read 0B 4", "0 11 7F 7F 7F"),
        ("read 0E 1", "0 7F"),
        ("read 06 2", "0 01 00"),
        ("read 10 1 1", "? too many words"),
    ] {
        let console = &mut with_a_press();
        assert_eq!(console.answer(command.as_bytes()).as_deref(), Some(answer), "{command}");
        draws(console, "undo 11", &PRESS);
    }
}

#[test]
fn a_session_with_a_hole_is_declined() {
    // Sixteen keys go down in a look, and the last is dropped. All of them go up.
    let console = &mut answered(
        "
        write 02 01 8C -> 0
        look FF FF 0 0 0 0 0 0 -> 0
        read 10 16 -> 0 00 01 02 03 04 05 06 07 10 11 12 13 14 15 16 7F
        look 0 F0 0 0 0 0 0 0 -> 0
        read 10 16 -> 0 80 81 82 83 84 85 86 87 90 91 92 93 7F 7F 7F 7F
        look 0 0 0 0 0 0 0 0 -> 0
        read 10 16 -> 0 94 95 96 97 7F 7F 7F 7F 7F 7F 7F 7F 7F 7F 7F 7F
        ",
    );
    draws(console, "undo 00", &["24 place 30 lets go a key that is up: -1.7"]);
}

#[test]
fn a_played_list_has_fetched_what_its_reads_took() {
    let line = |calls: &str| {
        let packed = Console::new().answer(format!("pack 999 {calls}").as_bytes()).unwrap();
        format!("play{}", packed.strip_prefix('0').unwrap())
    };
    let down = "look 2 0 0 0 0 0 0 0";
    let up = "look 0 0 0 0 0 0 0 0";
    for (calls, expected) in [
        // Its reads took the press, and the release still waits.
        (
            format!("write 02 01 ; {down} ; read 10 1 ; {up}"),
            &["trim key 0.1; codes: 1; + press, - release", "   0  open   +0.1"][..],
        ),
        (
            format!("write 02 01 ; {down} ; {up} ; read 0F 2 ; read 10 32"),
            &["trim key 0.1; codes: 2; + press, - release", "   0  group  +0.1 -0.1"],
        ),
        // A restart in the list, and a declined one.
        (
            format!("write 02 01 ; {down} ; read 10 1 ; write 02 01 22 ; {down}"),
            &["trim key 0.1; codes: 0; + press, - release"],
        ),
        (
            format!("write 02 01 ; {down} ; read 10 1 ; reset ; {down} ; {down} ; {down} ; {up}"),
            &["trim key 0.1; codes: 0; + press, - release"],
        ),
        (
            format!("write 02 01 ; {down} ; read 10 1 ; write 03 1C ; {up} ; read 10 1"),
            &["trim key 0.1; codes: 2; + press, - release", "   0  group  +0.1 -0.1"],
        ),
    ] {
        let console = &mut with_a_press();
        assert_eq!(console.answer(line(&calls).as_bytes()).as_deref(), Some("0"), "{calls}");
        draws(console, "undo 01", expected);
    }
    // The session goes on behind a list that was played.
    let console = &mut with_a_press();
    let calls = format!("write 02 01 ; {down} ; read 10 1");
    assert_eq!(console.answer(line(&calls).as_bytes()).as_deref(), Some("0"));
    assert_eq!(console.answer(b"release 0 1").as_deref(), Some("0"));
    assert_eq!(console.answer(b"read 10 1").as_deref(), Some("0 81"));
    let both = ["trim key 0.1; codes: 2; + press, - release", "   0  group  +0.1 -0.1"];
    draws(console, "undo 01", &both);
}

/// A console that has fetched that many codes since the restart, of key 0, 0 down and up again.
fn with_codes(count: usize) -> Console {
    let mut console = Console::new();
    console.answer(b"write 02 01");
    for place in 0..count {
        console.answer(if place % 2 == 0 { b"press 0 0" } else { b"release 0 0" });
        console.answer(b"read 10 1");
    }
    console
}

#[test]
fn the_first_8192_codes_are_kept() {
    let only = "only the first 8192 codes since the restart are kept";
    for (count, kept, more) in [
        (8190, 8190, false),
        (8191, 8191, false),
        (8192, 8192, false),
        (8193, 8192, true),
        (8194, 8192, true),
        (8300, 8192, true),
    ] {
        let console = &mut with_codes(count);
        let answer = console.answer(b"undo 00").unwrap();
        let first = format!("trim key 0.0; codes: {kept}; + press, - release");
        let mut expected = vec![first];
        expected.extend((0..kept / 2).map(|pair| format!("{:4}  group  +0.0 -0.0", 2 * pair)));
        expected.extend((count == 8191).then(|| "8190  open   +0.0".to_string()));
        expected.extend(more.then(|| only.to_string()));
        expected.push(".".to_string());
        assert!(answer.split('\n').eq(expected), "{count}");
        // A restart begins anew.
        console.answer(b"write 03 22");
        draws(console, "undo 00", &["trim key 0.0; codes: 0; + press, - release"]);
    }
}

#[test]
fn a_declined_list_is_its_number_alone_also_if_there_were_more() {
    let console = &mut with_codes(8193);
    draws(console, "undo 80", &["23 the trim key's code is no press of a key: 80"]);
}

#[test]
fn seven_f_is_not_among_the_kept_codes() {
    let console = &mut with_codes(8192);
    console.answer(b"read 10 32");
    let answer = console.answer(b"undo 00").unwrap();
    assert!(!answer.contains("only the first"));
}
