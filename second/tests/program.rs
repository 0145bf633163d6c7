//! The program from outside: its words, its answers in time, its status, and `compare`.

use std::fs::{read, remove_file, write, OpenOptions};
use std::io::{BufRead, BufReader, Write};
use std::process::{Command, Output, Stdio};

const SECOND: &str = env!("CARGO_BIN_EXE_second");

/// Runs the program with these words and no input.
fn run(words: &[&str]) -> Output {
    Command::new(SECOND).args(words).stdin(Stdio::null()).output().unwrap()
}

/// What the program prints.
fn text(output: &Output) -> String {
    String::from_utf8_lossy(&output.stdout).into_owned()
}

#[test]
fn each_line_is_answered_before_the_next() {
    let mut child =
        Command::new(SECOND).stdin(Stdio::piped()).stdout(Stdio::piped()).spawn().unwrap();
    let mut input = child.stdin.take().unwrap();
    let mut answers = BufReader::new(child.stdout.take().unwrap()).lines();
    for (command, answer) in [
        ("irq\n", "0 yes"),
        ("# no answer\nwrite 84 01\n", "0"),
        ("\nirq\n", "0 no"),
        ("read 10 2\n", "0 7F 7F"),
    ] {
        input.write_all(command.as_bytes()).unwrap();
        assert_eq!(answers.next().unwrap().unwrap(), answer);
    }
    input.write_all(b"irq").unwrap();
    drop(input);
    assert_eq!(answers.next().unwrap().unwrap(), "0 no");
    assert!(answers.next().is_none());
    assert!(child.wait().unwrap().success());
}

#[test]
fn a_script_is_the_same_for_the_same_seed() {
    let one = run(&["script", "5", "700"]);
    assert_eq!(one.stdout, run(&["script", "5", "700"]).stdout);
    assert_ne!(one.stdout, run(&["script", "6", "700"]).stdout);
    assert_eq!(one.stdout.iter().filter(|byte| **byte == b'\n').count(), 700);
}

#[test]
fn compare_finds_itself_the_same() {
    let output = run(&["compare", "9", "5000", SECOND]);
    assert_eq!(text(&output), "same: seed 9, 5000 lines\n");
    assert_eq!(output.status.code(), Some(0));
}

#[test]
fn compare_shows_a_difference_cut_down() {
    // A program that takes KBDBOUNCE 1 as 2 if KBDSIZE 8C is written with it.
    let wrong = r#"sed 's/^write 02 01 8C$/write 02 02 8C/' | "$0""#;
    let words = ["compare", "9", "20000", "bash", "-o", "pipefail", "-c", wrong, SECOND];
    let output = run(&words);
    assert_eq!(output.status.code(), Some(1));
    let text = text(&output);
    let (before, short) = text.split_once("cut down to ").unwrap();
    assert!(before.starts_with("different: seed 9, line "));
    // How many lines, the script with that write and what shows it, and the difference.
    let lines: Vec<&str> = short.lines().collect();
    let (script, shown) = lines[1..].split_at(lines.len() - 4);
    assert_eq!(lines[0], format!("{} lines:", script.len()));
    assert!((2..6).contains(&script.len()), "{text}");
    assert!(script.contains(&"write 02 01 8C"), "{text}");
    assert_eq!(shown[0], format!("command:       {}", script.last().unwrap()));
    assert!(shown[1].starts_with("second module: 0 "));
    assert!(shown[2].starts_with("the program:   0 "));
}

#[test]
fn compare_shows_a_program_that_does_not_answer() {
    let output = run(&["compare", "9", "500", SECOND, "script", "1", "0"]);
    assert_eq!(output.status.code(), Some(1));
    assert!(text(&output).contains("the program:   (ends with status 0)"));
    assert!(text(&output).contains("cut down to 1 lines:"));
}

#[test]
fn compare_shows_a_program_that_answers_unasked() {
    let output = run(&["compare", "9", "500", SECOND, "script", "1", "9"]);
    assert_eq!(output.status.code(), Some(1));
    assert!(text(&output).contains("cut down to 0 lines:"));
    assert!(text(&output).contains("second module: (ends with status 0)"));
}

/// What `compare` says of a script of that many lines and a program whose end is another.
fn compare_ending(lines: &str, ending: &str) -> (Option<i32>, String) {
    let program = format!("\"$0\"; {ending}");
    let output = run(&["compare", "9", lines, "sh", "-c", &program, SECOND]);
    (output.status.code(), text(&output))
}

#[test]
fn compare_shows_a_program_that_ends_badly() {
    for (ending, shown) in [("exit 3", "status 3"), ("kill -9 $$", "by signal: 9")] {
        let (code, text) = compare_ending("500", ending);
        assert_eq!(code, Some(1));
        assert!(text.contains("second module: (ends with status 1)"), "{text}");
        assert!(text.contains("cut down to 0 lines:"), "{text}");
        assert!(text.contains("second module: (ends with status 0)"), "{text}");
        assert!(text.contains("the program:   (ends "), "{text}");
        assert!(text.contains(shown), "{text}");
    }
}

#[test]
fn compare_shows_a_wrong_status() {
    // 500 lines have some that are wrong, and an empty script has none.
    assert_eq!(compare_ending("500", "exit $?").0, Some(0));
    assert_eq!(compare_ending("500", "exit 1").0, Some(0));
    assert_eq!(compare_ending("0", "exit $?").0, Some(0));
    assert_eq!(compare_ending("0", "exit 0").0, Some(0));
    let (code, text) = compare_ending("500", "exit 0");
    assert_eq!(code, Some(1));
    assert!(text.starts_with("different: seed 9, line 500 of 500\n"), "{text}");
    let (_, short) = text.split_once("cut down to 1 lines:\n").unwrap();
    assert!(short.contains("second module: (ends with status 1)"), "{text}");
    assert!(short.contains("the program:   (ends with status 0)"), "{text}");
    let (code, text) = compare_ending("0", "exit 1");
    assert_eq!(code, Some(1));
    assert!(text.contains("second module: (ends with status 0)"), "{text}");
    assert!(text.contains("the program:   (ends with status 1)"), "{text}");
}

#[test]
fn compare_shows_a_program_that_does_not_quit() {
    // The script of seed 3 has a quit. Here it is a blank line to the program.
    let program = "sed 's/^[ \t]*quit[ \t\r]*$//' | \"$0\"";
    let output = run(&["compare", "3", "2000", "bash", "-o", "pipefail", "-c", program, SECOND]);
    assert_eq!(output.status.code(), Some(1));
    let text = text(&output);
    let (_, short) = text.split_once("cut down to 2 lines:\n").unwrap();
    assert!(short.lines().next().unwrap().contains("quit"), "{text}");
    assert!(short.contains("second module: (ends with status 0)"), "{text}");
}

/// What the program answers to a whole input, and its status.
fn speak(input: &[u8], output: Stdio) -> (String, Option<i32>) {
    let mut command = Command::new(SECOND);
    let command = command.stdin(Stdio::piped()).stdout(output).stderr(Stdio::null());
    let mut child = command.spawn().unwrap();
    // A program that has ended reads no more.
    let _ = child.stdin.take().unwrap().write_all(input);
    let output = child.wait_with_output().unwrap();
    (text(&output), output.status.code())
}

#[test]
fn the_status_tells_of_wrong_lines() {
    for (input, answers, status) in [
        ("", "", 0),
        ("# foo\n\nirq\n", "0 yes\n", 0),
        ("held 8 0\nread 00 1\n", "7 no\n5\n", 0),
        ("irq\nfoo\nirq\n", "0 yes\n? unknown command: foo\n0 yes\n", 1),
        ("irq 1", "? too many words\n", 1),
        ("irq\nquit\nfoo\n", "0 yes\n", 0),
        ("foo\nquit\nirq\n", "? unknown command: foo\n", 1),
        ("quit now\nirq\n", "? too many words\n0 yes\n", 1),
    ] {
        let (said, code) = speak(input.as_bytes(), Stdio::piped());
        assert_eq!((said.as_str(), code), (answers, Some(status)), "{input}");
    }
}

#[test]
fn the_status_tells_of_answers_that_could_not_be_written() {
    let full = || Stdio::from(OpenOptions::new().write(true).open("/dev/full").unwrap());
    assert_eq!(speak(b"irq\n", full()).1, Some(1));
    assert_eq!(speak(b"# no answer\n", full()).1, Some(0));
}

#[test]
fn the_status_tells_of_a_reader_that_has_gone() {
    let mut child =
        Command::new(SECOND).stdin(Stdio::piped()).stdout(Stdio::piped()).spawn().unwrap();
    drop(child.stdout.take());
    let mut input = child.stdin.take().unwrap();
    // Another test that starts a program at this moment holds the pipe too, for a while. So lines
    // are sent until none is read any more.
    let unread = (0..100_000).find(|_| input.write_all(b"irq\n").is_err());
    assert!(unread.is_some());
    assert_eq!(child.wait().unwrap().code(), Some(1));
}

#[test]
fn quit_ends_while_the_input_is_open() {
    let mut child =
        Command::new(SECOND).stdin(Stdio::piped()).stdout(Stdio::piped()).spawn().unwrap();
    let mut input = child.stdin.take().unwrap();
    input.write_all(b"irq\n \tquit\t\r\nirq\nfoo\n").unwrap();
    let mut answers = BufReader::new(child.stdout.take().unwrap()).lines();
    assert_eq!(answers.next().unwrap().unwrap(), "0 yes");
    assert!(answers.next().is_none());
    assert_eq!(child.wait().unwrap().code(), Some(0));
    drop(input);
}

#[test]
fn words_that_make_no_sense() {
    let cases: [&[&str]; 15] = [
        &["foo"],
        &["--foo"],
        &["--record"],
        &["--play"],
        &["--play", "a", "b"],
        &["--record", "a", "--play"],
        &["--record", "a", "--record", "b"],
        &["--play", "a", "--play", "b"],
        &["--play", "a", "--record", "b", "c"],
        &["script"],
        &["script", "1"],
        &["script", "x", "10"],
        &["script", "1", "-1"],
        &["compare", "1", "10"],
        &["compare", "1", "10", "./there-is-no-such-program"],
    ];
    for words in cases {
        let output = run(words);
        assert_eq!(output.status.code(), Some(2), "{words:?}");
        assert!(String::from_utf8_lossy(&output.stderr).contains("usage: second"));
        assert!(output.stdout.is_empty());
    }
}

/// A path for a file of a test, and nothing there.
fn path(name: &str) -> String {
    let path = format!("{}/{name}", env!("CARGO_TARGET_TMPDIR"));
    let _ = remove_file(&path);
    path
}

/// What the program answers with these words to a whole input, and its status.
fn speak_with(words: &[&str], input: &str) -> (String, Option<i32>) {
    let mut command = Command::new(SECOND);
    let command = command.args(words).stdin(Stdio::piped()).stdout(Stdio::piped());
    let mut child = command.spawn().unwrap();
    // A program that has ended reads no more.
    let _ = child.stdin.take().unwrap().write_all(input.as_bytes());
    let output = child.wait_with_output().unwrap();
    (text(&output), output.status.code())
}

/// The list of a reset and a look of nothing: 108 bits.
const LOOK: [u8; 14] = [0xC0, 0, 0, 0, 0, 0, 0, 0, 0, 0, 0, 0, 0, 0];

#[test]
fn a_session_is_recorded() {
    let file = path("recorded");
    for (input, answers, status, list) in [
        ("", "", 0, &[][..]),
        ("# nothing\nirq\n", "0 yes\n", 0, &[]),
        ("reset\nread 10 33\nlook 0\nreset\n", "0\n4\n1\n0\n", 0, &[0xF0]),
        ("reset\nfoo\n", "0\n? unknown command: foo\n", 1, &[0xC0]),
        ("read 00 1\nquit\nreset\n", "5\n", 0, &[0x80, 0x00]),
        ("write 84 01", "0\n", 0, &[0x61, 0x00, 0x02]),
        ("play FF\nplay 00\n", "0\n20\n", 0, &[0xFF, 0xC0]),
        // The look that is done, and neither the one that is declined nor the one behind it.
        ("reset\nlooks 0 0 0 0 0 0 0 0 2000 0 0 0 0 0 0 0 0 0 0 0 0 0 0 0\n", "0\n2 1\n", 0, &LOOK),
        ("looks\nlooks 0 0 0 0 0 0 0 0 0\nreset\n", "0 0\n1 0\n0\n", 0, &[0xC0]),
        ("reset\npins 4\npins 80000\ndrive\n", "0\n0\n26\n0 -------------------\n", 0, &[0xC0]),
        ("read D5 1\npins 7FFFF\n", "5\n0\n", 0, &[0xB5, 0x40]),
    ] {
        let (said, code) = speak_with(&["--record", &file], input);
        assert_eq!((said.as_str(), code), (answers, Some(status)), "{input}");
        assert_eq!(read(&file).unwrap(), list, "{input}");
    }
}

#[test]
fn a_list_in_a_file_is_played_first() {
    let file = path("played");
    // write 02 01 8C; look 0 0 0 1000 0 0 0 0; write 84 01
    let mut list = vec![0x40, 0x82, 0x03, 0x18, 0, 0, 0, 0, 0, 0x80];
    list.extend([0, 0, 0, 0, 0, 0, 0, 0x30, 0x80, 0x01]);
    write(&file, list).unwrap();
    let input = "read 02 2\nread 10 2\nirq\nrelease 3 SF\nread 10 2\n";
    let answers = "0 01 8C\n0 3C 7F\n0 no\n0\n0 BC 7F\n";
    assert_eq!(speak_with(&["--play", &file], input), (answers.to_string(), Some(0)));
    write(&file, []).unwrap();
    assert_eq!(speak_with(&["--play", &file], "irq\n"), ("0 yes\n".to_string(), Some(0)));
}

#[test]
fn a_list_in_a_file_has_fetched_codes() {
    let file = path("fetched");
    // write 02 01 8C; look 0 0 0 1000 0 0 0 0; read 10 2: from bit 137 on, 10 00010000 00001.
    let mut list = vec![0x40, 0x82, 0x03, 0x18, 0, 0, 0, 0, 0, 0x80];
    list.extend([0, 0, 0, 0, 0, 0, 0, 0x42, 0x01]);
    write(&file, list).unwrap();
    let first = "trim key 3.SF; codes:";
    let input = "undo 3C\nrelease 3 SF\nread 10 1\nundo 3C\nreset\nundo 3C\nundo 3C:\n";
    let answers = format!(
        "{first} 1; + press, - release\n   0  open   +3.SF\n.\n0\n0 BC\n\
         {first} 2; + press, - release\n   0  group  +3.SF -3.SF\n.\n0\n\
         {first} 0; + press, - release\n.\n\
         ? not a hexadecimal number: 3C: (codes are hexadecimal)\n"
    );
    assert_eq!(speak_with(&["--play", &file], input), (answers, Some(1)));
    // Nothing of this is recorded.
    let to = path("not-recorded-groups");
    let input = "undo 3C\nundo 3C : 3C\ngroup 1 3C 0 3C\ngroups 1 3C\nfetch 1 3C 0 3C\nreset\n";
    assert_eq!(speak_with(&["--record", &to], input).1, Some(0));
    assert_eq!(read(&to).unwrap(), [0xC0]);
}

#[test]
fn a_list_is_played_and_recorded() {
    let (from, to) = (path("played-too"), path("recorded-too"));
    write(&from, [0x84, 0x3E]).unwrap();
    // 11, 10 00010000 11111, 01 10000100 00000 00000001
    let list = [0xE1, 0x0F, 0xB0, 0x80, 0x01];
    for words in [["--play", &from, "--record", &to], ["--record", &to, "--play", &from]] {
        assert_eq!(speak_with(&words, "write 84 01\n"), ("0\n".to_string(), Some(0)));
        assert_eq!(read(&to).unwrap(), list);
    }
    // The same file: it is read before it is made anew.
    let words = ["--record", &from, "--play", &from];
    assert_eq!(speak_with(&words, "write 84 01\n"), ("0\n".to_string(), Some(0)));
    assert_eq!(read(&from).unwrap(), list);
}

/// Sees to it that the program says what is wrong with a file, and does nothing.
fn complains(words: &[&str], beginning: &str) {
    let (said, code) = speak_with(words, "reset\nirq\n");
    assert!(said.starts_with(beginning) && said.lines().count() == 1, "{words:?}: {said}");
    assert_eq!(code, Some(1), "{words:?}");
}

#[test]
fn files_that_are_no_good() {
    let (bad, to) = (path("bad"), path("not-recorded"));
    write(&to, "as it was").unwrap();
    for list in [&[0x00][..], &[0xC1], &[0x84], &[0x84, 0x00, 0x00], b"reset\n"] {
        write(&bad, list).unwrap();
        complains(&["--play", &bad], "? 20 ");
        complains(&["--play", &bad, "--record", &to], "? 20 ");
        complains(&["--record", &to, "--play", &bad], "? 20 ");
    }
    let missing = path("missing");
    complains(&["--play", &missing], "? ");
    complains(&["--play", &missing, "--record", &to], "? ");
    complains(&["--play", env!("CARGO_TARGET_TMPDIR")], "? ");
    assert_eq!(read(&to).unwrap(), b"as it was");
    complains(&["--record", env!("CARGO_TARGET_TMPDIR")], "? ");
    complains(&["--record", &format!("{missing}/there")], "? ");
}

#[test]
fn the_longest_file_that_is_played() {
    let (file, to) = (path("longest"), path("longest-recorded"));
    write(&file, vec![0xFF; 1_048_577]).unwrap();
    complains(&["--play", &file], "? ");
    // Looks of nothing: 106 bits each. 79,137 of them have 8,388,522 bits, and 86 bits of resets are
    // missing to 8,388,608.
    let mut list = vec![0; 1_048_565];
    list.push(0x3F);
    list.extend([0xFF; 10]);
    assert_eq!(list.len(), 1_048_576);
    write(&file, &list).unwrap();
    let words = ["--play", &file, "--record", &to];
    assert_eq!(speak_with(&words, "reset\n"), ("0\n".to_string(), Some(0)));
    // A reset before and one behind them.
    let recorded = read(&to).unwrap();
    assert_eq!((recorded.len(), recorded[0]), (1_048_577, 0xC0));
    assert_eq!(recorded[1_048_564..], [&[0x00, 0x0F][..], &[0xFF; 10], &[0xF0]].concat());
    complains(&["--play", &to], "? ");
}

#[test]
fn a_record_that_could_not_be_written() {
    let (said, code) = speak_with(&["--record", "/dev/full"], "reset\n");
    assert!(said.starts_with("0\n? ") && code == Some(1), "{said}");
    assert_eq!(speak_with(&["--record", "/dev/full"], "irq\n"), ("0 yes\n".to_string(), Some(0)));
}
