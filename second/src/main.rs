//! The second module as a program.
//!
//! `second`                                    speaks the console's language
//! `second --record FILE`                      writes the session to the file as a packed list
//! `second --play FILE`                        plays the packed list in the file first
//! `second script SEED LINES`                  prints a random script
//! `second compare SEED LINES PROGRAM [WORDS]` compares a console program with the second module
//!
//! `--record` and `--play` may be given both, in either order. The console ends with 1 if some line
//! was answered with `?`, a file was no good or an answer could not be written, else with 0.
//! `compare` ends with 0 if answers and status are the same, with 1 if not. Words that make no sense
//! end with 2.

use second::carry::{unpack, NO_LIST};
use second::compare::compare;
use second::console::Console;
use second::script::{script, Line};
use std::ffi::OsString;
use std::fs::File;
use std::io::{self, Read, Write};
use std::process::exit;

/// The longest file that is played.
const LONGEST_FILE: u64 = 1_048_576;

const USAGE: &str = "usage: second [--record FILE] [--play FILE]
       second script SEED LINES
       second compare SEED LINES PROGRAM [WORDS..]";

/// Does what the words say.
fn main() {
    let words: Vec<OsString> = std::env::args_os().skip(1).collect();
    let texts: Vec<String> = words.iter().map(|word| word.to_string_lossy().into()).collect();
    let texts: Vec<&str> = texts.iter().map(String::as_str).collect();
    match texts.as_slice() {
        [] | ["--record" | "--play", _] => converse(&words),
        ["--record", _, "--play", _] | ["--play", _, "--record", _] => converse(&words),
        ["script", seed, lines] => print_script(number(seed), number(lines)),
        ["compare", seed, lines, _, ..] => run_compare(number(seed), number(lines), &words[3..]),
        _ => usage("these words make no sense"),
    }
}

/// Ends with what is wrong and how it is right.
fn usage(wrong: &str) -> ! {
    eprintln!("{wrong}\n{USAGE}");
    exit(2)
}

/// A seed or a number of lines.
fn number(word: &str) -> u64 {
    match word.parse() {
        Ok(number) => number,
        Err(_) => usage("SEED and LINES are decimal numbers"),
    }
}

/// The status after an error, which is told unless a reader has gone, such as `head`.
fn status_of(error: io::Error) -> i32 {
    if error.kind() != io::ErrorKind::BrokenPipe {
        eprintln!("{error}");
    }
    1
}

/// Speaks with the files that the words name, and ends.
fn converse(words: &[OsString]) {
    let file = |name: &str| words.chunks(2).find(|pair| pair[0] == name).map(|pair| &pair[1]);
    let mut console = Console::new();
    let status = match begin(&mut console, file("--play"), file("--record")) {
        Ok(record) => {
            let status = speak(&mut console).unwrap_or_else(status_of);
            status.max(end(&console, record))
        }
        Err(wrong) => complain(&wrong),
    };
    exit(status)
}

/// Plays the list in one file, and gives the other, opened to be written.
fn begin(
    console: &mut Console,
    play: Option<&OsString>,
    record: Option<&OsString>,
) -> Result<Option<File>, String> {
    // A list that is no good leaves the file to be written as it is.
    let list = play.map(list_in).transpose()?;
    let record = record.map(File::create).transpose().map_err(not_recorded)?;
    if record.is_some() {
        console.record();
    }
    list.map(|list| console.play(&list));
    Ok(record)
}

/// The packed list in a file.
fn list_in(file: &OsString) -> Result<Vec<u8>, String> {
    let mut list = Vec::new();
    let opened = File::open(file);
    let read = opened.and_then(|file| file.take(LONGEST_FILE + 1).read_to_end(&mut list));
    match read {
        Err(error) => Err(format!("the file to play can't be read: {error}")),
        Ok(length) if length as u64 > LONGEST_FILE => {
            Err(format!("the file to play is longer than {LONGEST_FILE} bytes"))
        }
        Ok(_) if unpack(&list).is_none() => {
            Err(format!("{NO_LIST} the file to play is cut short or padded wrongly"))
        }
        Ok(_) => Ok(list),
    }
}

/// Writes the list of a session that was recorded. Gives the exit status.
fn end(console: &Console, record: Option<File>) -> i32 {
    let written = record.map(|mut file| file.write_all(&console.recorded())).transpose();
    written.map_or_else(|error| complain(&not_recorded(error)), |_| 0)
}

/// What is wrong with a file that is to be written.
fn not_recorded(error: io::Error) -> String {
    format!("the session can't be recorded: {error}")
}

/// Answers with what is wrong with a file. Gives the exit status.
fn complain(wrong: &str) -> i32 {
    writeln!(io::stdout(), "? {wrong}").map_or_else(status_of, |_| 1)
}

/// Answers every complete line that has arrived before it waits for more. Gives the exit status.
fn speak(console: &mut Console) -> io::Result<i32> {
    let (mut input, mut output) = (io::stdin().lock(), io::stdout().lock());
    let mut piece = vec![0; 65_536];
    loop {
        let mut answers = Vec::new();
        let length = match input.read(&mut piece) {
            Err(error) if error.kind() == io::ErrorKind::Interrupted => continue,
            result => result?,
        };
        if length == 0 {
            console.finish(&mut answers);
        } else {
            console.feed(&piece[..length], &mut answers);
        }
        output.write_all(&answers)?;
        output.flush()?;
        if length == 0 || console.has_ended() {
            return Ok(console.status());
        }
    }
}

/// Prints a random script. A reader that stops early is no error.
fn print_script(seed: u64, lines: u64) {
    match print_lines(&script(seed, lines as usize)) {
        Err(error) if error.kind() != io::ErrorKind::BrokenPipe => exit(status_of(error)),
        _ => {}
    }
}

/// Prints lines.
fn print_lines(lines: &[Line]) -> io::Result<()> {
    let mut output = io::BufWriter::new(io::stdout().lock());
    for line in lines {
        output.write_all(line)?;
        output.write_all(b"\n")?;
    }
    output.flush()
}

/// Compares a program with the second module and ends.
fn run_compare(seed: u64, lines: u64, program: &[OsString]) {
    match compare(seed, &script(seed, lines as usize), program) {
        Ok(same) => exit(if same { 0 } else { 1 }),
        Err(error) => usage(&format!("{}: {error}", program[0].to_string_lossy())),
    }
}
