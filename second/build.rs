//! Plants the errors of tests/planted: for each edit a copy of the file that it names, with the edit
//! in it, and planted.rs, which lists them all. Only tests/planted.rs takes them in.
//!
//! A console can be made over any module, also over a copy of the module that uses edited pins. What
//! else a console is made of stands in its text, so an edit there brings a copy of the console along
//! that uses the edited copy, and copies of what stands between the two.

use std::env::var;
use std::fs::{read_dir, read_to_string, write};
use std::path::Path;

const PINS: &str = "src/pins.rs";
const MODULE: &str = "src/module.rs";
const CONSOLE: &str = "src/console.rs";
const EDITS: &str = "tests/planted";

/// The files that can be edited, each before those that use it.
const FILES: [&str; 8] = [
    PINS,
    MODULE,
    "src/carry.rs",
    "src/typed.rs",
    "src/fetched.rs",
    "src/undo.rs",
    "src/grouped.rs",
    CONSOLE,
];

/// Writes the copies and their list.
fn main() {
    for input in FILES.iter().chain(&[EDITS]) {
        println!("cargo:rerun-if-changed={input}");
    }
    let (mut modules, mut entries) = (String::new(), String::new());
    for name in names() {
        let (file, text) = planted(&name);
        let ident = name.replace('-', "_");
        modules += &module(&ident, &text);
        let console = match file {
            MODULE => format!("Console::over(Box::new({ident}::Module::new()))"),
            PINS => {
                modules += &users(file, MODULE, &ident);
                format!("Console::over(Box::new({ident}_module::Module::new()))")
            }
            CONSOLE => format!("{ident}::Console::new()"),
            _ => {
                modules += &users(file, CONSOLE, &ident);
                format!("{ident}_console::Console::new()")
            }
        };
        entries += &format!("    planted!({name:?}, {console}),\n");
    }
    let list = format!("const PLANTED: &[Planted] = &[\n{entries}];\n");
    write(Path::new(&var("OUT_DIR").unwrap()).join("planted.rs"), modules + &list).unwrap();
}

/// Writes a copy, and gives the lines that take it in as a module.
fn module(ident: &str, text: &str) -> String {
    let path = Path::new(&var("OUT_DIR").unwrap()).join(format!("{ident}.rs"));
    write(&path, text).unwrap();
    format!("#[allow(warnings)]\n#[path = {path:?}]\nmod {ident};\n")
}

/// Writes copies of all that use an edited file, up to the last one wanted, each with the copies
/// before it in the place of what it uses. Gives the lines that take them in.
fn users(file: &str, last: &str, ident: &str) -> String {
    let mut copies = vec![(uses(file), ident.to_string())];
    let mut modules = String::new();
    let place = |wanted: &str| FILES.iter().position(|file| *file == wanted).unwrap();
    for user in &FILES[place(file) + 1..=place(last)] {
        let text = read_to_string(user).unwrap();
        let over = copies.iter().fold(text.clone(), |text, (used, copy)| {
            text.replace(used, &format!("use crate::{copy}::"))
        });
        if over != text {
            let copy = format!("{ident}_{}", user.replace("src/", "").replace(".rs", ""));
            modules += &module(&copy, &over);
            copies.push((uses(user), copy));
        }
    }
    modules
}

/// How a line begins that uses a file.
fn uses(file: &str) -> String {
    file.replace("src/", "use crate::").replace(".rs", "::")
}

/// The names of the planted errors, in order.
fn names() -> Vec<String> {
    let files = read_dir(EDITS).unwrap().map(|entry| entry.unwrap().file_name());
    let files = files.map(|file| file.into_string().unwrap());
    let mut names: Vec<String> =
        files.filter_map(|file| Some(file.strip_suffix(".edit")?.to_string())).collect();
    names.sort();
    names
}

/// The file that an error is planted in, and its text with the error, or with what tells the
/// compiler that the edit doesn't fit.
fn planted(name: &str) -> (&'static str, String) {
    let path = format!("{EDITS}/{name}.edit");
    let edit = read_to_string(&path).unwrap();
    let named = |file: &&str| edit.lines().any(|line| line == format!("file: {file}"));
    let file = FILES.into_iter().find(named).unwrap_or(MODULE);
    match edited(&edit, file) {
        Ok(text) => (file, text),
        Err(wrong) => (file, format!("compile_error!({:?});\n", format!("{path}: {wrong}"))),
    }
}

/// The file's text with the edit's pairs put in one after the other: each `old` is there exactly
/// once.
fn edited(edit: &str, file: &str) -> Result<String, String> {
    let (mut text, mut old) = (read_to_string(file).unwrap(), "");
    for line in edit.lines() {
        if let Some(named) = line.strip_prefix("file: ") {
            if named != file {
                return Err(format!("{named} is not {file}"));
            }
        } else if let Some(found) = line.strip_prefix("old: ") {
            old = found;
        } else if let Some(new) = line.strip_prefix("new:") {
            let times = text.matches(old).count();
            if times != 1 {
                return Err(format!("'{old}' is in {file} {times} times, and must be once"));
            }
            text = text.replace(old, new.strip_prefix(' ').unwrap_or(new));
        } else if !line.starts_with('#') {
            return Err(format!("'{line}' makes no sense"));
        }
    }
    Ok(text)
}
