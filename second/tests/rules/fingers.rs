//! Fingers on the contacts: `press`, `release` and `wait`, and what sets the contacts.

use crate::session;
use second::calls::{Calls, Driven, PINS};
use second::console::Console;
use second::module::Module;
use std::cell::RefCell;
use std::rc::Rc;

/// The samples of every look that a console has made.
pub type Looks = Rc<RefCell<Vec<Vec<u16>>>>;

/// A module that keeps the looks made, with KBDBOUNCE as it is here. It declines all looks but
/// the first few with number 8, and all that is asked of its pins.
struct Watched {
    looks: Looks,
    bounce: u8,
    done: usize,
}

impl Calls for Watched {
    fn reset(&mut self) -> u8 {
        0
    }

    fn look(&mut self, list: &[u16]) -> u8 {
        self.looks.borrow_mut().push(list.to_vec());
        if self.looks.borrow().len() > self.done {
            8
        } else {
            0
        }
    }

    fn looks(&mut self, list: &[u16]) -> (u8, usize) {
        let done = list.chunks(8).take_while(|samples| self.look(samples) == 0).count();
        (if 8 * done < list.len() { 8 } else { 0 }, done)
    }

    fn write(&mut self, _: u8, _: &[u8]) -> u8 {
        0
    }

    fn read(&mut self, _: u8, _: &mut [u8]) -> u8 {
        panic!("a finger makes no access")
    }

    fn pins(&mut self, _: u32) -> u8 {
        8
    }

    fn held(&self, _: u8, _: u8) -> (u8, bool) {
        (0, false)
    }

    fn interrupt(&self) -> (u8, bool) {
        (0, false)
    }

    fn drive(&self) -> (u8, Driven) {
        (8, [None; PINS])
    }

    fn register(&self, address: u8) -> u8 {
        assert_eq!(address, 0x02);
        self.bounce
    }
}

/// A console over a watched module, and its looks.
pub fn watched(bounce: u8, done: usize) -> (Console, Looks) {
    let looks = Looks::default();
    let module = Watched { looks: Rc::clone(&looks), bounce, done };
    (Console::over(Box::new(module)), looks)
}

/// How many looks a line makes with this bounce, and its answer.
fn looks_of(line: &str, bounce: u8) -> (usize, String) {
    let (mut console, looks) = watched(bounce, usize::MAX);
    let answer = console.answer(line.as_bytes()).unwrap();
    let count = looks.borrow().len();
    (count, answer)
}

#[test]
fn a_press_and_a_release_make_as_many_looks_as_the_bounce_says() {
    for line in ["press 0 0", "release 0 0", "press 7 SF", "release 7 12"] {
        for bounce in [1, 2, 3, 7, 254, 255] {
            assert_eq!(looks_of(line, bounce), (bounce.into(), "0".to_string()), "{line}");
        }
        assert_eq!(looks_of(line, 0), (1, "0".to_string()), "{line}");
    }
}

#[test]
fn a_wait_makes_its_looks_whatever_the_bounce() {
    for bounce in [0, 1, 3, 255] {
        for count in [0, 1, 2, 255, 256, 257, 65_534, 65_535] {
            let line = format!("wait {count}");
            assert_eq!(looks_of(&line, bounce), (count, "0".to_string()), "{line}");
        }
    }
    assert_eq!(looks_of("wait 0000000065535", 3), (65_535, "0".to_string()));
}

#[test]
fn a_refused_finger_moves_nothing() {
    for line in [
        "press 8 0",
        "press 0 13",
        "press 0 SFx",
        "press 0",
        "press 0 0 0",
        "release 8 0",
        "release 0 C",
        "looks 1 1 1 1 1 1 1 1 1 1 1 1 1 1 1 10000",
        "looks 1 1 1 1 1 1 1 1 g",
        "wait 65536",
        "wait",
        "wait 1 1",
    ] {
        let (mut console, looks) = watched(3, usize::MAX);
        assert!(console.answer(line.as_bytes()).unwrap().starts_with('?'), "{line}");
        assert!(looks.borrow().is_empty(), "{line}");
        console.answer(b"wait 1");
        assert_eq!(*looks.borrow(), [[0; 8]], "{line}");
    }
}

#[test]
fn every_look_has_the_contacts_as_samples() {
    let (mut console, looks) = watched(2, usize::MAX);
    for line in ["press 3 SF", "press 0 1", "press 3 0", "wait 1", "release 3 sf", "release 5 5"] {
        assert_eq!(console.answer(line.as_bytes()).unwrap(), "0");
    }
    let (sf, two) = ([0, 0, 0, 0x1000, 0, 0, 0, 0], [2, 0, 0, 0x1000, 0, 0, 0, 0]);
    let (three, last) = ([2, 0, 0, 0x1001, 0, 0, 0, 0], [2, 0, 0, 1, 0, 0, 0, 0]);
    let expected = [sf, sf, two, two, three, three, three, last, last, last, last];
    assert_eq!(*looks.borrow(), expected);
}

#[test]
fn every_contact_is_turned_by_its_row_and_column() {
    for row in 0..8 {
        for column in 0..13 {
            let (mut console, looks) = watched(1, usize::MAX);
            let (press, release) =
                (format!("press {row} {column}"), format!("release {row} {column}"));
            console.answer(press.as_bytes());
            console.answer(press.as_bytes());
            console.answer(release.as_bytes());
            console.answer(release.as_bytes());
            let (mut closed, open) = (vec![0; 8], vec![0; 8]);
            closed[row] = 1 << column;
            assert_eq!(*looks.borrow(), [closed.clone(), closed, open.clone(), open]);
        }
    }
}

#[test]
fn the_looks_end_with_the_first_that_is_declined() {
    for line in ["press 2 3", "release 2 3", "wait 5"] {
        for done in 0..5 {
            let (mut console, looks) = watched(5, done);
            assert_eq!(console.answer(line.as_bytes()).unwrap(), "8", "{line}");
            assert_eq!(looks.borrow().len(), done + 1, "{line}");
        }
        let (mut console, looks) = watched(5, 5);
        assert_eq!(console.answer(line.as_bytes()).unwrap(), "0", "{line}");
        assert_eq!(looks.borrow().len(), 5, "{line}");
    }
    let (mut console, looks) = watched(5, 0);
    assert_eq!(console.answer(b"wait 0").unwrap(), "0");
    assert!(looks.borrow().is_empty());
}

#[test]
fn a_finger_stays_where_its_looks_are_declined() {
    let (mut console, looks) = watched(1, 0);
    assert_eq!(console.answer(b"press 2 3").unwrap(), "8");
    assert_eq!(console.answer(b"wait 2").unwrap(), "8");
    let closed = [0, 0, 8, 0, 0, 0, 0, 0];
    assert_eq!(*looks.borrow(), [closed, closed]);
}

#[test]
fn only_a_look_that_is_done_sets_the_contacts() {
    let (mut console, looks) = watched(1, 1);
    console.answer(b"look 1 2 4 8 10 20 40 1000");
    console.answer(b"look 0 0 0 0 0 0 0 0");
    console.answer(b"wait 1");
    let set = vec![1, 2, 4, 8, 0x10, 0x20, 0x40, 0x1000];
    assert_eq!(*looks.borrow(), [set.clone(), vec![0; 8], set]);
}

#[test]
fn the_last_look_of_a_block_that_is_done_sets_the_contacts() {
    let line = b"looks 1 0 0 0 0 0 0 0 2 0 0 0 0 0 0 0 4 0 0 0 0 0 0 0";
    for (done, answer, set) in [(0, "8 0", 8), (1, "8 1", 1), (2, "8 2", 2), (3, "0 3", 4)] {
        let (mut console, looks) = watched(1, done + 1);
        console.answer(b"look 8 0 0 0 0 0 0 0");
        assert_eq!(console.answer(line).unwrap(), answer);
        console.answer(b"wait 1");
        assert_eq!(*looks.borrow().last().unwrap(), [set, 0, 0, 0, 0, 0, 0, 0], "{answer}");
    }
}

#[test]
fn a_press_is_believed() {
    session(
        "
        press 0 0 -> 0
        held 0 0 -> 0 yes
        press 1 sf -> 0
        release 0 0 -> 0
        press 00 012 -> 0
        read 10 5 -> 0 00 1C 80 0C 7F
        release 1 SF -> 0
        release 0 Sf -> 0
        read 10 3 -> 0 9C 8C 7F
        ",
    );
}

#[test]
fn a_press_with_bounce_zero() {
    session(
        "
        write 02 00 -> 0
        press 1 1 -> 0
        read 10 2 -> 0 11 7F
        release 1 1 -> 0
        read 10 2 -> 0 91 7F
        ",
    );
}

#[test]
fn a_press_with_the_longest_bounce() {
    session(
        "
        write 02 FF -> 0
        press 1 1 -> 0
        held 1 1 -> 0 yes
        look 0 0 0 0 0 0 0 0 -> 0
        wait 253 -> 0
        held 1 1 -> 0 yes
        wait 1 -> 0
        held 1 1 -> 0 no
        ",
    );
}

#[test]
fn a_key_that_is_down_is_pressed_again() {
    session(
        "
        press 1 1 -> 0
        press 1 1 -> 0
        read 10 2 -> 0 11 7F
        release 1 1 -> 0
        release 1 1 -> 0
        release 0 0 -> 0
        read 10 2 -> 0 91 7F
        ",
    );
}

#[test]
fn a_contact_out_of_the_size_counts_as_open_and_stays_closed() {
    session(
        "
        press 7 11 -> 0
        held 7 11 -> 0 no
        press 2 SF -> 0
        read 10 1 -> 0 7F
        read 06 1 -> 0 00
        write 02 02 8C -> 0
        wait 1 -> 0
        read 10 1 -> 0 7F
        wait 1 -> 0
        read 10 3 -> 0 2C 7B 7F
        ",
    );
}

#[test]
fn a_wait_goes_on_with_the_contacts_of_a_look() {
    session(
        "
        look 1 0 0 0 0 0 0 0 -> 0
        wait 0 -> 0
        wait 1 -> 0
        wait 0 -> 0
        read 10 1 -> 0 7F
        wait 1 -> 0
        read 10 2 -> 0 00 7F
        wait 65535 -> 0
        read 10 1 -> 27
        read 10 1 -> 0 7F
        held 0 0 -> 0 yes
        ",
    );
}

#[test]
fn a_look_lifts_the_fingers_that_it_does_not_show() {
    session(
        "
        write 02 01 -> 0
        press 0 0 -> 0
        press 0 1 -> 0
        look 2 0 0 0 0 0 0 0 -> 0
        press 1 0 -> 0
        read 10 5 -> 0 00 01 80 10 7F
        held 0 0 -> 0 no
        held 0 1 -> 0 yes
        ",
    );
}

#[test]
fn a_declined_look_leaves_the_contacts() {
    session(
        "
        write 02 01 -> 0
        press 0 0 -> 0
        read 10 1 -> 0 00
        look 2 2 2 2 2 2 2 2 2 -> 1
        look 2 2 2 2 2 2 2 -> 1
        look -> 1
        look 2 0 0 0 0 0 0 2000 -> 2
        look 8000 0 0 0 0 0 0 0 -> 2
        wait 1 -> 0
        read 10 1 -> 0 7F
        held 0 0 -> 0 yes
        ",
    );
}

#[test]
fn a_refused_look_leaves_the_contacts() {
    session(
        "
        write 02 01 -> 0
        press 0 0 -> 0
        read 10 1 -> 0 00
        look 0 0 0 0 0 0 0 g -> ? not a hexadecimal number: g
        look 0 0 0 0 0 0 0 10000 -> ? number too large: 10000
        wait 1 -> 0
        read 10 1 -> 0 7F
        ",
    );
}

#[test]
fn a_reset_leaves_the_contacts() {
    session(
        "
        press 0 0 -> 0
        press 1 SF -> 0
        reset -> 0
        held 0 0 -> 0 no
        read 10 1 -> 0 7F
        wait 2 -> 0
        read 10 1 -> 0 7F
        wait 1 -> 0
        read 10 3 -> 0 00 1C 7F
        ",
    );
}

#[test]
fn a_restart_leaves_the_contacts() {
    session(
        "
        write 02 01 -> 0
        press 0 0 -> 0
        write 03 33 -> 0
        read 10 1 -> 0 7F
        wait 1 -> 0
        read 10 2 -> 0 00 7F
        ",
    );
}

#[test]
fn all_contacts_are_open_at_first() {
    session(
        "
        write 02 01 8C -> 0
        wait 3 -> 0
        read 10 1 -> 0 7F
        release 3 3 -> 0
        read 10 1 -> 0 7F
        ",
    );
    let mut console = Console::over(Box::new(Module::new()));
    assert_eq!(console.answer(b"wait 65535").as_deref(), Some("0"));
}
