//! Every access of 0 to 40 bytes at each of the 256 addresses.

use crate::repeated;
use second::calls::Calls;
use second::console::Console;
use second::module::Module;

/// The reads that can be done: first address, longest length.
const READS: [(u8, usize); 10] = [
    (0x02, 2),
    (0x03, 1),
    (0x06, 2),
    (0x07, 1),
    (0x09, 1),
    (0x0B, 4),
    (0x0C, 3),
    (0x0D, 2),
    (0x0E, 1),
    (0x10, 32),
];

/// The writes that can be done: first address, longest length.
const WRITES: [(u8, usize); 5] = [(0x02, 2), (0x03, 1), (0x08, 2), (0x09, 1), (0x84, 1)];

/// The runs of pin registers that can be read: first address, length. Any part of them can be.
const PIN_READS: [(u8, usize); 8] =
    [(0x91, 1), (0xAA, 6), (0xC0, 1), (0xC2, 1), (0xC4, 1), (0xC6, 15), (0xD6, 6), (0xE0, 6)];

/// The runs of pin registers that can be written.
const PIN_WRITES: [(u8, usize); 4] = [(0xAA, 6), (0xC0, 21), (0xDC, 3), (0xE0, 6)];

/// Whether an access stays within one of these runs.
fn is_part(runs: &[(u8, usize)], first: u8, length: usize) -> bool {
    let within = |start: u8, longest: usize| {
        first >= start && usize::from(first - start) + length <= longest
    };
    runs.iter().any(|(start, longest)| within(*start, *longest))
}

/// The number that an access is to give, by lists of those that can be done.
fn expected(list: &[(u8, usize)], runs: &[(u8, usize)], first: u8, length: usize) -> char {
    match length {
        0 => '3',
        33.. => '4',
        _ if list.iter().any(|entry| entry.0 == first && length <= entry.1) => '0',
        _ if is_part(runs, first, length) => '0',
        _ => '5',
    }
}

/// The first character of the answer to a line, from a module after reset.
fn number(line: &str) -> char {
    let answer = Console::new().answer(line.as_bytes()).unwrap();
    answer.chars().next().unwrap()
}

#[test]
fn every_read() {
    for first in 0..=255 {
        for length in 0..=40 {
            let line = format!("read {first:02X} {length}");
            assert_eq!(number(&line), expected(&READS, &PIN_READS, first, length), "{line}");
        }
    }
}

#[test]
fn every_write_of_good_bytes() {
    for first in 0..=255 {
        for length in 0..=40 {
            let line = repeated(&format!("write {first:02X}"), "22", length);
            assert_eq!(number(&line), expected(&WRITES, &PIN_WRITES, first, length), "{line}");
        }
    }
}

#[test]
fn every_write_of_bytes_that_are_no_size() {
    for first in 0..=255 {
        for length in 0..=40 {
            let line = repeated(&format!("write {first:02X}"), "1C", length);
            let bad = (first == 0x03 && length == 1) || (first == 0x02 && length == 2);
            let good = expected(&WRITES, &PIN_WRITES, first, length);
            assert_eq!(number(&line), if bad { '6' } else { good }, "{line}");
        }
    }
}

#[test]
fn every_size() {
    for size in 0..=255u8 {
        let (rows, columns) = (size >> 4, size & 0x0F);
        let good = [2, 3, 4, 5, 6, 7, 8].contains(&rows)
            && [2, 3, 4, 5, 6, 7, 8, 9, 10, 11, 12].contains(&columns);
        let line = format!("write 03 {size:02X}");
        assert_eq!(number(&line), if good { '0' } else { '6' }, "{line}");
    }
}

#[test]
fn a_read_fills_the_whole_buffer_or_none_of_it() {
    let mut module = Module::new();
    for (first, length) in [(0x10, 33), (0x0B, 5), (0x08, 1), (0x10, 0)] {
        let mut buffer = vec![0xAA; length];
        assert_ne!(module.read(first, &mut buffer), 0);
        assert_eq!(buffer, vec![0xAA; length]);
    }
    let mut buffer = [0xAA; 32];
    assert_eq!(module.read(0x10, &mut buffer), 0);
    assert_eq!(buffer, [0x7F; 32]);
}
