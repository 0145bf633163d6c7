//! Packed lists there and back: reader and writer undo each other.

use crate::{digits, packed, some_calls};
use second::calls::Call;
use second::carry::{judge, pack, unpack};
use second::chance::Chance;
use second::console::Console;
use second::typed::text;

/// A few calls of every kind, at the edges of what fits.
fn alphabet() -> Vec<Call> {
    vec![
        Call::Reset,
        Call::Look(vec![0; 8]),
        Call::Look(vec![0x1FFF; 8]),
        Call::Look(vec![0x1000, 1, 0, 0, 0, 0, 0, 0x0FFF]),
        Call::Write(0x00, vec![0x00]),
        Call::Write(0x84, vec![0x01, 0xFF]),
        Call::Write(0xFF, (0..32).collect()),
        Call::Read(0x00, 1),
        Call::Read(0x10, 32),
        Call::Read(0xFF, 16),
    ]
}

/// Sees to it that calls that fit come back from their packing.
fn there_and_back(calls: &[Call]) {
    assert!(calls.iter().all(|call| judge(call) == 0));
    let list = packed(calls);
    assert_eq!(unpack(&list).as_deref(), Some(calls));
    let length = list.len();
    assert_eq!(pack(calls, length).as_ref(), Ok(&list));
    if length > 0 {
        assert_eq!(pack(calls, length - 1), Err(21));
    }
}

#[test]
fn every_list_of_up_to_four_calls() {
    let mut lists: Vec<Vec<Call>> = vec![Vec::new()];
    let mut count = 0;
    for _ in 0..=4 {
        lists.iter().for_each(|calls| there_and_back(calls));
        count += lists.len();
        let longer = |calls: &Vec<Call>| {
            let calls = calls.clone();
            alphabet().into_iter().map(move |call| [calls.as_slice(), &[call]].concat())
        };
        lists = lists.iter().flat_map(longer).collect();
    }
    assert_eq!(count, 1 + 10 + 100 + 1000 + 10_000);
}

#[test]
fn a_hundred_thousand_lists() {
    let mut chance = Chance::new(1);
    for _ in 0..100_000 {
        there_and_back(&some_calls(&mut chance, 5));
    }
}

/// Sees to it that bytes are the packing of what they are unpacked to, if that is anything.
fn back_and_there(list: &[u8]) -> bool {
    let calls = unpack(list);
    calls.iter().for_each(|calls| assert_eq!(packed(calls), list));
    let answer = Console::new().answer(format!("unpack {}", digits(list)).as_bytes()).unwrap();
    match &calls {
        Some(calls) => {
            let texts: Vec<String> = calls.iter().map(text).collect();
            assert_eq!(answer, format!("0 {}", texts.join(" ; ")).trim_end());
        }
        None => assert_eq!(answer, "20"),
    }
    calls.is_some()
}

#[test]
fn every_bit_turned_and_every_cut() {
    let mut chance = Chance::new(2);
    let mut lists = vec![packed(&alphabet())];
    lists.extend((0..12).map(|_| packed(&some_calls(&mut chance, 6))));
    let (mut good, mut bad) = (0, 0);
    for list in &lists {
        let mut others = Vec::new();
        others.extend((0..=list.len()).map(|length| list[..length].to_vec()));
        others.extend((0..8 * list.len()).map(|bit| {
            let mut other = list.clone();
            other[bit / 8] ^= 0x80 >> (bit % 8);
            other
        }));
        others.extend((0..=255).map(|byte| [list.as_slice(), &[byte]].concat()));
        for other in others {
            *(if back_and_there(&other) { &mut good } else { &mut bad }) += 1;
        }
    }
    assert!(good > 500 && bad > 500, "{good} {bad}");
}

#[test]
fn every_list_of_one_or_two_bytes() {
    assert!(back_and_there(&[]));
    // Resets alone fill a byte: C0, F0, FC, FF.
    assert_eq!((0..=255).filter(|byte| back_and_there(&[*byte])).count(), 4);
    // Five to eight resets; a read, and its last bit 0, at 256 addresses with 32 counts.
    let twos = (0..=0xFFFF_u16).filter(|list| back_and_there(&list.to_be_bytes()));
    assert_eq!(twos.count(), 4 + 256 * 32);
}
