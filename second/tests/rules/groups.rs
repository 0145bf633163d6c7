//! Undo groups (document 02, E4): the groups, the numbers, the stretch, and how they are asked for.

use crate::{repeated, session};
use second::chance::Chance;
use second::undo::{groups, stands, stretch, Stand};

// What stands at a place.

#[test]
fn a_press_of_the_trim_key_opens_a_group_and_its_release_ends_it() {
    session(
        "
        group 1 10 0 10 90 -> 0 group 0 2
        group 1 10 0 10 21 A1 90 -> 0 group 0 4
        group 1 10 0 10 90 10 90 -> 0 group 0 2
        group 1 10 2 10 90 10 90 -> 0 group 2 4
        groups 1 10 10 21 A1 90 -> 0 group 0 4 end
        groups 1 10 10 90 10 90 -> 0 group 0 2 group 2 4 end
        ",
    );
}

#[test]
fn a_code_outside_is_a_group_of_its_own() {
    session(
        "
        group 1 10 0 21 A1 10 90 05 -> 0 group 0 1
        group 1 10 1 21 A1 10 90 05 -> 0 group 1 2
        group 1 10 2 21 A1 10 90 05 -> 0 group 2 4
        group 1 10 4 21 A1 10 90 05 -> 0 group 4 5
        groups 1 10 21 A1 10 90 05 -> 0 group 0 1 group 1 2 group 2 4 group 4 5 end
        groups 1 10 21 A1 -> 0 group 0 1 group 1 2 end
        ",
    );
}

#[test]
fn other_keys_neither_open_nor_end_a_group() {
    // 21 goes down inside and up outside; 32 goes down outside and up inside; 43 is down throughout.
    session(
        "
        groups 1 10 10 21 90 A1 -> 0 group 0 3 group 3 4 end
        groups 1 10 32 10 B2 90 -> 0 group 0 1 group 1 4 end
        groups 1 10 43 32 10 21 B2 90 A1 10 90 C3 -> 0 group 0 1 group 1 2 group 2 6 group 6 7 group 7 9 group 9 10 end
        groups 1 10 11 20 00 1C 91 A0 80 9C -> 0 group 0 1 group 1 2 group 2 3 group 3 4 group 4 5 group 5 6 group 6 7 group 7 8 end
        ",
    );
}

#[test]
fn a_trim_key_that_is_still_down_leaves_a_group_open() {
    session(
        "
        group 1 10 0 10 -> 0 open 0
        group 1 10 0 10 21 A1 -> 0 open 0
        group 1 10 4 21 10 90 A1 10 32 -> 0 open 4
        groups 1 10 10 -> 0 open 0
        groups 1 10 21 10 90 A1 10 32 -> 0 group 0 1 group 1 3 group 3 4 open 4
        groups 1 10 10 90 10 -> 0 group 0 2 open 2
        ",
    );
}

#[test]
fn the_end_is_the_end_also_behind_an_open_group() {
    session(
        "
        group 1 10 0 -> 0 end
        group 1 10 2 10 90 -> 0 end
        group 1 10 1 10 -> 0 end
        group 1 10 3 10 21 A1 -> 0 end
        groups 1 10 -> 0 end
        ",
    );
}

#[test]
fn the_first_and_the_last_key_can_be_the_trim_key() {
    // 00 is the press of key 0, 0, and 80 its release.
    session(
        "
        group 1 00 0 00 80 -> 0 group 0 2
        group 1 0 0 0 -> 0 open 0
        groups 1 00 05 00 7C FC 80 85 -> 0 group 0 1 group 1 5 group 5 6 end
        groups 1 7C 7C 00 80 FC -> 0 group 0 4 end
        groups 1 3C 3C 05 85 05 85 BC 05 85 3C 05 -> 0 group 0 6 group 6 7 group 7 8 open 8
        ",
    );
}

// The numbers.

#[test]
fn a_place_beyond_the_end_is_22() {
    session(
        "
        group 1 10 1 -> 22
        group 1 10 2 10 -> 22
        group 1 10 3 10 90 -> 22
        group 1 10 999999 10 90 -> 22
        fetch 1 10 3 10 90 -> 22
        ",
    );
}

#[test]
fn a_place_has_its_full_width() {
    session(
        "
        group 1 10 256 10 90 -> 22
        group 1 10 258 10 90 -> 22
        group 1 10 65536 10 90 -> 22
        group 1 10 65538 10 90 -> 22
        fetch 1 10 256 10 90 -> 22
        fetch 1 10 65536 10 90 -> 22
        ",
    );
    // A list of 300 codes fits on a line.
    let list = repeated("", "21 A1", 149);
    session(&format!(
        "
        group 1 10 256{list} 10 90 -> 0 group 256 257
        group 1 10 298{list} 10 90 -> 0 group 298 300
        group 1 10 298{list} 10 32 -> 0 open 298
        group 1 10 300{list} 10 90 -> 0 end
        group 1 10 301{list} 10 90 -> 22
        group 1 10 299{list} 10 90 -> 25
        fetch 1 10 298{list} 10 90 -> 0 10 90
        ",
    ));
}

#[test]
fn codes_of_no_key_are_23() {
    session(
        "
        group 1 10 0 0D -> 23
        group 1 10 0 1E -> 23
        group 1 10 0 2F -> 23
        group 1 10 0 8D -> 23
        group 1 10 0 FD -> 23
        group 1 10 0 7F -> 23
        group 1 10 0 FF -> 23
        group 1 10 0 10 90 7F -> 23
        groups 1 10 21 7F A1 -> 23
        fetch 1 10 0 21 FF -> 23
        group 1 10 0 0C -> 0 group 0 1
        group 1 10 1 7C FC -> 0 group 1 2
        ",
    );
}

#[test]
fn a_trim_key_that_is_no_press_is_23() {
    // Judged also for a list of no codes.
    for trim in ["7F", "FF", "0D", "1E", "2F", "80", "90", "FC", "8D"] {
        session(&format!(
            "
            group 1 {trim} 0 -> 23
            group 1 {trim} 0 10 90 -> 23
            group 1 {trim} 2 10 90 -> 23
            groups 1 {trim} -> 23
            groups 1 {trim} 10 90 -> 23
            fetch 1 {trim} 0 -> 23
            fetch 1 {trim} 0 10 90 -> 23
            "
        ));
    }
    // Every press of the panel's 104 keys is good, and nothing else is.
    let good = |trim: &u8| stands(*trim, &[], 0) == Ok(Stand::End);
    assert_eq!((0..=255).filter(good).count(), 104);
}

#[test]
fn a_wrong_press_or_release_is_24() {
    session(
        "
        group 1 10 0 90 -> 24
        group 1 10 0 10 10 -> 24
        group 1 10 0 10 90 90 -> 24
        group 1 10 0 21 21 -> 24
        group 1 10 0 A1 -> 24
        group 1 10 0 21 A1 A1 -> 24
        group 1 10 0 10 21 21 90 -> 24
        group 1 10 0 10 A1 90 -> 24
        group 1 10 0 10 21 10 90 -> 24
        groups 1 10 90 10 -> 24
        fetch 1 10 0 10 10 -> 24
        groups 1 10 01 10 11 81 91 90 -> 0 group 0 1 group 1 6 end
        ",
    );
}

#[test]
fn the_whole_list_is_judged_whatever_the_place() {
    for place in 0..=3 {
        session(&format!(
            "
            group 1 10 {place} 10 90 0D -> 23
            group 1 10 {place} 0D 10 90 -> 23
            group 1 10 {place} 10 90 A1 -> 24
            group 1 10 {place} A1 10 90 -> 24
            group 1 10 {place} 10 21 10 -> 24
            "
        ));
    }
}

#[test]
fn a_place_inside_a_group_is_25() {
    session(
        "
        group 1 10 1 10 90 -> 25
        group 1 10 1 10 21 A1 90 05 -> 25
        group 1 10 2 10 21 A1 90 05 -> 25
        group 1 10 3 10 21 A1 90 05 -> 25
        group 1 10 4 10 21 A1 90 05 -> 0 group 4 5
        fetch 1 10 1 10 90 -> 25
        ",
    );
}

#[test]
fn a_place_past_the_start_of_an_open_group_is_25() {
    session(
        "
        group 1 10 1 10 21 A1 -> 25
        group 1 10 2 10 21 A1 -> 25
        group 1 10 0 10 21 A1 -> 0 open 0
        group 1 10 3 10 21 A1 -> 0 end
        fetch 1 10 2 10 21 A1 -> 25
        ",
    );
}

#[test]
fn the_numbers_in_their_order() {
    session(
        "
        group 1 10 1 10 10 0D -> 23
        group 1 10 3 10 10 0D -> 23
        group 1 10 4 10 10 0D -> 22
        group 1 7F 0 -> 23
        group 1 7F 1 -> 22
        group 1 90 3 10 10 -> 22
        group 1 90 2 10 10 -> 23
        group 1 90 1 10 21 -> 23
        group 1 10 1 10 21 21 -> 24
        group 1 10 4 10 21 21 -> 22
        group 1 10 1 10 90 90 -> 24
        groups 1 7F 10 10 -> 23
        groups 1 10 10 10 0D -> 23
        fetch 1 10 1 10 10 0D -> 23
        fetch 1 10 4 10 10 0D -> 22
        ",
    );
}

// The stretch.

#[test]
fn the_codes_of_a_group_are_fetched() {
    session(
        "
        fetch 1 10 0 10 21 90 -> 0 10 21 90
        fetch 1 10 0 10 21 90 A1 -> 0 10 21 90
        fetch 1 10 3 10 21 90 A1 -> 0 A1
        fetch 1 10 1 05 10 21 90 A1 -> 0 10 21 90
        fetch 1 0 0 0 80 -> 0 00 80
        fetch 1 3c 0 3c bc -> 0 3C BC
        ",
    );
}

#[test]
fn nothing_is_fetched_where_no_finished_group_begins() {
    session(
        "
        fetch 1 10 0 -> 0
        fetch 1 10 0 10 -> 0
        fetch 1 10 2 21 A1 10 21 -> 0
        fetch 1 10 4 21 A1 10 21 -> 0
        fetch 1 10 2 10 90 -> 0
        ",
    );
}

#[test]
fn the_stretch_is_a_part_of_the_very_list() {
    let list = [0x10, 0x21, 0x90, 0xA1, 0x10];
    assert_eq!(stretch(0x10, &list, 0).as_ptr_range(), list[..3].as_ptr_range());
    assert_eq!(stretch(0x10, &list, 3).as_ptr_range(), list[3..4].as_ptr_range());
    // An open group, the end, and places that are declined.
    for place in [4, 5, 1, 6] {
        assert_eq!(stretch(0x10, &list, place).as_ptr_range(), list[..0].as_ptr_range());
    }
}

// The groups together.

/// A list that keys make: a key out of a few goes down or up.
fn some_list(chance: &mut Chance) -> Vec<u8> {
    let (mut down, mut list) = ([false; 128], Vec::new());
    for _ in 0..chance.below(24) {
        let key = chance.pick(&[0x10_u8, 0x10, 0x11, 0x20, 0x00, 0x7C]);
        let is_down = &mut down[usize::from(key)];
        list.push(if *is_down { key + 128 } else { key });
        *is_down = !*is_down;
    }
    list
}

#[test]
fn the_groups_in_order_with_an_open_tail_are_the_whole_list() {
    let mut chance = Chance::new(4);
    for _ in 0..20_000 {
        let list = some_list(&mut chance);
        let groups = groups(0x10, &list).unwrap();
        let (last, finished) = groups.split_last().unwrap();
        let mut joined = Vec::new();
        for stand in finished {
            // Each begins where the one before ended.
            let place = joined.len();
            assert!(matches!(stand, Stand::Group(first, end) if *first == place && *end > place));
            joined.extend(stretch(0x10, &list, place));
        }
        let tail = match last {
            Stand::Open(first) => &list[*first..],
            _ => &[],
        };
        assert_eq!([joined.as_slice(), tail].concat(), list);
        assert!(tail.is_empty() || tail[0] == 0x10 && !tail.contains(&0x90), "{list:X?}");
    }
}

#[test]
fn a_question_for_each_place_tells_what_the_groups_tell() {
    let mut chance = Chance::new(5);
    for _ in 0..5000 {
        let list = some_list(&mut chance);
        let groups = groups(0x10, &list).unwrap();
        for place in 0..list.len() + 3 {
            let begins = |stand: &&Stand| matches!(stand, Stand::Group(first, _) | Stand::Open(first) if *first == place);
            let expected = match groups.iter().find(begins) {
                Some(stand) => Ok(*stand),
                None if place < list.len() => Err(25),
                None if place == list.len() => Ok(Stand::End),
                None => Err(22),
            };
            assert_eq!(stands(0x10, &list, place), expected, "{list:X?} at {place}");
        }
    }
}

#[test]
fn a_group_is_what_the_rule_says() {
    // A group of the trim key begins with its press and has its release at the end and nowhere else;
    // any other group is one code.
    let mut chance = Chance::new(6);
    for _ in 0..20_000 {
        let list = some_list(&mut chance);
        for stand in groups(0x10, &list).unwrap() {
            if let Stand::Group(first, end) = stand {
                let group = &list[first..end];
                match group {
                    [0x10, inside @ .., 0x90] => assert!(!inside.contains(&0x90), "{list:X?}"),
                    [code] => assert!(*code != 0x10 && *code != 0x90, "{list:X?}"),
                    _ => panic!("{list:X?}"),
                }
            }
        }
    }
}

#[test]
fn long_lists() {
    let count = 2700;
    let pairs = repeated("", "10 90", count);
    let places: String = (0..count).map(|i| format!(" group {} {}", 2 * i, 2 * i + 2)).collect();
    session(&format!(
        "
        groups 1 10{pairs} -> 0{places} end
        group 1 10 5398{pairs} -> 0 group 5398 5400
        group 1 10 5399{pairs} -> 25
        group 1 10 5400{pairs} -> 0 end
        group 1 10 0 10{} -> 0 open 0
        fetch 1 10 0 10{} 90 -> 0 10{} 90
        ",
        repeated("", "21 A1", 2700),
        repeated("", "21 A1", 2700),
        repeated("", "21 A1", 2700),
    ));
}

// The words.

#[test]
fn what_is_wrong_with_the_words() {
    let (group, groups) = ("(group RULE TRIM PLACE C0 C1 ..)", "(groups RULE TRIM C0 C1 ..)");
    let (fetch, undo) = ("(fetch RULE TRIM PLACE C0 C1 ..)", "(undo TRIM, undo TRIM : C0 C1 ..)");
    session(&format!(
        "
        group -> ? too few words {group}
        group 1 -> ? too few words {group}
        group 1 10 -> ? too few words {group}
        groups -> ? too few words {groups}
        groups 1 -> ? too few words {groups}
        fetch 1 10 -> ? too few words {fetch}
        undo -> ? too few words {undo}
        undo 3C 3C -> ? too many words {undo}
        undo 3C :3C -> ? too many words {undo}
        undo 3C :: -> ? too many words {undo}
        undo 3C mended -> ? too many words {undo}
        undo 3C: -> ? not a hexadecimal number: 3C: (codes are hexadecimal)
        undo : 3C -> ? not a hexadecimal number: : (codes are hexadecimal)
        undo 3C : 3C : BC -> ? not a hexadecimal number: : (codes are hexadecimal)
        group 1 G0 0 -> ? not a hexadecimal number: G0 (codes are hexadecimal)
        group 1 100 0 -> ? number too large: 100 (a code is at most FF)
        group 1 10 0 10 190 -> ? number too large: 190 (a code is at most FF)
        groups 1 10 10 0x90 -> ? not a hexadecimal number: 0x90 (codes are hexadecimal)
        group A 10 0 -> ? not a decimal number: A (rules and places are decimal)
        group 1 10 A -> ? not a decimal number: A (rules and places are decimal)
        fetch 1 10 -1 -> ? not a decimal number: -1 (rules and places are decimal)
        group 1 10 1000000 -> ? number too large: 1000000 (999999 at most)
        "
    ));
}

#[test]
fn rule_1_is_the_only_one() {
    for rule in ["0", "2", "3", "255", "256", "257", "300", "99999999999", "4294967297", "002"] {
        session(&format!(
            "
            group {rule} 10 0 10 90 -> ? not a rule: {rule} (rule 1 is the only one)
            groups {rule} 10 10 90 -> ? not a rule: {rule} (rule 1 is the only one)
            fetch {rule} 10 0 10 90 -> ? not a rule: {rule} (rule 1 is the only one)
            "
        ));
    }
    session("groups 0001 10 10 90 -> 0 group 0 2 end");
    session("groups 18446744073709551617 10 -> ? not a rule: 18446744073709551617 (rule 1 is the only one)");
}

#[test]
fn the_first_word_from_the_left_that_is_wrong() {
    session(
        "
        group 2 -> ? not a rule: 2 (rule 1 is the only one)
        group x y z g -> ? not a decimal number: x (rules and places are decimal)
        group 1 y z g -> ? not a hexadecimal number: y (codes are hexadecimal)
        group 1 100 -> ? number too large: 100 (a code is at most FF)
        group 1 10 z g -> ? not a decimal number: z (rules and places are decimal)
        group 1 10 0 g 100 -> ? not a hexadecimal number: g (codes are hexadecimal)
        group 1 10 9 100 g -> ? number too large: 100 (a code is at most FF)
        groups 3 100 g -> ? not a rule: 3 (rule 1 is the only one)
        fetch 2 10 -> ? not a rule: 2 (rule 1 is the only one)
        undo x y -> ? not a hexadecimal number: x (codes are hexadecimal)
        undo 100 : g -> ? number too large: 100 (a code is at most FF)
        ",
    );
}

#[test]
fn numbers_of_groups_by_their_value() {
    session(
        "
        group 0000000000000000000000000000000001 00000000000000000000010 0000000000000000000000000 0000010 90 -> 0 group 0 2
        group\t1\t3c 0  3C\tbC \r -> 0 group 0 2
        group 1 10 999999 -> 22
        groups 1 c C 8c -> 0 group 0 2 end
        fetch 1 a 0 a 8a -> 0 0A 8A
        ",
    );
}
