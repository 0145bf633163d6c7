//! Points that document 01 decides in few words, each with a small session.

use crate::{repeated, session};
use second::console::Console;

#[test]
fn a_wrong_count_goes_before_high_bits() {
    session(
        "
        look -> 1
        look 0000 0000 0000 0000 0000 0000 0000 -> 1
        look 2000 0000 0000 0000 0000 0000 0000 -> 1
        look 0000 0000 0000 0000 0000 0000 0000 0000 2000 -> 1
        look 2000 0000 0000 0000 0000 0000 0000 0000 0000 -> 1
        ",
    );
}

#[test]
fn high_bits_are_judged_in_all_rows() {
    session(
        "
        look 2000 0000 0000 0000 0000 0000 0000 0000 -> 2
        look 0000 4000 0000 0000 0000 0000 0000 0000 -> 2
        look 0000 0000 8000 0000 0000 0000 0000 0000 -> 2
        look 0000 0000 0000 0000 0000 0000 0000 2000 -> 2
        look 1FFF 1FFF 1FFF 1FFF 1FFF 1FFF 1FFF FFFF -> 2
        look 1FFF 1FFF 1FFF 1FFF 1FFF 1FFF 1FFF 1FFF -> 0
        ",
    );
}

#[test]
fn samples_out_of_the_size_count_as_open() {
    session(
        "
        write 02 01 -> 0
        look 0FFC 0000 0000 0000 0000 0000 0000 0000 -> 0
        read 06 1 -> 0 00
        read 10 1 -> 0 7F
        look 1000 1000 1000 0000 0000 0000 0000 0000 -> 0
        read 10 3 -> 0 0C 1C 7F
        held 2 12 -> 0 no
        ",
    );
}

#[test]
fn no_change_falls_on_a_key_out_of_the_size() {
    session(
        "
        write 02 01 -> 0
        look 0FFF 0FFF 1FFF 1FFF 1FFF 1FFF 1FFF 1FFF -> 0
        read 10 5 -> 0 00 01 10 11 7F
        look 1FFF 1FFF 1FFF 1FFF 1FFF 1FFF 1FFF 1FFF -> 0
        read 10 3 -> 0 0C 1C 7F
        look 0000 0000 1FFF 1FFF 1FFF 1FFF 1FFF 1FFF -> 0
        read 10 7 -> 0 80 81 8C 90 91 9C 7F
        write 03 33 -> 0
        look 0FF8 0FF8 0FF8 1FFF 1FFF 1FFF 1FFF 1FFF -> 0
        read 10 1 -> 0 7F
        look 1FF8 1FF8 1FF8 1FFF 1FFF 1FFF 1FFF 1FFF -> 0
        read 10 4 -> 0 0C 1C 2C 7F
        ",
    );
}

#[test]
fn the_last_samples_decide_a_change() {
    session(
        "
        write 02 03 -> 0
        look 0001 0000 0000 0000 0000 0000 0000 0000 -> 0
        look 0001 0000 0000 0000 0000 0000 0000 0000 -> 0
        look 0000 0000 0000 0000 0000 0000 0000 0000 -> 0
        look 0001 0000 0000 0000 0000 0000 0000 0000 -> 0
        look 0001 0000 0000 0000 0000 0000 0000 0000 -> 0
        read 10 1 -> 0 7F
        look 0001 0000 0000 0000 0000 0000 0000 0000 -> 0
        read 10 1 -> 0 00
        look 0000 0000 0000 0000 0000 0000 0000 0000 -> 0
        look 0000 0000 0000 0000 0000 0000 0000 0000 -> 0
        read 10 1 -> 0 7F
        look 0000 0000 0000 0000 0000 0000 0000 0000 -> 0
        read 10 1 -> 0 80
        ",
    );
}

#[test]
fn a_run_above_d_changes_too() {
    session(
        "
        write 02 09 -> 0
        look 0001 0000 0000 0000 0000 0000 0000 0000 -> 0
        look 0001 0000 0000 0000 0000 0000 0000 0000 -> 0
        look 0001 0000 0000 0000 0000 0000 0000 0000 -> 0
        write 02 01 -> 0
        read 10 1 -> 0 7F
        look 0001 0000 0000 0000 0000 0000 0000 0000 -> 0
        read 10 2 -> 0 00 7F
        ",
    );
}

#[test]
fn the_longest_bounce() {
    let mut console = Console::new();
    let mut say = |line: &str| console.answer(line.as_bytes()).unwrap();
    assert_eq!(say("write 02 FF"), "0");
    for (samples, code) in [("0 1 0 0 0 0 0 0", "0 10"), ("0 0 0 0 0 0 0 0", "0 90")] {
        for _ in 0..254 {
            assert_eq!(say(&format!("look {samples}")), "0");
            assert_eq!(say("read 10 1"), "0 7F");
        }
        assert_eq!(say(&format!("look {samples}")), "0");
        assert_eq!(say("read 10 1"), code);
    }
}

#[test]
fn bounce_reads_back_as_written() {
    session(
        "
        write 02 00 -> 0
        read 02 1 -> 0 00
        write 02 01 -> 0
        read 02 1 -> 0 01
        write 02 FF -> 0
        read 02 1 -> 0 FF
        ",
    );
}

#[test]
fn a_lower_bounce_acts_at_the_next_look() {
    session(
        "
        write 02 05 -> 0
        look 0000 0002 0000 0000 0000 0000 0000 0000 -> 0
        look 0000 0002 0000 0000 0000 0000 0000 0000 -> 0
        look 0000 0002 0000 0000 0000 0000 0000 0000 -> 0
        write 02 02 -> 0
        held 1 1 -> 0 no
        read 10 1 -> 0 7F
        look 0000 0000 0000 0000 0000 0000 0000 0000 -> 0
        look 0000 0002 0000 0000 0000 0000 0000 0000 -> 0
        read 10 1 -> 0 7F
        look 0000 0002 0000 0000 0000 0000 0000 0000 -> 0
        read 10 1 -> 0 11
        ",
    );
}

#[test]
fn what_a_restart_clears_and_keeps() {
    session(
        "
        write 02 01 8C -> 0
        write 09 00 -> 0
        write 84 01 -> 0
        look 0FFF 000F 0000 0000 0000 0000 0000 0000 -> 0
        look 0FFF 0000 0000 0000 0000 0000 0000 0000 -> 0
        read 06 1 -> 0 0F
        write 03 8C -> 0
        read 06 1 -> 0 00
        read 10 1 -> 0 7F
        read 0B 4 -> 0 7F 7F 7F 7F
        held 0 0 -> 0 no
        read 02 2 -> 0 01 8C
        read 09 1 -> 0 00
        irq -> 0 no
        ",
    );
}

#[test]
fn a_restart_empties_the_samples() {
    session(
        "
        write 02 02 -> 0
        look 0001 0000 0000 0000 0000 0000 0000 0000 -> 0
        write 03 22 -> 0
        look 0001 0000 0000 0000 0000 0000 0000 0000 -> 0
        read 10 1 -> 0 7F
        look 0001 0000 0000 0000 0000 0000 0000 0000 -> 0
        read 10 1 -> 0 00
        ",
    );
}

#[test]
fn declined_looks_leave_no_samples() {
    session(
        "
        write 02 02 -> 0
        look 0001 0000 0000 0000 0000 0000 0000 0000 -> 0
        look 0001 2000 0000 0000 0000 0000 0000 0000 -> 2
        look 0001 0000 0000 0000 0000 0000 0000 -> 1
        read 10 1 -> 0 7F
        look 0000 0000 0000 0000 0000 0000 0000 8000 -> 2
        look 0000 0000 0000 0000 0000 0000 0000 0000 0000 -> 1
        look 0001 0000 0000 0000 0000 0000 0000 0000 -> 0
        read 10 1 -> 0 00
        ",
    );
}

#[test]
fn changes_go_by_row_then_column() {
    session(
        "
        write 02 01 8C -> 0
        look 0020 1000 0100 0000 0000 0000 0000 0000 -> 0
        read 10 4 -> 0 05 1C 28 7F
        look 0008 0801 0001 0000 0000 0000 0000 1000 -> 0
        read 10 9 -> 0 03 85 10 1B 9C 20 A8 7C 7F
        ",
    );
}

#[test]
fn dropped_changes_count() {
    session(
        "
        write 02 01 8C -> 0
        look 0FFF 0007 0000 0000 0000 0000 0000 0000 -> 0
        read 06 1 -> 0 05
        write 08 03 -> 0
        read 06 1 -> 0 04
        look 0FFF 0007 0001 0000 0000 0000 0000 0000 -> 0
        read 06 1 -> 0 0D
        held 2 0 -> 0 yes
        look 0FFF 0007 0003 0000 0000 0000 0000 0000 -> 0
        read 06 1 -> 0 0F
        read 10 16 -> 0 00 01 02 03 04 05 06 07 08 09 0A 0B 10 11 12 7F
        look 0FFF 0007 0002 0000 0000 0000 0000 0000 -> 0
        read 10 2 -> 0 A0 7F
        ",
    );
}

#[test]
fn a_look_with_all_changes_dropped_forgets_the_picture() {
    session(
        "
        write 02 01 8C -> 0
        look 0FFF 0007 0000 0000 0000 0000 0000 0000 -> 0
        read 0B 3 -> 0 80 81 82
        look 0FFF 0007 0001 0000 0000 0000 0000 0000 -> 0
        read 0E 1 -> 0 83
        read 06 1 -> 0 0F
        read 0B 3 -> 0 80 81 82
        read 06 1 -> 0 0E
        ",
    );
}

#[test]
fn room_freed_by_reading_is_used_again() {
    session(
        "
        write 02 01 8C -> 0
        look 0FFF 0007 0000 0000 0000 0000 0000 0000 -> 0
        read 10 2 -> 0 00 01
        look 0FFF 0007 0007 0000 0000 0000 0000 0000 -> 0
        read 10 16 -> 0 02 03 04 05 06 07 08 09 0A 0B 10 11 12 20 21 7F
        held 2 2 -> 0 yes
        ",
    );
}

#[test]
fn rklint_is_set_once_per_look() {
    session(
        "
        write 02 01 -> 0
        look 0003 0003 0000 0000 0000 0000 0000 0000 -> 0
        read 06 1 -> 0 05
        look 0003 0003 0000 0000 0000 0000 0000 0000 -> 0
        read 06 1 -> 0 05
        look 0001 0003 0000 0000 0000 0000 0000 0000 -> 0
        read 06 1 -> 0 07
        ",
    );
}

#[test]
fn what_kbdic_clears() {
    session(
        "
        write 02 01 8C -> 0
        look 0FFF 000F 0000 0000 0000 0000 0000 0000 -> 0
        look 0FFF 0000 0000 0000 0000 0000 0000 0000 -> 0
        read 06 1 -> 0 0F
        write 08 FC -> 0
        read 06 1 -> 0 0F
        write 08 02 -> 0
        read 06 1 -> 0 07
        write 08 01 -> 0
        read 06 1 -> 0 04
        read 10 16 -> 0 00 01 02 03 04 05 06 07 08 09 0A 0B 10 11 12 7F
        read 06 1 -> 0 00
        ",
    );
}

#[test]
fn the_fourth_picture_register_clears_rsint() {
    session(
        "
        write 02 01 -> 0
        look 0001 0000 0000 0000 0000 0000 0000 0000 -> 0
        look 0001 0002 0000 0000 0000 0000 0000 0000 -> 0
        read 0E 1 -> 0 7F
        read 0C 1 -> 0 11
        read 0B 1 -> 0 80
        read 0B 1 -> 0 80
        read 06 1 -> 0 07
        read 0D 1 -> 0 7F
        read 06 1 -> 0 06
        read 0B 4 -> 0 80 11 7F 7F
        held 1 1 -> 0 yes
        ",
    );
}

#[test]
fn four_reads_of_one_picture_register_complete_nothing() {
    session(
        "
        write 02 01 -> 0
        look 0001 0000 0000 0000 0000 0000 0000 0000 -> 0
        read 0C 1 -> 0 7F
        read 0C 1 -> 0 7F
        read 0C 1 -> 0 7F
        read 0C 1 -> 0 7F
        read 06 1 -> 0 05
        ",
    );
}

#[test]
fn picture_reads_before_a_change_do_not_count() {
    session(
        "
        write 02 01 -> 0
        look 0001 0000 0000 0000 0000 0000 0000 0000 -> 0
        read 0C 3 -> 0 7F 7F 7F
        read 06 1 -> 0 05
        read 0B 4 -> 0 00 7F 7F 7F
        read 06 1 -> 0 04
        look 0003 0000 0000 0000 0000 0000 0000 0000 -> 0
        read 0B 1 -> 0 80
        read 06 1 -> 0 05
        write 08 01 -> 0
        read 06 1 -> 0 04
        look 0002 0000 0000 0000 0000 0000 0000 0000 -> 0
        read 0C 3 -> 0 7F 7F 7F
        read 06 1 -> 0 05
        ",
    );
}

#[test]
fn only_four_things_forget_the_picture() {
    session(
        "
        write 02 01 -> 0
        look 0001 0000 0000 0000 0000 0000 0000 0000 -> 0
        read 0B 3 -> 0 00 7F 7F
        look 0001 0000 0000 0000 0000 0000 0000 0000 -> 0
        look 0001 0000 0000 0000 0000 0000 0000 2000 -> 2
        write 09 0F -> 0
        write 02 02 -> 0
        write 08 02 -> 0
        write 84 01 -> 0
        write 03 1C -> 6
        read 0B 5 -> 5
        read 10 1 -> 0 00
        read 06 1 -> 0 01
        read 0E 1 -> 0 7F
        read 06 1 -> 0 00
        ",
    );
}

#[test]
fn a_declined_picture_read_marks_nothing() {
    session(
        "
        write 02 01 -> 0
        look 0001 0000 0000 0000 0000 0000 0000 0000 -> 0
        read 0B 5 -> 5
        read 0C 4 -> 5
        read 06 1 -> 0 05
        ",
    );
}

#[test]
fn relint_stays_until_cleared() {
    session(
        "
        write 02 01 8C -> 0
        look 0FFF 000F 0000 0000 0000 0000 0000 0000 -> 0
        read 06 1 -> 0 0D
        read 10 16 -> 0 00 01 02 03 04 05 06 07 08 09 0A 0B 10 11 12 7F
        read 06 1 -> 0 09
        read 0B 4 -> 0 80 81 82 83
        read 06 1 -> 0 08
        write 08 02 -> 0
        read 06 1 -> 0 00
        ",
    );
}

#[test]
fn what_the_picture_adds() {
    session(
        "
        write 02 01 8C -> 0
        look 0001 0000 0000 0000 0000 0000 0000 0000 -> 0
        read 0B 4 -> 0 00 7F 7F 7F
        look 0001 1000 0000 0000 0000 0000 0000 0000 -> 0
        read 0B 4 -> 0 80 1C 7F 7F
        look 0001 1000 0800 0000 0000 0000 0000 0000 -> 0
        read 0B 4 -> 0 80 9C 2B 7F
        look 0001 1000 0800 0000 0000 0000 0000 0001 -> 0
        read 0B 4 -> 0 80 9C AB 70
        look 0001 1000 0800 0000 0000 0000 0000 1001 -> 0
        read 0B 4 -> 0 80 9C AB F0
        ",
    );
}

#[test]
fn the_mask_is_applied_when_asked() {
    session(
        "
        write 84 01 -> 0
        write 02 01 -> 0
        write 09 FF -> 0
        read 09 1 -> 0 0F
        look 0001 0000 0000 0000 0000 0000 0000 0000 -> 0
        read 06 2 -> 0 05 00
        irq -> 0 no
        write 09 00 -> 0
        irq -> 0 yes
        read 06 2 -> 0 05 05
        write 09 F5 -> 0
        read 09 1 -> 0 05
        irq -> 0 no
        write 09 04 -> 0
        read 06 2 -> 0 05 01
        irq -> 0 yes
        ",
    );
}

#[test]
fn the_line_follows_kbdmis() {
    session(
        "
        irq -> 0 yes
        write 84 01 -> 0
        irq -> 0 no
        write 02 01 -> 0
        write 09 07 -> 0
        look 0001 0000 0000 0000 0000 0000 0000 0000 -> 0
        read 06 2 -> 0 05 00
        irq -> 0 no
        write 09 03 -> 0
        irq -> 0 yes
        read 10 1 -> 0 00
        read 06 2 -> 0 01 00
        irq -> 0 no
        ",
    );
}

#[test]
fn who_sets_and_clears_porirq() {
    session(
        "
        write 84 FE -> 0
        irq -> 0 yes
        write 03 8C -> 0
        irq -> 0 yes
        write 84 FF -> 0
        irq -> 0 no
        write 03 22 -> 0
        irq -> 0 no
        reset -> 0
        irq -> 0 yes
        ",
    );
}

#[test]
fn which_writes_restart() {
    session(
        "
        write 02 01 -> 0
        look 0000 0002 0000 0000 0000 0000 0000 0000 -> 0
        write 03 22 00 -> 5
        write 03 1C -> 6
        write 02 07 1C -> 6
        write 02 07 22 00 -> 5
        held 1 1 -> 0 yes
        read 02 2 -> 0 01 22
        read 06 1 -> 0 05
        write 02 02 22 -> 0
        held 1 1 -> 0 no
        read 02 2 -> 0 02 22
        read 06 1 -> 0 00
        read 10 1 -> 0 7F
        look 0000 0002 0000 0000 0000 0000 0000 0000 -> 0
        read 10 1 -> 0 7F
        look 0000 0002 0000 0000 0000 0000 0000 0000 -> 0
        read 10 1 -> 0 11
        ",
    );
}

#[test]
fn lengths_are_judged_whole() {
    session(&format!(
        "
        {} -> 1
        {} -> 1
        read 10 256 -> 4
        read 10 257 -> 4
        read 10 288 -> 4
        read 10 1024 -> 4
        {} -> 4
        {} -> 4
        {} -> 4
        irq -> 0 yes
        ",
        repeated("look", "0", 264),
        repeated("look", "2000", 264),
        repeated("write 84", "01", 256),
        repeated("write 84", "01", 257),
        repeated("write 84", "01", 288),
    ));
}

#[test]
fn clear_and_mask_in_one_access() {
    session(
        "
        write 02 01 -> 0
        look 0001 0000 0000 0000 0000 0000 0000 0000 -> 0
        write 08 01 1B -> 0
        read 06 2 -> 0 04 04
        read 09 1 -> 0 0B
        write 08 01 0B 00 -> 5
        ",
    );
}

#[test]
fn which_keys_can_be_asked() {
    session(
        "
        write 02 01 -> 0
        look 0FFF 1FFF 1FFF 1FFF 1FFF 1FFF 1FFF 1FFF -> 0
        held 0 0 -> 0 yes
        held 1 12 -> 0 yes
        held 0 2 -> 0 no
        held 7 12 -> 0 no
        held 8 0 -> 7 no
        held 0 13 -> 7 no
        held 255 255 -> 7 no
        held 16 0 -> 7 no
        ",
    );
}
