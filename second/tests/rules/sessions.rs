//! The sessions of document 01, and its list of plausible errors.

use crate::{repeated, session};

#[test]
fn p1_nothing_waits_after_reset() {
    session(
        "
        reset -> 0
        read 10 1 -> 0 7F
        read 0B 4 -> 0 7F 7F 7F 7F
        ",
    );
}

#[test]
fn p2_the_line_after_reset() {
    session(
        "
        reset -> 0
        irq -> 0 yes
        write 84 00 -> 0
        irq -> 0 yes
        write 84 01 -> 0
        irq -> 0 no
        ",
    );
}

#[test]
fn p3_two_looks_for_bounce_two() {
    session(
        "
        reset -> 0
        write 02 02 -> 0
        look 0000 0002 0000 0000 0000 0000 0000 0000 -> 0
        read 10 1 -> 0 7F
        look 0000 0002 0000 0000 0000 0000 0000 0000 -> 0
        read 10 1 -> 0 11
        ",
    );
}

#[test]
fn p4_a_contact_that_bounces() {
    session(
        "
        reset -> 0
        write 02 02 -> 0
        look 0000 0002 0000 0000 0000 0000 0000 0000 -> 0
        look 0000 0000 0000 0000 0000 0000 0000 0000 -> 0
        look 0000 0002 0000 0000 0000 0000 0000 0000 -> 0
        read 10 1 -> 0 7F
        ",
    );
}

#[test]
fn p5_bounce_zero_counts_as_one() {
    session(
        "
        reset -> 0
        write 02 00 -> 0
        look 0000 0002 0000 0000 0000 0000 0000 0000 -> 0
        read 10 1 -> 0 11
        ",
    );
}

#[test]
fn p6_samples_under_an_older_bounce_count() {
    session(
        "
        reset -> 0
        write 02 05 -> 0
        look 0000 0002 0000 0000 0000 0000 0000 0000 -> 0
        look 0000 0002 0000 0000 0000 0000 0000 0000 -> 0
        look 0000 0002 0000 0000 0000 0000 0000 0000 -> 0
        write 02 02 -> 0
        look 0000 0002 0000 0000 0000 0000 0000 0000 -> 0
        read 10 1 -> 0 11
        ",
    );
}

#[test]
fn p7_the_sf_key_of_row_seven() {
    session(
        "
        reset -> 0
        write 03 8C -> 0
        write 02 01 -> 0
        look 0000 0000 0000 0000 0000 0000 0000 1000 -> 0
        look 0000 0000 0000 0000 0000 0000 0000 0000 -> 0
        read 10 3 -> 0 7C FC 7F
        ",
    );
}

#[test]
fn p8_two_keys_in_one_look() {
    session(
        "
        reset -> 0
        write 03 8C -> 0
        write 02 01 -> 0
        look 0800 0000 0000 0020 0000 0000 0000 0000 -> 0
        read 10 3 -> 0 0B 35 7F
        read 0B 4 -> 0 8B 35 7F 7F
        ",
    );
}

#[test]
fn p9_five_keys_in_the_picture() {
    session(
        "
        reset -> 0
        write 03 8C -> 0
        write 02 01 -> 0
        look 001F 0000 0000 0000 0000 0000 0000 0000 -> 0
        read 0B 4 -> 0 80 81 82 83
        ",
    );
}

#[test]
fn p10_sixteen_keys_in_one_look() {
    session(
        "
        reset -> 0
        write 03 8C -> 0
        write 02 01 -> 0
        look 0FFF 000F 0000 0000 0000 0000 0000 0000 -> 0
        read 06 1 -> 0 0D
        read 07 1 -> 0 0C
        read 10 16 -> 0 00 01 02 03 04 05 06 07 08 09 0A 0B 10 11 12 7F
        ",
    );
}

#[test]
fn p11_sizes() {
    session(
        "
        reset -> 0
        write 03 22 -> 0
        write 03 8C -> 0
        write 03 1C -> 6
        write 03 2D -> 6
        write 03 92 -> 6
        write 03 81 -> 6
        read 03 1 -> 0 8C
        ",
    );
}

#[test]
fn p12_a_held_key_and_a_restart() {
    session(
        "
        reset -> 0
        look 0000 0002 0000 0000 0000 0000 0000 0000 -> 0
        look 0000 0002 0000 0000 0000 0000 0000 0000 -> 0
        look 0000 0002 0000 0000 0000 0000 0000 0000 -> 0
        held 1 1 -> 0 yes
        write 03 22 -> 0
        read 10 1 -> 0 7F
        look 0000 0002 0000 0000 0000 0000 0000 0000 -> 0
        look 0000 0002 0000 0000 0000 0000 0000 0000 -> 0
        read 10 1 -> 0 7F
        look 0000 0002 0000 0000 0000 0000 0000 0000 -> 0
        read 10 1 -> 0 11
        ",
    );
}

#[test]
fn accesses_at_evtcode() {
    let thirty_two = repeated("0", "7F", 32);
    session(&format!(
        "
        reset -> 0
        read 10 0 -> 3
        read 10 1 -> 0 7F
        read 10 32 -> {thirty_two}
        read 10 33 -> 4
        write 10 -> 3
        write 10 00 -> 5
        {} -> 5
        {} -> 4
        ",
        repeated("write 10", "00", 32),
        repeated("write 10", "00", 33),
    ));
}

#[test]
fn runs_that_leave_the_registers() {
    session(
        "
        reset -> 0
        read 09 2 -> 5
        write 03 1C 00 -> 5
        ",
    );
}

#[test]
fn registers_after_reset() {
    session(
        "
        reset -> 0
        read 02 2 -> 0 03 22
        read 06 2 -> 0 00 00
        read 09 1 -> 0 03
        read 0B 4 -> 0 7F 7F 7F 7F
        read 10 1 -> 0 7F
        read 08 1 -> 5
        read 84 1 -> 5
        ",
    );
}

#[test]
fn reset_puts_everything_back() {
    session(
        "
        write 02 01 8C -> 0
        write 09 00 -> 0
        write 84 01 -> 0
        look 0FFF 0FFF 0000 0000 0000 0000 0000 0000 -> 0
        look 0000 0FFF 0000 0000 0000 0000 0000 0000 -> 0
        read 06 2 -> 0 0F 0F
        reset -> 0
        read 02 2 -> 0 03 22
        read 06 2 -> 0 00 00
        read 09 1 -> 0 03
        read 0B 4 -> 0 7F 7F 7F 7F
        read 10 2 -> 0 7F 7F
        held 1 1 -> 0 no
        irq -> 0 yes
        ",
    );
}

#[test]
fn one_look_after_a_restart_presses_nothing() {
    session(
        "
        look 0001 0000 0000 0000 0000 0000 0000 0000 -> 0
        look 0001 0000 0000 0000 0000 0000 0000 0000 -> 0
        write 03 22 -> 0
        look 0001 0000 0000 0000 0000 0000 0000 0000 -> 0
        read 10 1 -> 0 7F
        held 0 0 -> 0 no
        ",
    );
}

#[test]
fn a_dropped_change_is_not_reported_later() {
    session(
        "
        write 02 01 8C -> 0
        look 0FFF 000F 0000 0000 0000 0000 0000 0000 -> 0
        held 1 3 -> 0 yes
        read 10 15 -> 0 00 01 02 03 04 05 06 07 08 09 0A 0B 10 11 12
        look 0FFF 000F 0000 0000 0000 0000 0000 0000 -> 0
        read 10 1 -> 0 7F
        ",
    );
}

#[test]
fn kbdic_leaves_revtint_while_codes_wait() {
    session(
        "
        write 02 01 -> 0
        look 0001 0000 0000 0000 0000 0000 0000 0000 -> 0
        write 08 FF -> 0
        read 06 1 -> 0 04
        read 10 1 -> 0 00
        read 06 1 -> 0 00
        ",
    );
}

#[test]
fn a_declined_read_takes_no_codes_out() {
    session(
        "
        write 02 01 -> 0
        look 0003 0003 0000 0000 0000 0000 0000 0000 -> 0
        read 10 33 -> 4
        read 10 2 -> 0 00 01
        read 10 0 -> 3
        read 10 3 -> 0 10 11 7F
        ",
    );
}

#[test]
fn the_oldest_code_stays_in_a_full_queue() {
    session(
        "
        write 02 01 8C -> 0
        look 0FFF 0000 0000 0000 0000 0000 0000 0000 -> 0
        look 0000 0000 0000 0000 0000 0000 0000 0000 -> 0
        read 10 16 -> 0 00 01 02 03 04 05 06 07 08 09 0A 0B 80 81 82 7F
        ",
    );
}
