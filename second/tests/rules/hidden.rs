//! The direct key hides its row (document 02, E3): while an SF contact in the size is closed in a
//! look, the other keys of its row have no sample in that look.

use crate::{after, digits, packed, repeated, session};
use second::calls::Call;

/// A look of one row, all other contacts open.
fn look(row: usize, sample: u16) -> String {
    let mut samples = ["0"; 8].map(String::from);
    samples[row] = format!("{sample:X}");
    format!("look {}", samples.join(" "))
}

#[test]
fn the_jog_key_gives_no_false_presses() {
    // The direct key pulls its row to ground: all thirteen contacts of the row seem closed.
    session(
        "
        write 02 03 8C -> 0
        look 0 0 0 1FFF 0 0 0 0 -> 0
        look 0 0 0 1FFF 0 0 0 0 -> 0
        read 10 1 -> 0 7F
        look 0 0 0 1FFF 0 0 0 0 -> 0
        wait 20 -> 0
        read 10 2 -> 0 3C 7F
        read 0B 4 -> 0 3C 7F 7F 7F
        look 0 0 0 0 0 0 0 0 -> 0
        wait 20 -> 0
        read 10 2 -> 0 BC 7F
        ",
    );
}

#[test]
fn the_look_that_closes_the_direct_key_hides() {
    // Under bounce 1 the key would be pressed in that look, and under bounce 2 in the second.
    session(
        "
        write 02 01 -> 0
        look 1001 0 0 0 0 0 0 0 -> 0
        read 10 2 -> 0 0C 7F
        held 0 0 -> 0 no
        ",
    );
    session(
        "
        write 02 02 -> 0
        look 0001 0 0 0 0 0 0 0 -> 0
        look 1001 0 0 0 0 0 0 0 -> 0
        held 0 12 -> 0 no
        read 10 1 -> 0 7F
        look 1001 0 0 0 0 0 0 0 -> 0
        read 10 2 -> 0 0C 7F
        ",
    );
}

#[test]
fn the_contact_hides_and_not_the_key_as_held() {
    // The contact opens: the row is seen at once, though the direct key is held for one look more.
    session(
        "
        write 02 02 -> 0
        look 1000 0 0 0 0 0 0 0 -> 0
        look 1000 0 0 0 0 0 0 0 -> 0
        read 10 2 -> 0 0C 7F
        look 0001 0 0 0 0 0 0 0 -> 0
        held 0 12 -> 0 yes
        look 0001 0 0 0 0 0 0 0 -> 0
        read 10 3 -> 0 00 8C 7F
        ",
    );
    // A sample from before the row was hidden, and the one with which it is seen again.
    session(
        "
        write 02 02 -> 0
        look 0001 0 0 0 0 0 0 0 -> 0
        look 1001 0 0 0 0 0 0 0 -> 0
        look 1001 0 0 0 0 0 0 0 -> 0
        read 10 2 -> 0 0C 7F
        look 0001 0 0 0 0 0 0 0 -> 0
        held 0 12 -> 0 yes
        read 10 2 -> 0 00 7F
        ",
    );
    // A contact that is closed too briefly for a press hides all the same.
    session(
        "
        write 02 02 -> 0
        look 0001 0 0 0 0 0 0 0 -> 0
        look 1000 0 0 0 0 0 0 0 -> 0
        held 0 12 -> 0 no
        look 0001 0 0 0 0 0 0 0 -> 0
        read 10 2 -> 0 00 7F
        ",
    );
}

#[test]
fn the_direct_key_itself_is_always_seen() {
    session(
        "
        write 02 03 -> 0
        look 1003 0 0 0 0 0 0 0 -> 0
        look 1000 0 0 0 0 0 0 0 -> 0
        look 0003 0 0 0 0 0 0 0 -> 0
        look 1000 0 0 0 0 0 0 0 -> 0
        look 1003 0 0 0 0 0 0 0 -> 0
        read 10 1 -> 0 7F
        look 1000 0 0 0 0 0 0 0 -> 0
        read 10 2 -> 0 0C 7F
        look 0 0 0 0 0 0 0 0 -> 0
        look 0 0 0 0 0 0 0 0 -> 0
        look 0 0 0 0 0 0 0 0 -> 0
        read 10 2 -> 0 8C 7F
        ",
    );
    // All eight at once, with every other contact closed too.
    session(
        "
        write 02 01 8C -> 0
        look 1FFF 1FFF 1FFF 1FFF 1FFF 1FFF 1FFF 1FFF -> 0
        read 10 9 -> 0 0C 1C 2C 3C 4C 5C 6C 7C 7F
        look 0FFF 1FFF 1FFF 1FFF 1FFF 1FFF 1FFF 0001 -> 0
        read 10 16 -> 0 00 01 02 03 04 05 06 07 08 09 0A 0B 8C 70 FC 7F
        ",
    );
}

#[test]
fn every_matrix_key_of_the_row_is_hidden_and_no_other() {
    for hidden in 0..8 {
        for row in 0..8 {
            for column in 0..12 {
                let mut samples = [0; 8];
                samples[row] = 1 << column;
                samples[hidden] |= 0x1000;
                let look = samples.map(|sample| format!("{sample:X}")).join(" ");
                let (sf, key) = (16 * hidden + 12, 16 * row + column);
                let mut codes = vec![sf];
                codes.extend(Some(key).filter(|_| row != hidden));
                codes.sort_unstable();
                let codes: Vec<String> = codes.iter().map(|code| format!("{code:02X}")).collect();
                session(&format!(
                    "
                    write 02 01 8C -> 0
                    look {look} -> 0
                    read 10 {} -> 0 {} 7F
                    ",
                    codes.len() + 1,
                    codes.join(" ")
                ));
            }
        }
    }
}

#[test]
fn rows_out_of_the_size_hide_nothing() {
    session(
        "
        write 02 01 -> 0
        look 0001 0002 1000 1000 1000 1000 1000 1000 -> 0
        read 10 3 -> 0 00 11 7F
        look 0002 0003 1FFF 1FFF 1FFF 1FFF 1FFF 1FFF -> 0
        read 10 4 -> 0 80 01 10 7F
        held 2 12 -> 0 no
        ",
    );
    // With one row less in the size, the row's direct key hides nothing any more, and is no key.
    session(
        "
        write 02 01 33 -> 0
        look 0001 0001 1001 0 0 0 0 0 -> 0
        read 10 4 -> 0 00 10 2C 7F
        write 03 23 -> 0
        look 0001 0001 1001 0 0 0 0 0 -> 0
        read 10 3 -> 0 00 10 7F
        ",
    );
}

#[test]
fn the_columns_of_the_size_hide_as_well() {
    // The direct key is in every size; keys out of the size count as open, hidden or not.
    session(
        "
        write 02 01 22 -> 0
        look 1FFF 0FFF 0 0 0 0 0 0 -> 0
        read 10 4 -> 0 0C 10 11 7F
        look 0FFC 1FFF 0 0 0 0 0 0 -> 0
        read 10 3 -> 0 8C 1C 7F
        held 0 2 -> 0 no
        held 1 0 -> 0 yes
        ",
    );
}

#[test]
fn high_bits_are_judged_in_hidden_rows_too() {
    // The looks that are declined leave no sample: neither of the direct key nor of its row.
    session(
        "
        write 02 02 -> 0
        look 0001 0 0 0 0 0 0 0 -> 0
        look 3000 0 0 0 0 0 0 0 -> 2
        look 1000 0 0 0 0 0 0 9000 -> 2
        look 5001 0 0 0 0 0 0 0 -> 2
        look 1000 0 0 0 0 0 0 -> 1
        read 10 1 -> 0 7F
        look 1000 0 0 0 0 0 0 0 -> 0
        held 0 12 -> 0 no
        look 0001 0 0 0 0 0 0 0 -> 0
        read 10 2 -> 0 00 7F
        ",
    );
}

#[test]
fn a_hidden_key_stays_held() {
    // Its contact opens while the row is hidden; the release counts from the first look with a
    // sample on.
    session(
        "
        write 02 02 -> 0
        press 1 1 -> 0
        read 10 2 -> 0 11 7F
        look 0 1000 0 0 0 0 0 0 -> 0
        wait 9 -> 0
        held 1 1 -> 0 yes
        read 0B 4 -> 0 91 1C 7F 7F
        read 10 2 -> 0 1C 7F
        look 0 0 0 0 0 0 0 0 -> 0
        held 1 1 -> 0 yes
        look 0 0 0 0 0 0 0 0 -> 0
        read 10 3 -> 0 91 9C 7F
        ",
    );
    // It is closed again before the row is seen: nothing happens.
    session(
        "
        write 02 01 -> 0
        look 0 2 0 0 0 0 0 0 -> 0
        look 0 1000 0 0 0 0 0 0 -> 0
        look 0 2 0 0 0 0 0 0 -> 0
        read 10 4 -> 0 11 1C 9C 7F
        held 1 1 -> 0 yes
        ",
    );
}

#[test]
fn a_hidden_look_is_no_open_sample() {
    // Two closed samples with hidden looks between them, whatever the contact was in those.
    for hidden in ["1000", "1002"] {
        session(&format!(
            "
            write 02 02 -> 0
            look 0 2 0 0 0 0 0 0 -> 0
            look 0 {hidden} 0 0 0 0 0 0 -> 0
            read 10 1 -> 0 7F
            look 0 2 0 0 0 0 0 0 -> 0
            read 10 2 -> 0 11 7F
            "
        ));
    }
    // The same for a release.
    for hidden in ["1000", "1002"] {
        session(&format!(
            "
            write 02 02 -> 0
            press 1 1 -> 0
            look 0 0 0 0 0 0 0 0 -> 0
            look 0 {hidden} 0 0 0 0 0 0 -> 0
            read 10 2 -> 0 11 7F
            look 0 0 0 0 0 0 0 0 -> 0
            read 10 2 -> 0 91 7F
            "
        ));
    }
}

#[test]
fn a_hidden_look_is_no_closed_sample() {
    for hidden in ["1000", "1002"] {
        session(&format!(
            "
            write 02 03 -> 0
            look 0 2 0 0 0 0 0 0 -> 0
            look 0 {hidden} 0 0 0 0 0 0 -> 0
            look 0 {hidden} 0 0 0 0 0 0 -> 0
            look 0 2 0 0 0 0 0 0 -> 0
            read 10 1 -> 0 7F
            look 0 2 0 0 0 0 0 0 -> 0
            read 10 2 -> 0 11 7F
            "
        ));
    }
}

#[test]
fn a_lower_bounce_acts_when_the_key_is_seen() {
    // Three closed samples are enough for bounce 2, but not while the row is hidden.
    session(
        "
        write 02 05 -> 0
        look 0 2 0 0 0 0 0 0 -> 0
        look 0 2 0 0 0 0 0 0 -> 0
        look 0 2 0 0 0 0 0 0 -> 0
        write 02 02 -> 0
        look 0 1002 0 0 0 0 0 0 -> 0
        read 10 1 -> 0 7F
        look 0 1002 0 0 0 0 0 0 -> 0
        look 0 1002 0 0 0 0 0 0 -> 0
        read 10 2 -> 0 1C 7F
        held 1 1 -> 0 no
        look 0 2 0 0 0 0 0 0 -> 0
        read 10 2 -> 0 11 7F
        ",
    );
    // The contact is open when it is seen again: two closed samples are needed anew.
    session(
        "
        write 02 05 -> 0
        look 0 2 0 0 0 0 0 0 -> 0
        look 0 2 0 0 0 0 0 0 -> 0
        look 0 2 0 0 0 0 0 0 -> 0
        look 0 1002 0 0 0 0 0 0 -> 0
        write 02 02 -> 0
        look 0 1002 0 0 0 0 0 0 -> 0
        look 0 0 0 0 0 0 0 0 -> 0
        look 0 2 0 0 0 0 0 0 -> 0
        read 10 2 -> 0 1C 9C
        read 10 1 -> 0 7F
        look 0 2 0 0 0 0 0 0 -> 0
        read 10 2 -> 0 11 7F
        ",
    );
}

#[test]
fn a_higher_bounce_while_hidden() {
    // One sample before, two behind: bounce 3 in force when the key is seen.
    session(
        "
        write 02 02 -> 0
        look 0 2 0 0 0 0 0 0 -> 0
        look 0 1002 0 0 0 0 0 0 -> 0
        write 02 03 -> 0
        look 0 2 0 0 0 0 0 0 -> 0
        read 10 1 -> 0 7F
        look 0 2 0 0 0 0 0 0 -> 0
        read 10 2 -> 0 11 7F
        ",
    );
}

#[test]
fn the_last_samples_are_the_last_that_exist() {
    // Seen closed, hidden, closed, hidden, hidden, closed: the third sample presses.
    session(
        "
        write 02 03 -> 0
        look 1 0 0 0 0 0 0 0 -> 0
        look 1000 0 0 0 0 0 0 0 -> 0
        look 1 0 0 0 0 0 0 0 -> 0
        look 1000 0 0 0 0 0 0 0 -> 0
        look 1001 0 0 0 0 0 0 0 -> 0
        read 10 1 -> 0 7F
        look 1 0 0 0 0 0 0 0 -> 0
        read 10 2 -> 0 00 7F
        ",
    );
    // A sample that exists and is open begins anew.
    session(
        "
        write 02 03 -> 0
        look 1 0 0 0 0 0 0 0 -> 0
        look 1001 0 0 0 0 0 0 0 -> 0
        look 0 0 0 0 0 0 0 0 -> 0
        look 1001 0 0 0 0 0 0 0 -> 0
        look 1 0 0 0 0 0 0 0 -> 0
        look 1 0 0 0 0 0 0 0 -> 0
        read 10 1 -> 0 7F
        look 1 0 0 0 0 0 0 0 -> 0
        read 10 2 -> 0 00 7F
        ",
    );
}

#[test]
fn a_restart_empties_the_samples_of_hidden_keys() {
    for restart in ["write 03 22", "reset"] {
        session(&format!(
            "
            write 02 03 -> 0
            look 1 0 0 0 0 0 0 0 -> 0
            look 1 0 0 0 0 0 0 0 -> 0
            look 1001 0 0 0 0 0 0 0 -> 0
            {restart} -> 0
            look 1001 0 0 0 0 0 0 0 -> 0
            look 1 0 0 0 0 0 0 0 -> 0
            look 1 0 0 0 0 0 0 0 -> 0
            read 10 1 -> 0 7F
            look 1 0 0 0 0 0 0 0 -> 0
            read 10 2 -> 0 00 7F
            "
        ));
    }
    // A key that is held and hidden is open after a restart, and is not seen closed again.
    session(
        "
        write 02 01 -> 0
        look 1 0 0 0 0 0 0 0 -> 0
        look 1001 0 0 0 0 0 0 0 -> 0
        write 03 22 -> 0
        held 0 0 -> 0 no
        look 1001 0 0 0 0 0 0 0 -> 0
        read 10 2 -> 0 0C 7F
        held 0 0 -> 0 no
        look 1 0 0 0 0 0 0 0 -> 0
        read 10 3 -> 0 00 8C 7F
        ",
    );
}

#[test]
fn a_key_with_no_sample_since_the_restart() {
    // The row is hidden from the restart on: no samples, and no change until there are D.
    session(
        "
        write 02 02 -> 0
        look 1003 0 0 0 0 0 0 0 -> 0
        wait 300 -> 0
        read 10 2 -> 27
        read 10 2 -> 0 0C 7F
        look 3 0 0 0 0 0 0 0 -> 0
        read 10 1 -> 0 7F
        look 3 0 0 0 0 0 0 0 -> 0
        read 10 4 -> 0 00 01 8C 7F
        ",
    );
}

#[test]
fn a_look_that_hides_every_change_sets_no_flag() {
    // The direct key is held already. The fourth picture register completes the four behind it.
    session(
        "
        write 02 01 -> 0
        look 1000 0 0 0 0 0 0 0 -> 0
        read 10 1 -> 0 0C
        read 0B 3 -> 0 0C 7F 7F
        look 1003 0 0 0 0 0 0 0 -> 0
        read 06 1 -> 0 01
        read 0E 1 -> 0 7F
        read 06 1 -> 0 00
        look 3 0 0 0 0 0 0 0 -> 0
        read 06 1 -> 0 05
        read 10 4 -> 0 00 01 8C 7F
        ",
    );
}

#[test]
fn hidden_keys_put_nothing_in_a_full_queue() {
    session(
        "
        write 02 01 8C -> 0
        look 0FFF 0007 0 0 0 0 0 0 -> 0
        read 06 1 -> 0 05
        look 0FFF 0007 1FFF 0 0 0 0 0 -> 0
        read 06 1 -> 0 0F
        held 2 0 -> 0 no
        held 2 12 -> 0 yes
        read 10 16 -> 0 00 01 02 03 04 05 06 07 08 09 0A 0B 10 11 12 7F
        look 0FFF 0007 0001 0 0 0 0 0 -> 0
        read 10 3 -> 0 20 AC 7F
        ",
    );
}

#[test]
fn rows_are_hidden_in_blocks() {
    // One closed sample, two hidden looks, and one more: the press is in the fourth look.
    session(
        "
        write 02 02 -> 0
        looks 0 2 0 0 0 0 0 0 0 1002 0 0 0 0 0 0 0 1000 0 0 0 0 0 0 -> 0 3
        read 10 2 -> 0 1C 7F
        looks 0 2 0 0 0 0 0 0 -> 0 1
        read 10 2 -> 0 11 7F
        ",
    );
    session(
        "
        write 02 02 -> 0
        looks 0 2 0 0 0 0 0 0 0 1000 0 0 0 0 0 0 0 2 0 0 0 0 0 0 -> 0 3
        read 10 2 -> 0 11 7F
        looks 0 1000 0 0 0 0 0 0 0 1000 0 0 0 0 0 0 0 0 0 0 0 0 0 0 -> 0 3
        read 10 2 -> 0 1C 7F
        held 1 1 -> 0 yes
        looks 0 0 0 0 0 0 0 0 -> 0 1
        read 10 3 -> 0 91 9C 7F
        ",
    );
    // A block that stops in a row that is hidden.
    session(
        "
        write 02 01 -> 0
        looks 1001 0 0 0 0 0 0 0 3001 0 0 0 0 0 0 0 1 0 0 0 0 0 0 0 -> 2 1
        read 10 2 -> 0 0C 7F
        wait 1 -> 0
        read 10 1 -> 0 7F
        ",
    );
}

#[test]
fn rows_are_hidden_under_fingers() {
    // The key goes down under the direct key. When that goes up, both are believed in one look.
    session(
        "
        write 02 04 -> 0
        press 1 SF -> 0
        press 1 0 -> 0
        read 10 2 -> 0 1C 7F
        held 1 0 -> 0 no
        release 1 SF -> 0
        read 10 3 -> 0 10 9C 7F
        press 1 SF -> 0
        release 1 0 -> 0
        held 1 0 -> 0 yes
        wait 9 -> 0
        read 10 2 -> 0 1C 7F
        release 1 SF -> 0
        read 10 3 -> 0 90 9C 7F
        ",
    );
}

#[test]
fn rows_are_hidden_in_lists() {
    let (closed, hidden) = (vec![0, 2, 0, 0, 0, 0, 0, 0], vec![0, 0x1002, 0, 0, 0, 0, 0, 0]);
    let (closed, hidden) = (Call::Look(closed), Call::Look(hidden));
    let bounce = Call::Write(0x02, vec![2]);
    let list = packed(&[bounce, closed.clone(), hidden.clone(), hidden, closed]);
    session(&format!(
        "
        play {} -> 0
        read 10 3 -> 0 1C 11 7F
        held 1 12 -> 0 yes
        ",
        digits(&list)
    ));
}

#[test]
fn the_longest_bounce_with_hidden_looks() {
    // 254 closed samples, hundreds of hidden looks with the contact open, and the last sample.
    let hidden = repeated("looks", "0 1000 0 0 0 0 0 0", 300);
    session(&format!(
        "
        write 02 FF -> 0
        look 0 2 0 0 0 0 0 0 -> 0
        wait 253 -> 0
        read 10 1 -> 0 7F
        look 0 1000 0 0 0 0 0 0 -> 0
        wait 253 -> 0
        read 10 1 -> 0 7F
        wait 1 -> 0
        read 10 2 -> 0 1C 7F
        {hidden} -> 0 300
        held 1 1 -> 0 no
        look 0 2 0 0 0 0 0 0 -> 0
        read 10 2 -> 0 11 7F
        "
    ));
    // 127 samples before and 127 behind are one too few.
    session(
        "
        write 02 FF -> 0
        look 0 2 0 0 0 0 0 0 -> 0
        wait 126 -> 0
        look 0 1002 0 0 0 0 0 0 -> 0
        wait 200 -> 0
        look 0 2 0 0 0 0 0 0 -> 0
        wait 126 -> 0
        read 10 1 -> 0 7F
        wait 1 -> 0
        read 10 2 -> 0 11 7F
        ",
    );
}

#[test]
fn what_a_hidden_contact_does_is_never_seen() {
    // Panels whose contacts differ only where they are hidden.
    let answers = |hidden| {
        let looks = [look(1, 2), look(1, hidden), look(1, hidden), look(1, 2)];
        let end = ["read 06 2", "read 0B 4", "read 10 16", "irq"].map(String::from);
        let mut console = after(&["write 02 02".to_string()]);
        let lines = looks.into_iter().chain(end);
        lines.map(|line| console.answer(line.as_bytes())).collect::<Vec<_>>()
    };
    for hidden in 0x1000..0x2000 {
        assert_eq!(answers(hidden), answers(0x1000), "{hidden:04X}");
    }
}
