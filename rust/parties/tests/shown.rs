//! The shown pair of S1 and of a carried handover, and what is found when ledger, string or recording are tampered with.

mod windows;

use parties::{check_shown_pair, file_of, steps_of, ticks_of, Card, Step};

/// Document 01, "Sample recordings": S1, of the byte 0x41.
const S1: &[u8] = include_bytes!("../../../samples/s1.rec");
/// The byte 0x80, its handover carried.
const CARRIED: &[u8] = include_bytes!("../../../samples/carried-101.rec");

fn s1() -> Vec<Step> {
    steps_of(S1)
}

/// The carried handover with the last hold of that duration.
fn carried(hold: u16) -> Vec<Step> {
    let mut steps = steps_of(CARRIED);
    steps[21].duration = hold;
    steps
}

fn checked(steps: &[Step], string: &[u8], ledger: &[u32]) -> Result<(), String> {
    check_shown_pair(&file_of(steps), string, ledger)
}

#[test]
fn recordings_are_made_as_the_samples_are() {
    assert_eq!(file_of(&s1()), S1);
    let transfer = Card::WRITTEN.transfer(&[0x41]);
    assert_eq!(transfer.lay_out().0.steps(), s1());
}

#[test]
fn s1_shows_a_pair() {
    assert_eq!(checked(&s1(), &[0x41], &[1630, 1660]), Ok(()));
}

#[test]
fn the_carried_handover_shows_a_pair() {
    assert_eq!(checked(&carried(101), &[0x80], &[1631, 1631]), Ok(()));
    // Sooner than 100 ticks after a take at offset 1.
    let error = checked(&carried(100), &[0x80], &[1631, 1631]).unwrap_err();
    assert!(error.contains("byte 1, tick 1730"), "{error}");
    assert!(
        error.contains("100 or more after the latest take"),
        "{error}"
    );
}

#[test]
fn a_ledger_off_by_a_tick_is_found() {
    for (steps, string, ledger) in [
        (s1(), [0x41], [1630, 1660]),
        (carried(101), [0x80], [1631, 1631]),
    ] {
        for place in 0..2 {
            for off in [1, u32::MAX] {
                let mut wrong: [u32; 2] = ledger;
                wrong[place] = wrong[place].wrapping_add(off);
                assert!(checked(&steps, &string, &wrong).is_err(), "{wrong:?}");
            }
        }
        assert!(checked(&steps, &string, &[0, 0]).is_err());
        assert!(checked(&steps, &string, &[u32::MAX, u32::MAX]).is_err());
        assert!(checked(&steps, &string, &ledger[..1]).is_err());
        assert!(checked(&steps, &string, &[]).is_err());
        assert!(checked(&steps, &string, &[ledger[0], ledger[1], 0]).is_err());
    }
}

#[test]
fn a_later_pair_is_a_pair_too_where_the_rules_allow_it() {
    // The sender keeps pulling to offset 2 and the receiver takes there; CLK's release is then 100 after it.
    assert_eq!(checked(&carried(102), &[0x80], &[1632, 1632]), Ok(()));
    assert!(checked(&carried(101), &[0x80], &[1632, 1632]).is_err());
}

#[test]
fn another_string_is_found() {
    for value in 0..=255u8 {
        let said = checked(&s1(), &[value], &[1630, 1660]);
        assert_eq!(said.is_ok(), value == 0x41, "{value}");
    }
    assert!(checked(&s1(), &[], &[]).is_err());
    assert!(checked(&s1(), &[0x41, 0x41], &[1630, 1660, 1630, 1660]).is_err());
}

/// Sets one step's duration; the ledger's ticks move with it.
fn with_duration(place: usize, duration: u16) -> Result<(), String> {
    let mut steps = s1();
    steps[place].duration = duration;
    let ledger = [ticks_of(&steps[..21]), ticks_of(&steps[..22])];
    checked(&steps, &[0x41], &ledger)
}

#[test]
fn each_duration_is_held_to_its_window() {
    // Which step of S1, the fewest and the most ticks that the rules let it have.
    let windows = [
        (0, 1, 65_535),
        (1, 1, 65_535),
        (2, 200, 290),
        (3, 60, 150),
        (4, 1, 60),
        (5, 1, 200),
        (6, 20, 200),
        (19, 1, 200),
        (20, 20, 200),
        (21, 1, 1000),
        (22, 100, 65_535),
        (23, 1, 65_535),
        (24, 1, 65_535),
    ];
    windows::are_held(&windows, with_duration);
}

#[test]
fn every_line_of_every_step_matters() {
    for place in 0..s1().len() {
        for bit in 0..4 {
            let mut steps = s1();
            steps[place].lines ^= 1 << bit;
            let said = checked(&steps, &[0x41], &[1630, 1660]);
            assert_eq!(said.is_ok(), bit == 3, "step {place}, bit {bit}: {said:?}");
        }
    }
}

#[test]
fn a_recording_of_bad_form_is_found() {
    for (place, value) in [
        (0, 2),
        (3, 0x80),
        (4, 17),
        (8, 0),
        (12, 0),
        (16, 0),
        (18, 0x16),
        (19, 2),
    ] {
        let mut wrong = S1.to_vec();
        wrong[place] = value;
        let error = check_shown_pair(&wrong, &[0x41], &[1630, 1660]).unwrap_err();
        assert!(error.contains("not of good form"), "{error}");
    }
    assert!(check_shown_pair(&S1[..112], &[0x41], &[1630, 1660]).is_err());
    assert!(check_shown_pair(&[], &[0x41], &[1630, 1660]).is_err());
}
