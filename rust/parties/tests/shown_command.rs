//! The shown pair of two command recordings written by hand, and what is found when recording, ledger or string are
//! tampered with.

mod windows;

use parties::{check_shown_command, check_shown_pair, file_of, ticks_of, Card, Random, Step};

const ATTENTION: u8 = 1;
const CLOCK: u8 = 2;
const DATA: u8 = 4;

/// The tick of the finish in [`command`].
const FINISH: usize = 1580;
/// The ledger of [`command`].
const LEDGER: [u32; 2] = [1350, 1380];

fn step(duration: u16, lines: u8) -> Step {
    Step::new(duration, lines)
}

/// The hold, ready to send and ready for data, and then a byte's bits, all under ATN.
fn byte(value: u8) -> Vec<Step> {
    let mut steps = vec![step(200, 7), step(50, 5), step(60, 1)];
    for bit in 0..8 {
        let data = (value >> bit & 1) * DATA;
        steps.push(step(70, ATTENTION | CLOCK | data));
        steps.push(step(60, ATTENTION | data));
    }
    steps
}

/// The byte 0x41 as a command: its handover, its hold, the finish, and then what nobody minds.
fn command() -> Vec<Step> {
    let mut steps = byte(0x41);
    steps.extend([step(30, 3), step(200, 7), step(1, 6)]);
    steps.extend([step(40, 4), step(30, 2), step(20, 8), step(10, 14)]);
    steps
}

/// The byte 0x80 as a command, its handover carried to the finish, which is at that offset.
fn carried(offset: u16) -> Vec<Step> {
    let mut steps = byte(0x80);
    steps.extend([step(offset, 7), step(1, 6)]);
    steps
}

fn checked(steps: &[Step], string: &[u8], ledger: &[u32]) -> Result<(), String> {
    check_shown_command(&file_of(steps), string, ledger)
}

/// The lines at each tick.
fn lines_of(steps: &[Step]) -> Vec<u8> {
    let lines = |step: &Step| vec![step.lines; usize::from(step.duration)];
    steps.iter().flat_map(lines).collect()
}

/// What is said of [`command`] once its lines at each tick are changed: every tick is a step of its own.
fn changed(change: impl Fn(&mut Vec<u8>)) -> Result<(), String> {
    let mut lines = lines_of(&command());
    change(&mut lines);
    let steps: Vec<Step> = lines.into_iter().map(|lines| step(1, lines)).collect();
    checked(&steps, &[0x41], &LEDGER)
}

fn is_found(said: Result<(), String>, words: &str) {
    let error = said.expect_err(words);
    assert!(error.contains(words), "{error}");
}

#[test]
fn the_command_shows_a_pair() {
    assert_eq!(checked(&command(), &[0x41], &LEDGER), Ok(()));
    assert_eq!(changed(|_| {}), Ok(()));
    assert_eq!(lines_of(&command())[FINISH - 1..=FINISH], [7, 6]);
    let laid_out = Card::WRITTEN.command(&[0x41]).lay_out();
    assert_eq!(laid_out.0.steps(), command()[..22]);
    assert_eq!(laid_out.1, LEDGER);
}

#[test]
fn the_carried_handover_shows_a_pair() {
    for offset in [101, 102, 500, 1001, 65_535] {
        let said = checked(&carried(offset), &[0x80], &[1351, 1351]);
        assert_eq!(said, Ok(()));
    }
    // Sooner than 100 ticks after a take at offset 1.
    is_found(
        checked(&carried(100), &[0x80], &[1351, 1351]),
        "byte 1, tick 1450: the finish comes 100 or more ticks after the latest take",
    );
    // No receiver takes at offset 0.
    assert!(checked(&carried(100), &[0x80], &[1350, 1350]).is_err());
    // A later take is one too where the rules allow it.
    assert_eq!(checked(&carried(200), &[0x80], &[1450, 1450]), Ok(()));
    assert!(checked(&carried(201), &[0x80], &[1451, 1451]).is_err());
}

#[test]
fn a_finish_too_soon_is_found() {
    let mut steps = command();
    steps[20].duration = 100;
    assert_eq!(checked(&steps, &[0x41], &LEDGER), Ok(()));
    steps[20].duration = 99;
    is_found(
        checked(&steps, &[0x41], &LEDGER),
        "byte 1, tick 1479: the finish comes 100 or more ticks after the latest take: it is 99 ticks after",
    );
}

#[test]
fn an_end_mark_is_found() {
    is_found(
        with_duration(2, 200),
        "a command's last byte: the sender pulls CLK 1 to 199 ticks after the letting go",
    );
    // With its acknowledgement.
    let mut steps = command();
    steps.splice(2..3, [step(220, 1), step(80, 5), step(40, 1)]);
    let ledger = LEDGER.map(|tick| tick + 280);
    is_found(
        checked(&steps, &[0x41], &ledger),
        "the receiver's DATA is pulled 3 times, not 2",
    );
}

#[test]
fn a_finish_tick_in_which_a_line_is_released_is_found() {
    let shown = |shown: u8| changed(|lines| lines[FINISH] = shown);
    assert_eq!(shown(CLOCK | DATA), Ok(()));
    is_found(shown(DATA), "the sender still holds CLK in the finish tick");
    is_found(
        shown(CLOCK),
        "the receiver still holds DATA in the finish tick",
    );
    assert!(shown(0).is_err());
}

#[test]
fn attention_released_for_a_tick_before_the_finish_is_found() {
    for tick in 0..FINISH - 1 {
        is_found(
            changed(|lines| lines[tick] &= !ATTENTION),
            "ATN is pulled until the finish and released from it on",
        );
    }
}

/// From each tick on: where both hold long enough, that tick is a finish too.
#[test]
fn attention_released_from_a_tick_on_makes_that_tick_the_finish() {
    for tick in 0..FINISH {
        let release = |lines: &mut Vec<u8>| {
            for shown in &mut lines[tick..] {
                *shown &= !ATTENTION;
            }
        };
        let said = changed(release);
        assert_eq!(said.is_ok(), tick >= FINISH - 100, "tick {tick}: {said:?}");
    }
}

#[test]
fn attention_pulled_again_after_the_finish_is_found() {
    for tick in FINISH + 1..lines_of(&command()).len() {
        is_found(
            changed(|lines| lines[tick] |= ATTENTION),
            "ATN is pulled until the finish and released from it on",
        );
    }
}

#[test]
fn a_recording_without_a_finish_is_found() {
    assert_eq!(changed(|lines| lines.truncate(FINISH + 1)), Ok(()));
    is_found(
        changed(|lines| lines.truncate(FINISH)),
        "byte 1, tick 1580: the finish is in the recording",
    );
    assert!(changed(|lines| lines.iter_mut().for_each(|shown| *shown |= ATTENTION)).is_err());
    for tick in 0..FINISH {
        assert!(changed(|lines| lines.truncate(tick)).is_err(), "{tick}");
    }
}

#[test]
fn after_the_finish_anything_but_attention_may_be_shown() {
    let mut random = Random::new(12);
    for _ in 0..300 {
        let after: Vec<u8> = (0..100).map(|_| 2 * random.below(8) as u8).collect();
        let said = changed(|lines| {
            lines.truncate(FINISH + 1);
            lines.extend(&after);
        });
        assert_eq!(said, Ok(()), "{after:?}");
    }
}

/// Sets one step's duration; the ledger's ticks move with it.
fn with_duration(place: usize, duration: u16) -> Result<(), String> {
    let mut steps = command();
    steps[place].duration = duration;
    let ledger = [ticks_of(&steps[..19]), ticks_of(&steps[..20])];
    checked(&steps, &[0x41], &ledger)
}

#[test]
fn each_duration_is_held_to_its_window() {
    // Which step of the command, the fewest and the most ticks that the rules let it have.
    let windows = [
        (0, 1, 65_535),
        (1, 1, 65_535),
        (2, 1, 199),
        (3, 1, 200),
        (4, 20, 200),
        (17, 1, 200),
        (18, 20, 200),
        (19, 1, 1000),
        (20, 100, 65_535),
        (21, 1, 65_535),
        (22, 1, 65_535),
    ];
    windows::are_held(&windows, with_duration);
}

#[test]
fn every_line_of_every_step_up_to_the_finish_matters() {
    for place in 0..command().len() {
        for bit in 0..4 {
            let mut steps = command();
            steps[place].lines ^= 1 << bit;
            let said = checked(&steps, &[0x41], &LEDGER);
            // SRQ changes nothing; after the finish ATN alone does.
            let right = bit == 3 || (place > 21 && bit > 0);
            assert_eq!(said.is_ok(), right, "step {place}, bit {bit}: {said:?}");
        }
    }
}

#[test]
fn a_ledger_off_by_a_tick_is_found() {
    for (steps, string, ledger) in [
        (command(), [0x41], LEDGER),
        (carried(101), [0x80], [1351, 1351]),
    ] {
        for place in 0..2 {
            for off in [1, u32::MAX] {
                let mut wrong = ledger;
                wrong[place] = wrong[place].wrapping_add(off);
                assert!(checked(&steps, &string, &wrong).is_err(), "{wrong:?}");
            }
        }
        assert!(checked(&steps, &string, &ledger[..1]).is_err());
        assert!(checked(&steps, &string, &[]).is_err());
        assert!(checked(&steps, &string, &[ledger[0], ledger[1], 0]).is_err());
    }
}

#[test]
fn another_string_is_found() {
    for value in 0..=255u8 {
        let said = checked(&command(), &[value], &LEDGER);
        assert_eq!(said.is_ok(), value == 0x41, "{value}");
    }
    assert!(checked(&command(), &[], &[]).is_err());
    assert!(checked(&command(), &[0x41, 0x41], &[1350, 1380, 1350, 1380]).is_err());
}

#[test]
fn one_kind_is_not_the_other() {
    let file = file_of(&command());
    is_found(
        check_shown_pair(&file, &[0x41], &LEDGER),
        "tick 0: ATN is released: it is not so",
    );
    let plain = Card::WRITTEN.transfer(&[0x41]).lay_out();
    let file = file_of(&plain.0.steps());
    assert_eq!(check_shown_pair(&file, &[0x41], &plain.1), Ok(()));
    assert!(check_shown_command(&file, &[0x41], &plain.1).is_err());
}

#[test]
fn a_recording_of_bad_form_is_found() {
    let mut wrong = file_of(&command());
    wrong[0] = 2;
    is_found(
        check_shown_command(&wrong, &[0x41], &LEDGER),
        "not of good form",
    );
}
