//! Request #103: "Demand 3 then reads: some pair exists and no step is marked." What is laid out and drawn is unmarked;
//! with any step marked there is still a pair that gives the recording, and the recording is found all the same.

use parties::draw::{self, BRISK, WIDE};
use parties::{check_given, check_pair, check_shown_command, check_shown_pair, check_unmarked};
use parties::{file_of, steps_of, ticks_of, Card, Ending, Lines, Pair, Random, Step, Stretch};
use parties::{Transfer, MARKED};

const STRING: [u8; 2] = [0x41, 0x80];

/// What is checked of a recording, a string and a ledger.
type Check = fn(&[u8], &[u8], &[u32]) -> Result<(), String>;

/// A command with ticks after its finish.
fn command() -> Transfer {
    let mut command = Card::WRITTEN.command(&STRING);
    command.ending = Ending::Command(vec![Stretch {
        ticks: 50,
        ..Stretch::default()
    }]);
    command
}

/// A plain transfer and a command, laid out, each with what is checked of it.
fn both() -> [(Pair, Vec<u32>, Check); 2] {
    let (plain, plain_ledger) = Card::WRITTEN.transfer(&STRING).lay_out();
    let (command, command_ledger) = command().lay_out();
    [
        (plain, plain_ledger, check_shown_pair),
        (command, command_ledger, check_shown_command),
    ]
}

/// Each step marked in turn, so also at tick 0, in the silence at the end and after the finish.
#[test]
fn any_marked_step_is_found() {
    for (pair, ledger, check) in both() {
        let unmarked = pair.steps();
        assert_eq!(check(&file_of(&unmarked), &STRING, &ledger), Ok(()));
        for place in 0..unmarked.len() {
            let mut steps = unmarked.clone();
            steps[place] = steps[place].marked();
            let tick = ticks_of(&steps[..place]);
            let words = format!("tick {tick}: no step is marked: it is not so");
            assert_eq!(check(&file_of(&steps), &STRING, &ledger), Err(words));
        }
    }
}

/// The mark alone is what is found: the pair is one for the string, and it gives the recording.
#[test]
fn a_marked_recording_still_has_a_pair() {
    for (pair, _, _) in both() {
        let mut steps = pair.steps();
        steps[9] = steps[9].marked();
        let lines = Lines::read(&file_of(&steps)).unwrap();
        assert_eq!(check_pair(&pair, &STRING), Ok(()));
        assert_eq!(check_given(&pair, &lines), Ok(()));
        assert!(check_unmarked(&lines).is_err());
    }
}

/// "The meaning is the list of ticks", but a step cut in two may have its second part marked.
#[test]
fn a_mark_inside_a_step_is_found() {
    for (pair, ledger, check) in both() {
        let mut steps = pair.steps();
        steps[4].duration -= 5;
        steps.insert(4, Step::new(5, steps[4].lines));
        assert_eq!(check(&file_of(&steps), &STRING, &ledger), Ok(()));
        steps[5].mark = MARKED;
        assert!(check(&file_of(&steps), &STRING, &ledger).is_err());
    }
}

#[test]
fn the_first_of_two_marks_is_named() {
    let steps = [
        Step::new(5, 6),
        Step::new(7, 6).marked(),
        Step::new(9, 6).marked(),
    ];
    let lines = Lines::read(&file_of(&steps)).unwrap();
    assert_eq!(lines.first_mark, Some(5));
}

#[test]
fn marks_are_written_and_read() {
    let steps = [
        Step::new(5, 6),
        Step::new(7, 4).marked(),
        Step::new(65_535, 15),
    ];
    let file = file_of(&steps);
    assert_eq!([file[19], file[23], file[27]], [0, 1, 0]);
    assert_eq!(steps_of(&file), steps);
}

/// "Refusal 7 now means other line bits or a last byte above 1."
#[test]
fn a_last_byte_above_1_is_of_bad_form() {
    for mark in 0..=u8::MAX {
        let step = Step {
            mark,
            ..Step::new(5, 6)
        };
        let read = Lines::read(&file_of(&[step]));
        assert_eq!(read.is_ok(), mark <= MARKED, "{mark}");
    }
}

#[test]
fn drawn_recordings_are_unmarked() {
    let mut random = Random::new(20);
    for round in 0..600 {
        let style = [BRISK, WIDE][round % 2];
        let transfers = [
            draw::transfer(&mut random, 2, style),
            draw::command(&mut random, 2, style),
        ];
        for transfer in transfers {
            let steps = transfer.lay_out().0.steps();
            assert!(steps.iter().all(|step| step.mark == 0));
            let lines = Lines::read(&file_of(&steps)).unwrap();
            assert_eq!(check_unmarked(&lines), Ok(()));
        }
    }
}
