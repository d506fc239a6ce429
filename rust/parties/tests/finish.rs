//! What a command's pair has of its own: no end mark, the finish, and freedom after it. Each rule broken once, and kept at
//! both ends of its window.

use parties::{check_given, check_pair, file_of};
use parties::{Card, Ending, Kind, Lines, Pair, Random, Stretch, Track, Transfer};

/// Three bytes: bit 8 one, then zero, then one.
const STRING: [u8; 3] = [0xC1, 0x42, 0x83];

/// A command of them. Both hold on for a while after the finish.
fn command() -> Transfer {
    let mut command = Card::WRITTEN.command(&STRING);
    command.ending = Ending::Command(vec![Stretch {
        ticks: 500,
        clock: true,
        receiver_data: true,
        ..Stretch::default()
    }]);
    command
}

/// The pair of it, and its finish.
fn laid_out() -> (Pair, u32) {
    let pair = command().lay_out().0;
    let Kind::Command { finish } = pair.kind else {
        panic!("a command");
    };
    (pair, finish)
}

/// What `check_pair` says once `change` has changed the command.
fn said(change: impl Fn(&mut Transfer)) -> Result<(), String> {
    let mut changed = command();
    change(&mut changed);
    check_pair(&changed.lay_out().0, &STRING)
}

fn is_found(said: Result<(), String>, words: &str) {
    let error = said.expect_err(words);
    assert!(error.contains(words), "{error}");
}

/// A track with this one pull.
fn pull(from: u32, until: u32) -> Track {
    let mut track = Track::new();
    track.add(from, until);
    track
}

#[test]
fn the_command_keeps_the_rules() {
    assert_eq!(said(|_| {}), Ok(()));
    let (pair, finish) = laid_out();
    assert_eq!(pair.total, finish + 501);
    assert_eq!(pair.kind.attention(), pull(0, finish));
    assert_eq!(Kind::Plain.attention(), Track::new());
}

#[test]
fn the_spans_of_a_plain_transfer_alone_change_nothing() {
    let mut command = command();
    command.acknowledgement = 80;
    command.after_acknowledgement = 40;
    command.last_ready_to_send = 50;
    command.silence = 100;
    assert_eq!(command.lay_out().0, laid_out().0);
}

#[test]
fn it_is_no_plain_pair() {
    let (mut pair, _) = laid_out();
    pair.kind = Kind::Plain;
    is_found(
        check_pair(&pair, &STRING),
        "the receiver's DATA is pulled 4 times, not 5",
    );
    let mut plain = Card::WRITTEN.transfer(&STRING).lay_out().0;
    for finish in 0..plain.total {
        plain.kind = Kind::Command { finish };
        assert!(check_pair(&plain, &STRING).is_err(), "finish {finish}");
    }
}

#[test]
fn the_last_byte_has_no_end_mark() {
    for value in [1, 2, 198, 199] {
        assert_eq!(said(|t| t.bytes[2].ready_for_data = value), Ok(()));
    }
    for value in [0, 200, 201, 220, 290] {
        is_found(
            said(|t| t.bytes[2].ready_for_data = value),
            "a command's last byte: the sender pulls CLK 1 to 199 ticks after the letting go",
        );
    }
}

#[test]
fn the_finish_comes_100_or_more_ticks_after_the_latest_take() {
    for value in [100, 101, 1001, 70_000] {
        assert_eq!(said(|t| t.last_hold = value), Ok(()));
    }
    for value in [0, 1, 98, 99] {
        is_found(
            said(|t| t.last_hold = value),
            "the finish comes 100 or more ticks after the latest take",
        );
    }
}

/// The finish put at every tick, the tracks unchanged.
#[test]
fn the_finish_may_be_where_both_hold_after_the_last_byte_alone() {
    let (mut pair, finish) = laid_out();
    let total = pair.total;
    for tick in 0..total + 2 {
        pair.kind = Kind::Command { finish: tick };
        let said = check_pair(&pair, &STRING);
        let right = finish - 100 <= tick && tick < total;
        assert_eq!(said.is_ok(), right, "tick {tick}: {said:?}");
    }
}

#[test]
fn the_finish_is_in_the_recording() {
    let (mut pair, finish) = laid_out();
    pair.total = finish + 1;
    assert_eq!(check_pair(&pair, &STRING), Ok(()));
    pair.total = finish;
    is_found(
        check_pair(&pair, &STRING),
        "the finish is in the recording: it is not so",
    );
}

#[test]
fn both_hold_their_lines_in_the_finish_tick() {
    let (base, finish) = laid_out();
    let tick = pull(finish, finish + 1);
    let mut pair = base.clone();
    pair.clock = base.clock.outside(&tick);
    is_found(
        check_pair(&pair, &STRING),
        "the sender still holds CLK in the finish tick",
    );
    let mut pair = base.clone();
    pair.receiver_data = base.receiver_data.outside(&tick);
    is_found(
        check_pair(&pair, &STRING),
        "the receiver still holds DATA in the finish tick",
    );
}

/// Where the hold has a break before the finish, there is one pull more than there may be.
#[test]
fn both_hold_their_lines_up_to_the_finish() {
    let (base, finish) = laid_out();
    for tick in finish - 99..finish {
        let tick = pull(tick, tick + 1);
        let mut pair = base.clone();
        pair.clock = base.clock.outside(&tick);
        is_found(
            check_pair(&pair, &STRING),
            "the sender's CLK is pulled 29 times, not 28 up to the finish",
        );
        let mut pair = base.clone();
        pair.receiver_data = base.receiver_data.outside(&tick);
        is_found(
            check_pair(&pair, &STRING),
            "the receiver's DATA is pulled 5 times, not 4 up to the finish",
        );
    }
}

#[test]
fn the_sender_keeps_off_data_up_to_the_finish_tick() {
    let (base, finish) = laid_out();
    for (tick, right) in [(finish - 1, false), (finish, false), (finish + 1, true)] {
        let mut pair = base.clone();
        pair.sender_data = base.sender_data.either(&pull(tick, tick + 1));
        let said = check_pair(&pair, &STRING);
        assert_eq!(said.is_ok(), right, "tick {tick}: {said:?}");
    }
}

#[test]
fn after_the_finish_everybody_is_free() {
    let (base, finish) = laid_out();
    let after = pull(finish + 1, base.total);
    let mut random = Random::new(11);
    for _ in 0..300 {
        let mut noise = Track::new();
        for tick in finish + 1..base.total {
            noise.add(tick, tick + random.below(2));
        }
        let noisy = |track: &Track| track.outside(&after).either(&noise);
        let mut pair = base.clone();
        match random.below(4) {
            0 => pair.clock = noisy(&base.clock),
            1 => pair.sender_data = noisy(&base.sender_data),
            2 => pair.receiver_data = noisy(&base.receiver_data),
            _ => pair.service_request = noisy(&base.service_request),
        }
        assert_eq!(check_pair(&pair, &STRING), Ok(()));
    }
}

/// The pair gives its recording, and no recording in which one tick of ATN is other. The finish is then the first tick with
/// ATN released all the same.
#[test]
fn the_pair_gives_a_recording_with_its_attention() {
    let (pair, finish) = laid_out();
    let lines = Lines::read(&file_of(&pair.steps())).unwrap();
    assert_eq!(lines.finish(), finish);
    assert_eq!(check_given(&pair, &lines), Ok(()));
    for tick in 0..pair.total {
        let turned = pull(tick, tick + 1);
        let mut other = lines.clone();
        other.attention = lines
            .attention
            .outside(&turned)
            .either(&turned.outside(&lines.attention));
        let expected = if tick == finish {
            finish + 1
        } else {
            tick.min(finish)
        };
        assert_eq!(other.finish(), expected);
        is_found(
            check_given(&pair, &other),
            "ATN is pulled until the finish and released from it on",
        );
    }
}
