//! Each rule of the two parties broken once, and kept at both ends of its window: of a plain transfer, and where a command
//! has the rule too, of a command.

use parties::{check_pair, Card, Ending, Kind, Pair, Stretch, Track, Transfer};

/// Three bytes: bit 8 one, then zero, then one.
const STRING: [u8; 3] = [0xC1, 0x42, 0x83];

/// A plain transfer of them.
fn plain() -> Transfer {
    inside(Card::WRITTEN.transfer(&STRING))
}

/// A command of them. After its finish the sender pulls DATA.
fn command() -> Transfer {
    let mut command = inside(Card::WRITTEN.command(&STRING));
    command.ending = Ending::Command(vec![Stretch {
        ticks: 50,
        sender_data: true,
        ..Stretch::default()
    }]);
    command
}

/// One of each kind.
fn both() -> [Transfer; 2] {
    [plain(), command()]
}

/// The transfer with spans well inside their windows.
fn inside(mut transfer: Transfer) -> Transfer {
    transfer.first_take = 10;
    for byte in &mut transfer.bytes {
        byte.take = 60;
        byte.keep = if byte.value >= 0x80 { 40 } else { 0 };
    }
    transfer
}

fn laid_out(transfer: &Transfer) -> Pair {
    transfer.lay_out().0
}

/// What `check_pair` says once `change` has changed the transfer.
fn said(transfer: &Transfer, change: impl Fn(&mut Transfer)) -> Result<(), String> {
    let mut changed = transfer.clone();
    change(&mut changed);
    check_pair(&laid_out(&changed), &STRING)
}

/// Sets one span of a transfer to each value: those in `kept` keep the rules, those in `broken` break the rule whose words
/// are given.
fn span_of(
    transfer: &Transfer,
    set: impl Fn(&mut Transfer, u32),
    kept: &[u32],
    broken: &[u32],
    words: &str,
) {
    for value in kept {
        assert_eq!(
            said(transfer, |transfer| set(transfer, *value)),
            Ok(()),
            "{words}: {value}"
        );
    }
    for value in broken {
        let error = said(transfer, |transfer| set(transfer, *value)).expect_err(words);
        assert!(error.contains(words), "{value}: {error}");
    }
}

/// The same for a span that both kinds have.
fn span(set: impl Fn(&mut Transfer, u32), kept: &[u32], broken: &[u32], words: &str) {
    for transfer in both() {
        span_of(&transfer, &set, kept, broken, words);
    }
}

/// The same for a span of a plain transfer alone.
fn plain_span(set: impl Fn(&mut Transfer, u32), kept: &[u32], broken: &[u32], words: &str) {
    span_of(&plain(), set, kept, broken, words);
}

/// The first tick that no rule binds.
fn bound(pair: &Pair) -> u32 {
    match pair.kind {
        Kind::Plain => pair.total,
        Kind::Command { finish } => finish + 1,
    }
}

#[test]
fn the_transfers_keep_the_rules() {
    for transfer in both() {
        assert_eq!(said(&transfer, |_| {}), Ok(()));
    }
}

#[test]
fn start() {
    let words = "the receiver takes DATA at tick 0 to 256";
    span(
        |t, value| t.first_take = value,
        &[0, 1, 255, 256],
        &[257, 1000],
        words,
    );
    for transfer in both() {
        let mut late = laid_out(&transfer);
        for pull in std::mem::take(&mut late.clock).pulls() {
            late.clock.add(pull.from.max(1), pull.until);
        }
        let error = check_pair(&late, &STRING).unwrap_err();
        assert!(
            error.contains("byte 0, tick 1: the sender pulls CLK from tick 0"),
            "{error}"
        );
    }
}

#[test]
fn ready_to_send() {
    let words = "the sender releases CLK 1 or more ticks after that take";
    span(
        |t, value| t.bytes[0].hold = value,
        &[1, 2, 99, 70_000],
        &[0],
        words,
    );
    let words = "the sender releases CLK 100 or more after the latest take";
    for place in [1, 2] {
        span(
            |t, value| t.bytes[place].hold = value,
            &[100, 101, 70_000],
            &[50, 99],
            words,
        );
    }
    plain_span(
        |t, value| t.last_hold = value,
        &[100, 101, 70_000],
        &[50, 99],
        words,
    );
    let words = "the receiver lets go 1 or more ticks later";
    for place in [0, 1, 2] {
        span(
            |t, value| t.bytes[place].ready_to_send = value,
            &[1, 70_000],
            &[0],
            words,
        );
    }
    plain_span(
        |t, value| t.last_ready_to_send = value,
        &[1, 70_000],
        &[0],
        words,
    );
}

#[test]
fn ready_for_data() {
    let words = "not the last byte: the sender pulls CLK 1 to 199 ticks after the letting go";
    for place in [0, 1] {
        span(
            |t, value| t.bytes[place].ready_for_data = value,
            &[1, 199],
            &[0, 200, 290],
            words,
        );
    }
    let words = "last byte: the receiver pulls DATA 200 to 290 ticks after";
    plain_span(
        |t, value| t.bytes[2].ready_for_data = value,
        &[200, 290],
        &[1, 199, 291],
        words,
    );
    let words = "last byte: for 60 to 150 ticks";
    plain_span(
        |t, value| t.acknowledgement = value,
        &[60, 150],
        &[1, 59, 151],
        words,
    );
    let words = "last byte: the sender pulls CLK 1 to 60 ticks after that";
    plain_span(
        |t, value| t.after_acknowledgement = value,
        &[1, 60],
        &[0, 61],
        words,
    );
}

#[test]
fn set_up_and_valid() {
    for place in [0, 1, 2] {
        for bit in 0..8 {
            let words = "set-up: CLK pulled for 1 to 200 ticks";
            let set = |t: &mut Transfer, value| t.bytes[place].bits[bit].set_up = value;
            span(set, &[1, 2, 200], &[201, 500], words);
            let words = "valid: CLK released for 20 to 200 ticks";
            let set = |t: &mut Transfer, value| t.bytes[place].bits[bit].valid = value;
            span(set, &[20, 21, 200], &[1, 19, 201], words);
        }
    }
}

#[test]
fn data_is_free_in_the_set_up_and_steady_from_its_last_tick() {
    for place in [0, 1, 2] {
        for bit in 0..8 {
            // The set-up is ticks 0 to 69 and the valid time 70 to 129: a move at 70 moves with CLK's release.
            let set = |t: &mut Transfer, value| t.bytes[place].bits[bit].moves[0] = value;
            span(
                set,
                &[1, 2, 69],
                &[70, 71, 129],
                "from the last set-up tick to the last valid tick",
            );
        }
    }
    for transfer in both() {
        let moved = said(&transfer, |t| t.bytes[0].bits[3].moves = [5, 20, 69]);
        assert_eq!(moved, Ok(()));
    }
}

/// The sender's DATA turned over for one tick, at every tick of every byte's bits.
#[test]
fn one_tick_of_other_data_is_right_in_a_set_up_before_its_last_tick_alone() {
    for transfer in both() {
        one_tick_of_other_data(&laid_out(&transfer));
    }
}

fn one_tick_of_other_data(base: &Pair) {
    let clock = base.clock.pulls();
    for tick in clock
        .iter()
        .skip(1)
        .flat_map(|pull| pull.from..pull.from + 130)
    {
        let mut other = Track::new();
        other.add(tick, tick + 1);
        let data = &base.sender_data;
        let mut pair = base.clone();
        pair.sender_data = data.outside(&other).either(&other.outside(data));
        let in_bits = clock
            .iter()
            .enumerate()
            .any(|(place, pull)| place % 9 != 0 && pull.from <= tick && tick + 1 < pull.until);
        // The sender's own stop, a tick sooner, is right too: after bit 8 of the first and of the last byte.
        let stops = clock.iter().step_by(9).skip(1).any(|pull| {
            data.at(pull.from)
                .is_some_and(|keep| tick + 1 == keep.until || tick == keep.until)
        });
        let said = check_pair(&pair, &STRING);
        assert_eq!(said.is_ok(), in_bits || stops, "tick {tick}: {said:?}");
    }
}

#[test]
fn the_receiver_keeps_off_data_in_the_bits() {
    for transfer in both() {
        receiver_early(&laid_out(&transfer));
    }
}

fn receiver_early(base: &Pair) {
    let handover = base.clock.pulls()[9].from;
    let mut pair = base.clone();
    pair.receiver_data = Track::new();
    for pull in base.receiver_data.pulls() {
        // The take of the first byte comes in the last valid tick of its bit 8.
        let early = pull.from == handover + 60;
        let from = if early { handover - 1 } else { pull.from };
        pair.receiver_data.add(from, pull.until);
    }
    let error = check_pair(&pair, &STRING).unwrap_err();
    assert!(
        error.contains("byte 0") && error.contains("the receiver keeps off DATA"),
        "{error}"
    );
}

#[test]
fn handover() {
    let words = "stops at offset 0 to 100";
    for place in [0, 2] {
        span(
            |t, value| t.bytes[place].keep = value,
            &[0, 1, 59, 60, 61, 99, 100],
            &[101, 150],
            words,
        );
    }
    // After a zero a pull from offset 0 on is no going on.
    span(
        |t, value| t.bytes[1].keep = value,
        &[0],
        &[1, 2, 100],
        "if zero it doesn't pull",
    );
    let words = "the receiver takes DATA at offset 1 to 1,000";
    for place in [0, 1, 2] {
        span(
            |t, value| t.bytes[place].take = value,
            &[1, 2, 39, 40, 41, 999, 1000],
            &[0, 1001, 1002],
            words,
        );
    }
}

#[test]
fn end() {
    let words = "the tick of the last letting go is in the recording";
    plain_span(|t, value| t.silence = value, &[1, 2, 70_000], &[0], words);
    let mut pair = laid_out(&plain());
    pair.sender_data.add(pair.total - 1, pair.total);
    let error = check_pair(&pair, &STRING).unwrap_err();
    assert!(error.contains("nobody pulls DATA"), "{error}");
}

#[test]
fn no_other_pulls_occur() {
    let base = laid_out(&plain());
    let (end, total) = (base.total - 1, base.total);
    let mut pair = base.clone();
    pair.clock.add(end, total);
    assert!(check_pair(&pair, &STRING)
        .unwrap_err()
        .contains("the sender's CLK is pulled 29 times"));
    let mut pair = base.clone();
    pair.receiver_data.add(end, total);
    assert!(check_pair(&pair, &STRING)
        .unwrap_err()
        .contains("the receiver's DATA is pulled 6 times"));
}

/// One more DATA pull of the sender, of one tick, anywhere outside its bits and handovers is found.
#[test]
fn the_sender_keeps_off_data_outside_its_bits() {
    for transfer in both() {
        sender_outside(&laid_out(&transfer));
    }
}

fn sender_outside(base: &Pair) {
    let clock = base.clock.pulls();
    let mut begin = 0;
    for byte in 0..=3 {
        // From the handover's end, where the sender has let go, to the next byte's first CLK pull.
        let until = clock
            .get(9 * byte + 1)
            .map_or(bound(base), |pull| pull.from);
        for tick in begin..until {
            let mut pair = base.clone();
            let mut extra = Track::new();
            extra.add(tick, tick + 1);
            pair.sender_data = base.sender_data.either(&extra);
            assert!(check_pair(&pair, &STRING).is_err(), "tick {tick}");
        }
        begin = clock.get(9 * byte + 9).map_or(0, |pull| pull.from) + 42;
    }
}
