//! Drawn commands keep every rule, give their recording, and show a pair.

mod other_strings;

use parties::draw::{self, Style, BRISK, DENSE, MOST_STRETCHES, WIDE};
use parties::{check_given, check_pair, check_shown_command, check_shown_pair, file_of};
use parties::{Ending, Kind, Lines, Pair, Random, Stretch, Transfer, MOST_STEPS};

/// One drawn command, laid out.
struct Drawn {
    transfer: Transfer,
    pair: Pair,
    string: Vec<u8>,
    ledger: Vec<u32>,
}

fn drawn(random: &mut Random, count: usize, style: Style) -> Drawn {
    let transfer = draw::command(random, count, style);
    let (pair, ledger) = transfer.lay_out();
    let string = transfer.string();
    Drawn {
        transfer,
        pair,
        string,
        ledger,
    }
}

impl Drawn {
    fn finish(&self) -> u32 {
        match self.pair.kind {
            Kind::Command { finish } => finish,
            Kind::Plain => panic!("a command is drawn"),
        }
    }

    /// The CLK pull after bit 8.
    fn handover(&self, byte: usize) -> u32 {
        self.pair.clock.pulls()[9 * byte + 9].from
    }

    /// Whether bit 8 is one and DATA is never seen released before the take.
    fn carried(&self, byte: usize) -> bool {
        let byte = &self.transfer.bytes[byte];
        byte.value >= 0x80 && byte.take <= byte.keep
    }

    /// The earliest two ticks of each byte: where the handover is carried, both are at offset 1.
    fn earliest(&self) -> Vec<u32> {
        let mut ledger = self.ledger.clone();
        for byte in (0..self.string.len()).filter(|byte| self.carried(*byte)) {
            ledger[2 * byte..2 * byte + 2].fill(self.handover(byte) + 1);
        }
        ledger
    }

    fn stretches(&self) -> &[Stretch] {
        match &self.transfer.ending {
            Ending::Command(stretches) => stretches,
            Ending::Plain => panic!("a command is drawn"),
        }
    }
}

/// Many of them, of every style.
fn many(seed: u64, rounds: usize) -> impl Iterator<Item = Drawn> {
    let mut random = Random::new(seed);
    (0..rounds).map(move |round| {
        let style = [BRISK, WIDE, DENSE][round % 3];
        let count = 1 + random.place(6);
        drawn(&mut random, count, style)
    })
}

#[test]
fn a_drawn_command_keeps_every_rule_and_gives_its_recording() {
    for drawn in many(13, 3000) {
        assert_eq!(drawn.ledger.len(), 2 * drawn.string.len());
        check_pair(&drawn.pair, &drawn.string).unwrap();
        let lines = Lines::read(&file_of(&drawn.pair.steps())).unwrap();
        assert_eq!(lines.finish(), drawn.finish());
        check_given(&drawn.pair, &lines).unwrap();
    }
}

#[test]
fn a_drawn_command_shows_a_pair() {
    for drawn in many(14, 3000) {
        let file = file_of(&drawn.pair.steps());
        let ledger = drawn.earliest();
        check_shown_command(&file, &drawn.string, &ledger).unwrap();
        assert!(check_shown_pair(&file, &drawn.string, &ledger).is_err());
    }
}

#[test]
fn a_drawn_command_is_for_no_other_string() {
    let mut random = Random::new(15);
    for _ in 0..500 {
        let Drawn { pair, string, .. } = drawn(&mut random, 3, BRISK);
        other_strings::are_found(&pair, &string, &mut random);
    }
}

/// Nineteen steps for each byte, two for the hold and the finish, and one more where the receiver takes late.
#[test]
fn a_dense_command_of_841_bytes_has_room_for_what_comes_after_it() {
    let mut random = Random::new(16);
    let drawn = drawn(&mut random, 841, DENSE);
    check_pair(&drawn.pair, &drawn.string).unwrap();
    let least = 19 * 841 + 2;
    assert!((least..=MOST_STEPS).contains(&drawn.pair.steps().len()));
    assert!(least + 1 + MOST_STRETCHES as usize <= MOST_STEPS);
}

#[test]
fn every_kind_of_finish_is_drawn() {
    let (mut exact, mut soonest, mut long_carried, mut long) = (0, 0, 0, 0);
    let (mut carried, mut open, mut zero) = (0, 0, 0);
    for drawn in many(17, 3000) {
        let last = drawn.string.len() - 1;
        let hold = drawn.finish() - drawn.ledger[2 * last + 1];
        let is_carried = drawn.carried(last);
        exact += u32::from(hold == 100);
        soonest += u32::from(is_carried && drawn.finish() == drawn.handover(last) + 101);
        long_carried += u32::from(is_carried && hold > 1000);
        long += u32::from(hold > 65_535);
        match drawn.string[last] >= 0x80 {
            true if is_carried => carried += 1,
            true => open += 1,
            false => zero += 1,
        }
    }
    let few = [exact, soonest, long_carried, carried, open, zero];
    assert!(few.iter().all(|count| *count > 30), "{few:?}");
    assert!(long > 0);
}

#[test]
fn everything_is_drawn_after_the_finish() {
    let (mut nothing, mut held, mut released) = (0, 0, 0);
    let (mut clock, mut sender_data, mut receiver_data, mut service_request) = (0, 0, 0, 0);
    let mut shown = [false; 8];
    for drawn in many(18, 3000) {
        let (after, total) = (drawn.finish() + 1, drawn.pair.total);
        let pair = &drawn.pair;
        let data = pair.sender_data.either(&pair.receiver_data);
        let quiet = |from| !pair.clock.anywhere(from, total) && !data.anywhere(from, total);
        nothing += u32::from(after == total);
        held += u32::from(pair.clock.throughout(after, total) && data.throughout(after, total));
        released += u32::from(after < total && quiet(total - 1));
        clock += u32::from(pair.clock.pulls().len() > 9 * drawn.string.len() + 1);
        sender_data += u32::from(pair.sender_data.anywhere(after, total));
        receiver_data += u32::from(pair.receiver_data.pulls().len() > drawn.string.len() + 1);
        service_request += u32::from(pair.service_request.anywhere(after, total));
        assert!(drawn.stretches().len() <= MOST_STRETCHES as usize);
        for stretch in drawn.stretches() {
            let data = stretch.sender_data || stretch.receiver_data;
            let lines = [stretch.clock, data, stretch.service_request];
            shown[lines
                .iter()
                .fold(0, |sum, line| 2 * sum + usize::from(*line))] = true;
        }
    }
    let few = [
        nothing,
        held,
        released,
        clock,
        sender_data,
        receiver_data,
        service_request,
    ];
    assert!(few.iter().all(|count| *count > 200), "{few:?}");
    assert!(shown.iter().all(|seen| *seen), "{shown:?}");
}

/// Broken by one tick at the finish: sooner than it may be, or a line let go in it.
#[test]
fn a_drawn_command_broken_at_its_finish_is_found() {
    for mut drawn in many(19, 1000) {
        drawn.transfer.last_hold = 99;
        let pair = drawn.transfer.lay_out().0;
        let error = check_pair(&pair, &drawn.string).unwrap_err();
        assert!(error.contains("the finish comes 100 or more"), "{error}");
        let mut cut = drawn.pair.clone();
        cut.total = drawn.finish();
        let error = check_pair(&cut, &drawn.string).unwrap_err();
        assert!(error.contains("the finish is in the recording"), "{error}");
        let last = drawn.transfer.bytes.last_mut().unwrap();
        last.ready_for_data = 200;
        let pair = drawn.transfer.lay_out().0;
        let error = check_pair(&pair, &drawn.string).unwrap_err();
        assert!(error.contains("a command's last byte"), "{error}");
    }
}
