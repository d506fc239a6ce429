//! Drawn pairs keep every rule, give their recording, and have the ticks that they say.

mod other_strings;

use parties::draw::{self, Style, BRISK, DENSE, WIDE};
use parties::{check_given, check_pair, file_of, Lines, Pair, Random};

/// One drawn transfer, laid out.
fn drawn(random: &mut Random, count: usize, style: Style) -> (Pair, Vec<u8>, Vec<u32>) {
    let transfer = draw::transfer(random, count, style);
    let (pair, ledger) = transfer.lay_out();
    (pair, transfer.string(), ledger)
}

#[test]
fn a_drawn_pair_keeps_every_rule_and_gives_its_recording() {
    let mut random = Random::new(7);
    for round in 0..3000 {
        let style = [BRISK, WIDE, DENSE][round % 3];
        let count = 1 + random.place(6);
        let (pair, string, ledger) = drawn(&mut random, count, style);
        assert_eq!(string.len(), count);
        assert_eq!(ledger.len(), 2 * count);
        check_pair(&pair, &string).unwrap();
        let lines = Lines::read(&file_of(&pair.steps())).unwrap();
        check_given(&pair, &lines).unwrap();
    }
}

#[test]
fn a_drawn_pair_is_for_no_other_string() {
    let mut random = Random::new(8);
    for _ in 0..500 {
        let (pair, string, _) = drawn(&mut random, 3, BRISK);
        other_strings::are_found(&pair, &string, &mut random);
    }
}

#[test]
fn the_densest_transfer_has_841_bytes() {
    let mut random = Random::new(9);
    let (pair, string, _) = drawn(&mut random, 841, DENSE);
    check_pair(&pair, &string).unwrap();
    // Nineteen for each byte, five for the end mark and the end, and one more where the receiver takes late.
    assert!((19 * 841 + 5..=16_000).contains(&pair.steps().len()));
}

#[test]
fn carried_and_open_handovers_are_both_drawn() {
    let mut random = Random::new(10);
    let (mut carried, mut open, mut zero) = (0, 0, 0);
    for _ in 0..300 {
        let (pair, string, ledger) = drawn(&mut random, 1, WIDE);
        let broken = !pair
            .sender_data
            .either(&pair.receiver_data)
            .throughout(ledger[0], ledger[1]);
        match string[0] >= 0x80 {
            true if broken => open += 1,
            true => carried += 1,
            false => zero += 1,
        }
    }
    assert!(
        carried > 30 && open > 30 && zero > 30,
        "{carried} {open} {zero}"
    );
}
