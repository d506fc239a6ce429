//! Strings that a pair does not send.

use parties::{check_pair, Pair, Random};

/// Of the string that the pair sends: one with a bit changed, a longer one, a shorter one and none.
pub fn are_found(pair: &Pair, string: &[u8], random: &mut Random) {
    let mut other = string.to_vec();
    let (place, bit) = (random.place(string.len()), random.below(8));
    other[place] ^= 1 << bit;
    let longer = [string, &[0]].concat();
    for wrong in [&other, &longer, &string[..string.len() - 1], &[]] {
        assert!(check_pair(pair, wrong).is_err(), "{wrong:?}");
    }
}
