//! Legal recordings, damaged: in their steps, or in their file.

use crate::case::Case;
use parties::draw::BRISK;
use parties::{Random, Step};

/// A legal pair of one to four bytes with one to three damages. Damage of the steps leaves the header right.
pub fn draw(random: &mut Random, case: &mut Case) {
    let count = random.between(1, 4) as usize;
    case.draw_transfer(random, count, BRISK);
    case.lay_out();
    let damages = random.pick(&[1, 1, 1, 2, 3]);
    if random.one_in(3) {
        case.put_file();
        for _ in 0..damages {
            damage_file(random, &mut case.file);
        }
        return;
    }
    for _ in 0..damages {
        if !case.steps.is_empty() {
            damage_steps(random, case);
        }
    }
    case.put_file();
}

/// Steps dropped, doubled, swapped, changed or cut; lines turned over for some ticks, ATN among them.
fn damage_steps(random: &mut Random, case: &mut Case) {
    let place = random.place(case.steps.len());
    match random.below(10) {
        0 => drop(case.steps.remove(place)),
        1 => case.steps.insert(place, case.steps[place]),
        2 => {
            let other = random.place(case.steps.len());
            case.steps.swap(place, other);
        }
        3 => case.cut_at(case.tick(random)),
        4 => change_duration(random, &mut case.steps[place]),
        5 => case.steps[place].lines ^= random.pick(&[1, 2, 4, 8, 6]),
        6 => {
            let tick = case.tick(random);
            case.turn_over(tick, tick + random.between(1, 30), 1);
        }
        7 => {
            let (duration, lines) = (random.between(1, 300) as u16, random.below(16) as u8);
            case.steps.insert(place, Step::new(duration, lines));
        }
        8 => {
            let tick = case.tick_by_a_change(random);
            case.turn_over(tick, tick + 1, random.pick(&[1, 2, 4, 6]));
        }
        _ => {
            let tick = case.tick(random);
            let ticks = random.pick(&[1, 1, 2, 20, 200]);
            case.turn_over(tick, tick + ticks, random.pick(&[2, 4, 6]));
        }
    }
}

/// A duration a tick off, at a limit, or any other.
fn change_duration(random: &mut Random, step: &mut Step) {
    let changed = match random.below(4) {
        0 => step.duration.saturating_sub(1),
        1 => step.duration.saturating_add(1),
        2 => random.pick(&[
            0, 1, 19, 59, 60, 61, 99, 100, 199, 200, 201, 290, 512, 1000, 65_535,
        ]),
        _ => random.between(1, 600) as u16,
    };
    step.duration = changed;
}

/// Bits flipped, header fields changed, the file cut or made longer.
fn damage_file(random: &mut Random, file: &mut Vec<u8>) {
    match random.below(6) {
        0 => flip_bit(random, file),
        1 => file.truncate(random.place(file.len() + 1)),
        2 => {
            for _ in 0..random.between(1, 9) {
                file.push(random.pick(&[0, 0, 1, 255]));
            }
        }
        3 if file.len() >= 20 => damage_a_step(random, file),
        _ if file.len() >= 16 => change_header(random, file),
        _ => flip_bit(random, file),
    }
}

/// Any bit of the file, or of its header.
fn flip_bit(random: &mut Random, file: &mut [u8]) {
    let length = if random.one_in(3) {
        file.len().min(16)
    } else {
        file.len()
    };
    if length > 0 {
        file[random.place(length)] ^= 1 << random.below(8);
    }
}

/// No duration, stray line bits or a last byte that is not zero, a mark or none, in some step of the file; or several of these
/// in one step, for they are tested in order.
fn damage_a_step(random: &mut Random, file: &mut [u8]) {
    let step = 16 + 4 * random.place((file.len() - 16) / 4);
    let what = random.between(1, 7);
    if what & 1 != 0 {
        file[step..step + 2].fill(0);
    }
    if what & 2 != 0 {
        file[step + 2] |= random.pick(&[16, 32, 64, 128, 0xF0]);
    }
    if what & 4 != 0 {
        file[step + 3] = random.pick(&[1, 2, 128, 255]);
    }
}

/// One field of the header a little off, at a limit, or any other.
fn change_header(random: &mut Random, file: &mut [u8]) {
    let (place, length) = random.pick(&[(0, 2), (2, 2), (4, 4), (8, 4), (12, 4)]);
    let mut field = [0; 4];
    field[..length].copy_from_slice(&file[place..place + length]);
    let was = u32::from_le_bytes(field);
    let now = match random.below(6) {
        0 => was.wrapping_add(1),
        1 => was.wrapping_sub(1),
        2 => was.wrapping_add(random.pick(&[4, 256, 0x100_0000, u32::MAX - 3])),
        3 => random.pick(&[0, 1, 15, 16, 17, 15_999, 16_000, 16_001, 65_535, u32::MAX]),
        4 => was ^ 1 << random.below(8 * length as u32),
        _ => random.bits() as u32,
    };
    file[place..place + length].copy_from_slice(&now.to_le_bytes()[..length]);
}
