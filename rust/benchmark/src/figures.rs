//! Numbers as a reader wants them.

use crate::spread::Spread;

/// A number, or where it is small a part of one.
pub fn part(value: f64) -> String {
    if value >= 0.1 {
        return digits(value);
    }
    let inverse = 1.0 / value;
    let unit = 10f64.powf(inverse.log10().floor() - 2.0).max(1.0);
    format!("1/{}", grouped(((inverse / unit).round() * unit) as usize))
}

/// A time in the unit that suits its median.
pub fn time(seconds: &Spread) -> String {
    let (factor, unit) = match seconds.median {
        at if at >= 1.0 => (1.0, "s"),
        at if at >= 1e-3 => (1e3, "ms"),
        at if at >= 1e-6 => (1e6, "µs"),
        _ => (1e9, "ns"),
    };
    let times = [seconds.median, seconds.least, seconds.most];
    let [median, least, most] = times.map(|value| digits(value * factor));
    format!("{median} {unit} ({least}..{most})")
}

/// Three digits that count, however small the number is.
pub fn digits(value: f64) -> String {
    let size = value.abs().max(1e-9).log10().floor() as i32;
    let places = (2 - size).max(0) as usize;
    format!("{value:.places$}")
}

/// A number with a comma before every three digits.
pub fn grouped(number: usize) -> String {
    let digits = number.to_string();
    let mut text = String::new();
    for (place, digit) in digits.chars().enumerate() {
        if place > 0 && (digits.len() - place).is_multiple_of(3) {
            text.push(',');
        }
        text.push(digit);
    }
    text
}

#[cfg(test)]
mod tests {
    use super::{digits, grouped, part};

    #[test]
    fn numbers_are_grouped_by_three() {
        assert_eq!(grouped(0), "0");
        assert_eq!(grouped(999), "999");
        assert_eq!(grouped(16_000), "16,000");
        assert_eq!(grouped(1_048_560_000), "1,048,560,000");
    }

    #[test]
    fn three_digits_count() {
        assert_eq!(digits(3.1872), "3.19");
        assert_eq!(digits(307.2), "307");
        assert_eq!(digits(0.0000212), "0.0000212");
    }

    #[test]
    fn a_small_ratio_is_a_part() {
        assert_eq!(part(16.52), "16.5");
        assert_eq!(part(0.0095), "1/105");
        assert_eq!(part(1.0 / 179_138.0), "1/179,000");
    }
}
