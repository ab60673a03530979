//! The arithmetic of the benchmark (`benches/speed`).

/// Bits of a character on the line: start, eight data bits, parity and stop.
const BITS_OF_CHARACTER: f64 = 11.0;
/// The line's bits in a nanosecond, at 1.5 Mbit/s.
const BITS_OF_NANOSECOND: f64 = 1.5e-3;

/// How many nanoseconds so many characters take on the line.
pub fn wire_nanoseconds(characters: usize) -> f64 {
    characters as f64 * BITS_OF_CHARACTER / BITS_OF_NANOSECOND
}

/// The number in the middle, or between the two there; there is one at least.
pub fn median(mut numbers: Vec<f64>) -> f64 {
    numbers.sort_by(f64::total_cmp);
    let middle = numbers.len() / 2;
    if numbers.len() % 2 == 1 {
        return numbers[middle];
    }
    (numbers[middle - 1] + numbers[middle]) / 2.0
}

#[cfg(test)]
mod tests {
    use super::*;

    #[test]
    fn longest_telegram_takes_1870_microseconds() {
        assert!((wire_nanoseconds(255) - 1_870_000.0).abs() < 1e-3);
        assert_eq!(wire_nanoseconds(0), 0.0);
    }

    #[test]
    fn median_of_odd_and_even_counts() {
        assert_eq!(median(vec![7.0]), 7.0);
        assert_eq!(median(vec![9.0, 1.0, 2.0]), 2.0);
        assert_eq!(median(vec![4.0, 100.0, 1.0, 2.0]), 3.0);
    }

    #[test]
    fn one_slow_round_does_not_move_the_median() {
        let rounds = |slow| median(vec![5.0, 4.0, slow, 6.0, 5.0]);
        assert_eq!(rounds(5.0), rounds(1e9));
    }
}
