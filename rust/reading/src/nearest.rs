//! Whether a float is a quotient of whole numbers, told by whole numbers alone: with it tests lean on no processor's
//! division, neither the library's nor the reading's.

/// Distances are counted in units of 2^-72 by the divisor: a float from 2^-20 on is a whole number of 2^-72.
const UNITS: i32 = 72;

/// Whether a float is the nearest to `whole / divisor`, of two that are as near the even one, and +0.0 for 0. For whole
/// numbers up to 2^54 in size and divisors up to 2^16.
pub fn is_quotient(float: f64, whole: i128, divisor: u32) -> bool {
    if whole == 0 {
        return float.to_bits() == 0;
    }
    let (bits, size) = (float.abs().to_bits(), whole.unsigned_abs());
    let [below, own, above] = [bits.wrapping_sub(1), bits, bits + 1].map(|bits| distance(bits, size, divisor));
    let (Some(below), Some(own), Some(above)) = (below, own, above) else { return false };
    let is_nearest = own < below.min(above) || own == below.min(above) && bits % 2 == 0;
    float.is_sign_negative() == (whole < 0) && is_nearest
}

/// How far the float with these bits is from `size / divisor`. None if it is less than 2^-20 or far too large.
fn distance(bits: u64, size: u128, divisor: u32) -> Option<u128> {
    let (exponent, fraction) = ((bits >> 52) as i32 - 1023, bits & ((1 << 52) - 1));
    if !(-20..53).contains(&exponent) {
        return None;
    }
    let float = u128::from(fraction | 1 << 52) << (exponent - 52 + UNITS);
    Some((size << UNITS).abs_diff(u128::from(divisor).checked_mul(float)?))
}

#[cfg(test)]
mod tests {
    use super::*;

    #[test]
    fn powers_of_two_and_their_neighbours() {
        for power in -10..=40 {
            let (float, whole) = (2.0_f64.powi(power), 1_i128 << (power + 10));
            let divisor = 1 << 10;
            assert!(is_quotient(float, whole, divisor) && is_quotient(-float, -whole, divisor));
            assert!(!is_quotient(-float, whole, divisor) && !is_quotient(float, -whole, divisor));
            assert!(!is_quotient(float.next_up(), whole, divisor) && !is_quotient(float.next_down(), whole, divisor));
        }
    }

    /// 2^53 + 1 halved lies between two floats, and so does 2^53 + 3: the even one is below, then above.
    #[test]
    fn ties_go_to_even() {
        let (low, high) = ((1_i128 << 53) + 1, (1_i128 << 53) + 3);
        let floats = [0, 1, 2].map(|up| f64::from_bits(2.0_f64.powi(52).to_bits() + up));
        assert_eq!(floats.map(|float| is_quotient(float, low, 2)), [true, false, false]);
        assert_eq!(floats.map(|float| is_quotient(float, high, 2)), [false, false, true]);
    }

    #[test]
    fn zero_has_no_sign() {
        assert!(is_quotient(0.0, 0, 100) && !is_quotient(-0.0, 0, 100) && !is_quotient(1.0, 0, 100));
        assert!(!is_quotient(0.0, 1, 100) && !is_quotient(f64::NAN, 1, 100) && !is_quotient(f64::INFINITY, 1, 100));
        assert!(!is_quotient(1e300, 1, 100) && !is_quotient(1e-300, 1, 100));
    }

    /// Dividing twice, or by a product with the reciprocal, is told from dividing once.
    #[test]
    fn roundings_that_add_up_are_told() {
        let told = |quotient: fn(f64) -> f64| {
            (1..=100_000).filter(|&whole| !is_quotient(quotient(whole as f64), whole, 20_000)).count()
        };
        assert_eq!(told(|whole| whole / 20_000.0), 0);
        assert!(told(|whole| whole / 200.0 / 100.0) > 10_000);
        assert!(told(|whole| whole * (1.0 / 20_000.0)) > 10_000);
        assert!(told(|whole| whole / 2.0 * 0.0001) > 10_000);
    }
}
