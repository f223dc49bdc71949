//! Division to the nearest whole number.

/// To the nearest whole number, "half away from zero", for any dividend and a divisor above 0.
pub fn half_away(dividend: i128, divisor: i128) -> i128 {
    assert!(divisor > 0);
    let magnitude = half_up(dividend.abs(), divisor);
    if dividend < 0 {
        -magnitude
    } else {
        magnitude
    }
}

/// "to the nearest …, half up", for a dividend of 0 or more and a divisor above 0.
pub fn half_up(dividend: i128, divisor: i128) -> i128 {
    assert!(dividend >= 0 && divisor > 0);
    let below = dividend / divisor;
    let left_over = dividend - below * divisor;
    if left_over >= divisor - left_over {
        below + 1
    } else {
        below
    }
}

#[cfg(test)]
mod tests {
    use super::*;

    /// The quotient is nearest, and of two that are equally near it is the one away from zero.
    #[test]
    fn nearest_and_ties_away() {
        for divisor in 1..60i128 {
            for dividend in -400..=400i128 {
                let quotient = half_away(dividend, divisor);
                let off = (dividend - quotient * divisor).abs();
                assert!(2 * off <= divisor);
                if 2 * off == divisor {
                    assert!(quotient.abs() * divisor > dividend.abs());
                }
            }
        }
    }
}
