//! A 32-bit float as a whole number of units of 2^-149, the least float above zero.

use super::natural::Natural;

/// Log2 of how many units 1 is.
pub const UNIT_BITS: u32 = 149;

/// The units of a float that is finite and not negative.
pub fn units(float: f32) -> Natural {
    let bits = float.to_bits();
    assert!(bits < 0x7f80_0000, "{bits:08x} has no units");
    let (exponent, fraction) = (bits >> 23, bits & 0x007f_ffff);
    if exponent == 0 {
        return Natural::from(u128::from(fraction));
    }
    Natural::from(u128::from(fraction | 1 << 23)).shifted(exponent - 1)
}

#[cfg(test)]
mod tests {
    use super::*;

    fn of_bits(bits: u32) -> Natural {
        units(f32::from_bits(bits))
    }

    #[test]
    fn known_units() {
        let one = Natural::from(1);
        assert_eq!(of_bits(0), Natural::ZERO);
        assert_eq!(of_bits(1), one);
        assert_eq!(of_bits(0x007f_ffff), Natural::from(0x007f_ffff));
        assert_eq!(of_bits(0x0080_0000), one.shifted(23));
        assert_eq!(units(1.0), one.shifted(UNIT_BITS));
        assert_eq!(units(1.5), Natural::from(3).shifted(UNIT_BITS - 1));
        assert_eq!(units(1_048_576.0), one.shifted(UNIT_BITS + 20));
        let greatest = one.shifted(24).minus(one).shifted(253);
        assert_eq!(units(f32::MAX), greatest);
    }

    #[test]
    fn units_rise_with_the_pattern() {
        for bits in (0..0x7f7f_fffe).step_by(10_007) {
            assert!(of_bits(bits) < of_bits(bits + 1), "{bits:08x}");
        }
    }

    #[test]
    #[should_panic(expected = "7f800000 has no units")]
    fn infinity_has_none() {
        let _ = units(f32::INFINITY);
    }

    #[test]
    #[should_panic(expected = "80000000 has no units")]
    fn minus_zero_has_none() {
        let _ = units(-0.0);
    }
}
