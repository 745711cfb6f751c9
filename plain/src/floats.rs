//! Whether floats are finite.

/// Its sign bit is set exactly if the float isn't finite: an exponent of ones carries into it.
#[inline(always)]
pub fn flag(x: f32) -> u32 {
    const EXPONENT: u32 = 0x7F80_0000;
    const LOWEST_BIT: u32 = 0x0080_0000;
    (x.to_bits() & EXPONENT) + LOWEST_BIT
}

/// Whether all floats that gave these flags, or-ed together, are finite.
#[inline(always)]
pub fn none_set(flags: u32) -> bool {
    flags >> 31 == 0
}

/// The flags of all of them: no branch for each, so that many go quickly.
#[inline(always)]
pub fn flags(floats: &[f32]) -> u32 {
    floats.iter().fold(0, |flags, &x| flags | flag(x))
}

/// Whether all of them are finite.
#[inline]
pub fn finite(floats: &[f32]) -> bool {
    none_set(flags(floats))
}

#[cfg(test)]
mod tests {
    use super::*;

    #[test]
    fn a_flag_is_set_for_what_is_not_finite() {
        for high in 0..=u16::MAX {
            for low in [0, 1, 0x8000, 0xFFFF] {
                let x = f32::from_bits(u32::from(high) << 16 | low);
                assert_eq!(none_set(flag(x)), x.is_finite());
            }
        }
    }
}
