//! Adder, multiplication, division and shifts.

use crate::decode::ShiftKind;

pub(crate) struct Sum {
    pub value: u16,
    pub carry: bool,
    pub overflow: bool,
}

/// The 16-bit adder with its carry and signed overflow. Whole numbers on
/// purpose, in every part: the proved engine decides both by the signs of the
/// operands and of the result, and the two shall be independent.
#[cfg_attr(feature = "inlined", inline(always))]
pub(crate) fn add(a: u16, b: u16, carry: bool) -> Sum {
    let unsigned = u32::from(a) + u32::from(b) + u32::from(carry);
    let signed = i32::from(a as i16) + i32::from(b as i16) + i32::from(carry);
    Sum {
        value: unsigned as u16,
        carry: unsigned > 65_535,
        overflow: !(-32_768..=32_767).contains(&signed),
    }
}

/// MPY: the low 16 bits, and whether the absolute value exceeds 32,767.
#[cfg_attr(feature = "inlined", inline(always))]
pub(crate) fn multiply(a: u16, b: u16) -> (u16, bool) {
    let product = i32::from(a as i16) * i32::from(b as i16);
    (product as u16, product.unsigned_abs() > 32_767)
}

/// RMPY: the signed product as high and low word.
#[cfg_attr(feature = "inlined", inline(always))]
pub(crate) fn multiply_long(a: u16, b: u16) -> (u16, u16) {
    let product = i32::from(a as i16) * i32::from(b as i16);
    ((product >> 16) as u16, product as u16)
}

/// RDIV: quotient toward zero and remainder, if the quotient fits.
#[cfg_attr(feature = "inlined", inline(always))]
pub(crate) fn divide(high: u16, low: u16, divisor: u16) -> Option<(u16, u16)> {
    let dividend = (u32::from(high) << 16 | u32::from(low)) as i32;
    let divisor = i32::from(divisor as i16);
    let quotient = i16::try_from(dividend.checked_div(divisor)?).ok()?;
    let remainder = dividend.checked_rem(divisor)?;
    Some((quotient as u16, remainder as u16))
}

/// Shift of `value` (`width` bits, 16 or 32) by `count`, left when positive.
/// Answers the result and M.
#[cfg_attr(feature = "inlined", inline(always))]
pub(crate) fn shift(kind: ShiftKind, value: u32, width: u32, count: i16, m: bool) -> (u32, bool) {
    if count == 0 {
        return (value, m);
    }
    let places = u32::from(count.unsigned_abs());
    let value = u64::from(value);
    let (result, m) = if count > 0 {
        match kind {
            ShiftKind::Arithmetic | ShiftKind::Zero => {
                let wide = value << places;
                (wide, wide >> width & 1)
            }
            ShiftKind::Rotate => {
                let turned = rotate_left(value, width, places % width);
                (turned, turned & 1)
            }
            ShiftKind::Link => {
                let ring = value | u64::from(m) << width;
                let turned = rotate_left(ring, width + 1, places % (width + 1));
                (turned, turned >> width & 1)
            }
        }
    } else {
        match kind {
            ShiftKind::Arithmetic => {
                let spare = 64 - width;
                let signed = (value << spare) as i64 >> spare;
                (
                    (signed >> places) as u64,
                    (signed >> (places - 1)) as u64 & 1,
                )
            }
            ShiftKind::Zero => (value >> places, value >> (places - 1) & 1),
            ShiftKind::Rotate => {
                let turned = rotate_left(value, width, width - places % width);
                (turned, turned >> (width - 1) & 1)
            }
            ShiftKind::Link => {
                let ring = value | u64::from(m) << width;
                let turned = rotate_left(ring, width + 1, width + 1 - places % (width + 1));
                (turned, turned >> width & 1)
            }
        }
    };
    ((result & ((1 << width) - 1)) as u32, m != 0)
}

/// Rotation of a ring of `width` bits (at most 33) by 0 to `width` places.
#[cfg_attr(feature = "inlined", inline(always))]
fn rotate_left(ring: u64, width: u32, places: u32) -> u64 {
    let mask = (1 << width) - 1;
    if places == width {
        return ring;
    }
    // At most 33 + 32 places: split to stay within 64 bits.
    ((ring & (mask >> places)) << places | ring >> (width - places)) & mask
}

#[cfg(test)]
mod tests {
    use super::*;

    /// One single shift, as the rulings give it.
    fn single(kind: ShiftKind, value: u32, width: u32, left: bool, m: bool) -> (u32, bool) {
        let top = 1 << (width - 1);
        let out = if left {
            value & top != 0
        } else {
            value & 1 != 0
        };
        let enters = match kind {
            ShiftKind::Arithmetic => !left && value & top != 0,
            ShiftKind::Rotate => out,
            ShiftKind::Zero => false,
            ShiftKind::Link => m,
        };
        let mask = ((1u64 << width) - 1) as u32;
        let moved = if left { value << 1 & mask } else { value >> 1 };
        let end = if left { 1 } else { top };
        (moved | if enters { end } else { 0 }, out)
    }

    #[test]
    fn shifts_are_the_single_shift_repeated() {
        let kinds = [
            ShiftKind::Arithmetic,
            ShiftKind::Rotate,
            ShiftKind::Zero,
            ShiftKind::Link,
        ];
        let values = [
            0,
            1,
            2,
            3,
            0x5555,
            0x7fff,
            0x8000,
            0x8001,
            0xabcd,
            0xfffe,
            0xffff,
            0x1_0000,
            0x1234_5678,
            0x5555_5555,
            0x7fff_ffff,
            0x8000_0000,
            0x8000_0001,
            0xdead_beef,
            0xffff_ffff,
        ];
        for kind in kinds {
            for width in [16, 32] {
                for value in values.map(|v: u32| if width == 16 { v & 0xffff } else { v }) {
                    for m in [false, true] {
                        for count in -32..=31 {
                            let mut expected = (value, m);
                            for _ in 0..i16::abs(count) {
                                let (value, m) = expected;
                                expected = single(kind, value, width, count > 0, m);
                            }
                            let answer = shift(kind, value, width, count, m);
                            assert_eq!(answer, expected, "{kind:?} {value:x} {count} {m}");
                        }
                    }
                }
            }
        }
    }

    /// The cases of ruling D4, by the signs of the operands and of the result.
    fn flags_by_signs(a: u16, b: u16, value: u16) -> (bool, bool) {
        let negative = |word: u16| word >= 0o100000;
        if negative(a) == negative(b) {
            (negative(a), negative(value) != negative(a))
        } else {
            (!negative(value), false)
        }
    }

    #[test]
    fn adder_by_signs() {
        let ends = [
            0, 1, 0o77776, 0o77777, 0o100000, 0o100001, 0o177776, 0o177777,
        ];
        for a in 0..=0o177777u16 {
            for b in ends {
                for carry in [false, true] {
                    let sum = add(a, b, carry);
                    let value = a.wrapping_add(b).wrapping_add(carry.into());
                    let (c, o) = flags_by_signs(a, b, value);
                    let given = (sum.value, sum.carry, sum.overflow);
                    assert_eq!(given, (value, c, o), "{a:o} {b:o} {carry}");
                }
            }
        }
    }
}
