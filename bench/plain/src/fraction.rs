//! Fractions in lowest terms within document 01's limits.
//!
//! What needs a common divisor is kept out of line, so that whole numbers,
//! by far the most frequent, take a short straight path.

/// The largest numerator and the largest denominator.
const LIMIT: i64 = 2_147_483_647;

/// A fraction in lowest terms: `den` is at least 1, zero is 0/1, and neither
/// `num` nor `-num` nor `den` is above [`LIMIT`].
#[derive(Clone, Copy, PartialEq, Eq, Debug)]
pub struct Fraction {
    pub num: i32,
    pub den: i32,
}

impl Fraction {
    pub const ZERO: Fraction = Fraction { num: 0, den: 1 };
    pub const ONE: Fraction = Fraction { num: 1, den: 1 };

    /// mantissa / 2^shift. Always within the limits.
    pub fn scaled(mantissa: i16, shift: u32) -> Fraction {
        if mantissa == 0 {
            return Fraction::ZERO;
        }
        let common = mantissa.trailing_zeros().min(shift);
        Fraction { num: i32::from(mantissa) >> common, den: 1 << (shift - common) }
    }

    /// Whether two numbers, as found in a list, are such a fraction.
    pub fn is_lowest(num: i32, den: i32) -> bool {
        num != i32::MIN && den >= 1 && gcd(num, den) == 1
    }

    #[inline]
    pub fn is_zero(self) -> bool {
        self.num == 0
    }

    #[inline]
    pub fn negated(self) -> Fraction {
        Fraction { num: -self.num, den: self.den }
    }

    /// One over this fraction, which must not be zero.
    pub fn reciprocal(self) -> Fraction {
        if self.num < 0 {
            Fraction { num: -self.den, den: -self.num }
        } else {
            Fraction { num: self.den, den: self.num }
        }
    }

    /// The product, or nothing if it is outside the limits.
    ///
    /// Each numerator is reduced by the other denominator first; what is left
    /// has no common divisor.
    #[inline(always)]
    pub fn times(self, other: Fraction) -> Option<Fraction> {
        let (a, d) = reduced(self.num, other.den);
        let (c, b) = reduced(other.num, self.den);
        within_limits(product(a, c), product(b, d))
    }

    /// The sum, or nothing if it is outside the limits.
    #[inline(always)]
    pub fn plus(self, other: Fraction) -> Option<Fraction> {
        if self.den == 1 && other.den == 1 {
            return within_limits(i64::from(self.num) + i64::from(other.num), 1);
        }
        self.plus_over_common(other)
    }

    /// The difference, or nothing if it is outside the limits.
    #[inline]
    pub fn minus(self, other: Fraction) -> Option<Fraction> {
        self.plus(other.negated())
    }

    /// The sum over the least common denominator. Only a divisor of `shared`
    /// can divide both the numerator and the denominator there.
    #[inline(never)]
    fn plus_over_common(self, other: Fraction) -> Option<Fraction> {
        let shared = gcd(self.den, other.den);
        if shared == 1 {
            let num = product(self.num, other.den) + product(other.num, self.den);
            return within_limits(num, product(self.den, other.den));
        }
        let (own, others) = (self.den / shared, other.den / shared);
        let num = product(self.num, others) + product(other.num, own);
        let left = (num % i64::from(shared)) as i32;
        let common = gcd(left, shared);
        if common == 1 {
            return within_limits(num, product(own, other.den));
        }
        within_limits(num / i64::from(common), product(own, other.den / common))
    }
}

#[inline]
fn product(one: i32, other: i32) -> i64 {
    i64::from(one) * i64::from(other)
}

/// A numerator and a denominator without their common divisor.
#[inline(always)]
fn reduced(num: i32, den: i32) -> (i32, i32) {
    if den == 1 {
        (num, den)
    } else {
        divided_by_gcd(num, den)
    }
}

#[inline(never)]
fn divided_by_gcd(num: i32, den: i32) -> (i32, i32) {
    let common = gcd(num, den);
    if common == 1 {
        return (num, den);
    }
    (num / common, den / common)
}

/// Tests numbers that are in lowest terms already.
#[inline]
fn within_limits(num: i64, den: i64) -> Option<Fraction> {
    if (-LIMIT..=LIMIT).contains(&num) && den <= LIMIT {
        Some(Fraction { num: num as i32, den: den as i32 })
    } else {
        None
    }
}

/// The greatest common divisor of a number of any sign and a positive one, by
/// halving and subtracting.
#[inline]
fn gcd(first: i32, second: i32) -> i32 {
    if first == 0 {
        return second;
    }
    let (first, second) = (first.unsigned_abs(), second.unsigned_abs());
    let twos = (first | second).trailing_zeros();
    let mut a = first >> first.trailing_zeros();
    let mut b = second >> second.trailing_zeros();
    if a == 1 || b == 1 {
        return 1 << twos;
    }
    // Both stay odd, so that their distance is even.
    while a != b {
        let halvings = a.wrapping_sub(b).trailing_zeros();
        (a, b) = (a.min(b), a.abs_diff(b) >> halvings);
    }
    (a << twos) as i32
}

#[cfg(test)]
mod tests {
    use super::*;

    fn euclid(a: u64, b: u64) -> u64 {
        if b == 0 {
            a
        } else {
            euclid(b, a % b)
        }
    }

    /// A fraction from any two numbers, the slow way.
    fn slow(num: i128, den: i128) -> Option<Fraction> {
        let common = euclid_wide(num.unsigned_abs(), den.unsigned_abs()) as i128;
        let sign = if den < 0 { -1 } else { 1 };
        let (num, den) = (sign * num / common, sign * den / common);
        let limit = i128::from(LIMIT);
        (num.abs() <= limit && den <= limit)
            .then_some(Fraction { num: num as i32, den: den as i32 })
    }

    fn euclid_wide(a: u128, b: u128) -> u128 {
        if b == 0 {
            a
        } else {
            euclid_wide(b, a % b)
        }
    }

    /// Numbers at and around every size that matters.
    fn numbers() -> Vec<i32> {
        let mut all = vec![1, 2, 3, 5, 6, 7, 12, 30, 97, 210, 32_767, 32_768, 65_535, 65_537];
        for power in [16, 20, 24, 28, 29, 30] {
            all.extend([(1 << power) - 1, 1 << power, (1 << power) + 1]);
        }
        all.extend([i32::MAX, i32::MAX - 1, i32::MAX / 2, i32::MAX / 3, 2_147_483_629]);
        all
    }

    fn fractions() -> Vec<Fraction> {
        let mut all = vec![Fraction::ZERO];
        for &num in &numbers() {
            for &den in &numbers() {
                if euclid(num as u64, den as u64) == 1 {
                    all.push(Fraction { num, den });
                    all.push(Fraction { num: -num, den });
                }
            }
        }
        all
    }

    #[test]
    fn gcd_is_euclids() {
        for &a in &numbers() {
            for &b in &numbers() {
                assert_eq!(gcd(a, b) as u64, euclid(a as u64, b as u64));
                assert_eq!(gcd(-a, b), gcd(a, b));
            }
            assert_eq!(gcd(0, a), a);
        }
    }

    #[test]
    fn operations_are_those_of_fractions() {
        let all = fractions();
        for &x in &all {
            let (a, b) = (i128::from(x.num), i128::from(x.den));
            if !x.is_zero() {
                assert_eq!(Some(x.reciprocal()), slow(b, a));
            }
            for &y in &all {
                let (c, d) = (i128::from(y.num), i128::from(y.den));
                assert_eq!(x.times(y), slow(a * c, b * d), "{x:?} times {y:?}");
                assert_eq!(x.plus(y), slow(a * d + c * b, b * d), "{x:?} plus {y:?}");
                assert_eq!(x.minus(y), slow(a * d - c * b, b * d), "{x:?} minus {y:?}");
            }
        }
    }

    #[test]
    fn scaled_is_reduced() {
        for mantissa in i16::MIN..=i16::MAX {
            for shift in 0..16 {
                let want = slow(i128::from(mantissa), 1 << shift).unwrap();
                assert_eq!(Fraction::scaled(mantissa, shift), want);
            }
        }
    }

    #[test]
    fn lowest_terms_are_recognised() {
        for (num, den) in [(0, 1), (1, 1), (-3, 2), (i32::MAX, 1), (-i32::MAX, 2), (1, i32::MAX)] {
            assert!(Fraction::is_lowest(num, den), "{num}/{den}");
        }
        for (num, den) in [(0, 2), (0, 0), (1, 0), (2, 4), (1, -1), (i32::MIN, 1), (1, i32::MIN)] {
            assert!(!Fraction::is_lowest(num, den), "{num}/{den}");
        }
    }
}
