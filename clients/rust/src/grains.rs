//! Interval arithmetic in grains, with every end rounded outwards.
//!
//! Figures lie within ±2^31, so a product of two is at most 2^62 and a dividend
//! at most 2^45: 64 bits hold every step.

use crate::refusal::Refusal;

/// One is this many grains, 2 to the power of `SHIFT`.
pub const ONE: i64 = 1 << SHIFT;
const SHIFT: u32 = 14;

/// The greatest figure; the least is its negative. Both are allowed.
pub const SPAN: i64 = 1 << 31;

/// Why an operation has no answer.
#[derive(Clone, Copy, Debug, PartialEq, Eq)]
pub enum ArithmeticError {
    DivisorContainsZero,
    OutsideSpan,
}

impl From<ArithmeticError> for Refusal {
    fn from(error: ArithmeticError) -> Self {
        match error {
            ArithmeticError::DivisorContainsZero => Refusal::PivotContainsZero,
            ArithmeticError::OutsideSpan => Refusal::OutsideSpan,
        }
    }
}

/// All numbers from `low` to `high`, both included, in grains.
#[derive(Clone, Copy, Debug, PartialEq, Eq)]
pub struct Interval {
    low: i64,
    high: i64,
}

impl Interval {
    pub const ZERO: Self = Self { low: 0, high: 0 };

    /// None where the ends are out of order or outside the span.
    pub fn new(low: i64, high: i64) -> Option<Self> {
        let inside = -SPAN <= low && low <= high && high <= SPAN;
        inside.then_some(Self { low, high })
    }

    /// The interval between two numbers of ones. The caller has them in order
    /// and within ±131,072.
    #[inline(always)]
    pub(crate) fn from_ones(low: i32, high: i32) -> Self {
        debug_assert!(low <= high && i64::from(low.abs().max(high.abs())) <= SPAN / ONE);
        Self {
            low: i64::from(low) << SHIFT,
            high: i64::from(high) << SHIFT,
        }
    }

    pub fn low(self) -> i64 {
        self.low
    }

    pub fn high(self) -> i64 {
        self.high
    }

    #[inline(always)]
    pub fn contains_zero(self) -> bool {
        self.low <= 0 && 0 <= self.high
    }

    #[inline(always)]
    pub fn difference(self, other: Self) -> Result<Self, ArithmeticError> {
        in_span(self.low - other.high, self.high - other.low)
    }

    #[inline(always)]
    pub fn product(self, other: Self) -> Result<Self, ArithmeticError> {
        let (least, greatest) = if self.low >= 0 {
            self.extreme_products(other)
        } else if self.high <= 0 {
            self.negated().extreme_products(other.negated())
        } else {
            (
                (self.low * other.high).min(self.high * other.low),
                (self.low * other.low).max(self.high * other.high),
            )
        };
        in_span(least >> SHIFT, (greatest + (ONE - 1)) >> SHIFT)
    }

    #[inline(always)]
    pub fn quotient(self, divisor: Self) -> Result<Self, ArithmeticError> {
        if divisor.contains_zero() {
            return Err(ArithmeticError::DivisorContainsZero);
        }
        let (x, y) = if divisor.low > 0 {
            (self, divisor)
        } else {
            (self.negated(), divisor.negated())
        };
        // Over a positive divisor a sign says which end of it gives the extreme.
        let under_low = if x.low < 0 { y.low } else { y.high };
        let under_high = if x.high < 0 { y.high } else { y.low };
        in_span(
            (x.low << SHIFT).div_euclid(under_low),
            -(-x.high << SHIFT).div_euclid(under_high),
        )
    }

    /// None where the two have no number in common.
    pub fn common(self, other: Self) -> Option<Self> {
        let low = self.low.max(other.low);
        let high = self.high.min(other.high);
        (low <= high).then_some(Self { low, high })
    }

    /// The least and the greatest product of ends, where no end of self is
    /// negative: the signs of the other's ends say which they are.
    #[inline(always)]
    fn extreme_products(self, other: Self) -> (i64, i64) {
        let for_low = if other.low < 0 { self.high } else { self.low };
        let for_high = if other.high < 0 { self.low } else { self.high };
        (for_low * other.low, for_high * other.high)
    }

    #[inline(always)]
    fn negated(self) -> Self {
        Self {
            low: -self.high,
            high: -self.low,
        }
    }
}

/// The interval with these ends, which are in order.
#[inline(always)]
fn in_span(low: i64, high: i64) -> Result<Interval, ArithmeticError> {
    if low < -SPAN || high > SPAN {
        return Err(ArithmeticError::OutsideSpan);
    }
    Ok(Interval { low, high })
}

#[cfg(test)]
mod tests {
    use super::*;

    fn ones(low: i64, high: i64) -> Interval {
        grains(low * ONE, high * ONE)
    }

    fn grains(low: i64, high: i64) -> Interval {
        Interval::new(low, high).unwrap()
    }

    #[test]
    fn worked_quotients() {
        assert_eq!(ones(1, 1).quotient(ones(3, 3)), Ok(grains(5461, 5462)));
        assert_eq!(ones(-1, -1).quotient(ones(3, 3)), Ok(grains(-5462, -5461)));
        assert_eq!(ones(1, 3).quotient(ones(2, 4)), Ok(grains(4096, 24576)));
        let zero_inside = Err(ArithmeticError::DivisorContainsZero);
        assert_eq!(ones(1, 1).quotient(ones(-1, 1)), zero_inside);
        assert_eq!(ones(1, 1).quotient(ones(0, 1)), zero_inside);
        assert_eq!(ones(1, 1).quotient(ones(-1, 0)), zero_inside);
    }

    #[test]
    fn worked_differences_products_and_common_parts() {
        assert_eq!(ones(1, 3).difference(ones(2, 4)), Ok(grains(-49152, 16384)));
        assert_eq!(ones(-2, 3).product(ones(1, 5)), Ok(grains(-163840, 245760)));
        assert_eq!(ones(-2, 3).common(ones(1, 5)), Some(grains(16384, 49152)));
        assert_eq!(ones(1, 2).common(ones(2, 3)), Some(ones(2, 2)));
        assert_eq!(ones(1, 2).common(ones(3, 4)), None);
        assert_eq!(grains(1, 1).product(grains(1, 1)), Ok(grains(0, 1)));
    }

    #[test]
    fn the_span_ends_are_inside() {
        let outside = Err(ArithmeticError::OutsideSpan);
        let top = grains(SPAN, SPAN);
        assert_eq!(ones(131072, 131072).product(ones(131072, 131072)), outside);
        assert_eq!(top.product(ones(1, 1)), Ok(top));
        assert_eq!(top.product(ones(-1, -1)), Ok(grains(-SPAN, -SPAN)));
        assert_eq!(top.product(grains(ONE + 1, ONE + 1)), outside);
        assert_eq!(top.difference(Interval::ZERO), Ok(top));
        assert_eq!(top.difference(grains(-1, 0)), outside);
        assert_eq!(top.quotient(ones(-1, -1)), Ok(grains(-SPAN, -SPAN)));
        assert_eq!(top.quotient(grains(ONE - 1, ONE)), outside);
        assert_eq!(Interval::new(-SPAN, SPAN + 1), None);
        assert_eq!(Interval::new(-SPAN - 1, 0), None);
        assert_eq!(Interval::new(1, 0), None);
        assert!(Interval::new(-SPAN, SPAN).is_some());
    }

    fn ratio_down(a: i64, b: i64) -> i64 {
        let (a, b) = if b < 0 { (-a, -b) } else { (a, b) };
        a.div_euclid(b)
    }

    /// The table of operations, word for word, as a check of the short cuts.
    fn by_four_ends(x: Interval, y: Interval, over: bool) -> Result<Interval, ArithmeticError> {
        let ends = [
            (x.low, y.low),
            (x.low, y.high),
            (x.high, y.low),
            (x.high, y.high),
        ];
        let down = |(a, b): (i64, i64)| {
            if over {
                ratio_down(a * ONE, b)
            } else {
                ratio_down(a * b, ONE)
            }
        };
        let low = ends.into_iter().map(down).min().unwrap();
        let high = ends.into_iter().map(|(a, b)| -down((-a, b))).max().unwrap();
        in_span(low, high)
    }

    #[test]
    fn all_small_intervals_agree_with_the_four_ends() {
        let figures = [-SPAN, -3 * ONE, -5, -1, 0, 1, 2, 7, ONE, 40_000, SPAN];
        let intervals: Vec<_> = figures
            .iter()
            .flat_map(|&low| {
                figures
                    .iter()
                    .filter_map(move |&high| Interval::new(low, high))
            })
            .collect();
        for &x in &intervals {
            for &y in &intervals {
                assert_eq!(x.product(y), by_four_ends(x, y, false), "{x:?} {y:?}");
                if !y.contains_zero() {
                    assert_eq!(x.quotient(y), by_four_ends(x, y, true), "{x:?} {y:?}");
                }
            }
        }
    }
}
