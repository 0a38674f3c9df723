//! Whole numbers of any size.

use std::cmp::Ordering;
use std::ops::{Add, Mul, Neg, Sub};

/// A signed whole number: sign and magnitude, 32 bits a digit, lowest first,
/// without leading zeros; 0 is not negative.
#[derive(Clone, Debug, Default, PartialEq, Eq)]
pub struct Whole {
    negative: bool,
    digits: Vec<u32>,
}

impl Whole {
    fn new(negative: bool, mut digits: Vec<u32>) -> Self {
        while digits.last() == Some(&0) {
            digits.pop();
        }
        Whole {
            negative: negative && !digits.is_empty(),
            digits,
        }
    }

    /// The magnitude.
    pub fn abs(&self) -> Self {
        Whole::new(false, self.digits.clone())
    }
}

impl From<i64> for Whole {
    fn from(value: i64) -> Self {
        let magnitude = value.unsigned_abs();
        let digits = vec![magnitude as u32, (magnitude >> 32) as u32];
        Whole::new(value < 0, digits)
    }
}

fn compare(left: &[u32], right: &[u32]) -> Ordering {
    let by_length = left.len().cmp(&right.len());
    by_length.then_with(|| left.iter().rev().cmp(right.iter().rev()))
}

fn sum(left: &[u32], right: &[u32]) -> Vec<u32> {
    let mut digits = Vec::with_capacity(left.len().max(right.len()) + 1);
    let mut carry = 0;
    for place in 0..left.len().max(right.len()) {
        let digit = |digits: &[u32]| u64::from(digits.get(place).copied().unwrap_or(0));
        let total = digit(left) + digit(right) + carry;
        digits.push(total as u32);
        carry = total >> 32;
    }
    digits.push(carry as u32);
    digits
}

/// The difference of magnitudes, the greater one first.
fn difference(greater: &[u32], smaller: &[u32]) -> Vec<u32> {
    let mut borrow = 0;
    let subtract = |(place, &digit): (usize, &u32)| {
        let taken = i64::from(smaller.get(place).copied().unwrap_or(0)) + borrow;
        let left = i64::from(digit) - taken;
        borrow = i64::from(left < 0);
        left as u32
    };
    greater.iter().enumerate().map(subtract).collect()
}

impl Add for &Whole {
    type Output = Whole;

    fn add(self, other: &Whole) -> Whole {
        if self.negative == other.negative {
            return Whole::new(self.negative, sum(&self.digits, &other.digits));
        }
        match compare(&self.digits, &other.digits) {
            Ordering::Less => Whole::new(other.negative, difference(&other.digits, &self.digits)),
            _ => Whole::new(self.negative, difference(&self.digits, &other.digits)),
        }
    }
}

impl Neg for &Whole {
    type Output = Whole;

    fn neg(self) -> Whole {
        Whole::new(!self.negative, self.digits.clone())
    }
}

impl Sub for &Whole {
    type Output = Whole;

    fn sub(self, other: &Whole) -> Whole {
        self + &-other
    }
}

impl Mul for &Whole {
    type Output = Whole;

    fn mul(self, other: &Whole) -> Whole {
        let mut digits = vec![0; self.digits.len() + other.digits.len()];
        for (shift, &left) in self.digits.iter().enumerate() {
            let mut carry = 0;
            for (place, &right) in other.digits.iter().enumerate() {
                let old = u64::from(digits[shift + place]);
                let total = u64::from(left) * u64::from(right) + old + carry;
                digits[shift + place] = total as u32;
                carry = total >> 32;
            }
            digits[shift + other.digits.len()] = carry as u32;
        }
        Whole::new(self.negative != other.negative, digits)
    }
}

impl Ord for Whole {
    fn cmp(&self, other: &Whole) -> Ordering {
        match (self.negative, other.negative) {
            (false, true) => Ordering::Greater,
            (true, false) => Ordering::Less,
            (false, false) => compare(&self.digits, &other.digits),
            (true, true) => compare(&other.digits, &self.digits),
        }
    }
}

impl PartialOrd for Whole {
    fn partial_cmp(&self, other: &Whole) -> Option<Ordering> {
        Some(self.cmp(other))
    }
}

#[cfg(test)]
mod tests {
    use super::*;
    use crate::generate::Rng;

    /// A number within ±2^62, of any length in bits.
    fn draw(rng: &mut Rng) -> i64 {
        let value = rng.draw() as i64 >> 1;
        value >> rng.below(63)
    }

    fn of_wide(value: i128) -> Whole {
        let limb = Whole::from(1 << 32);
        let part = |shift: u32| Whole::from((value.unsigned_abs() >> shift) as u32 as i64);
        let joined = [96, 64, 32, 0].map(part).into_iter();
        let magnitude = joined.fold(Whole::from(0), |high, low| &(&high * &limb) + &low);
        if value < 0 {
            -&magnitude
        } else {
            magnitude
        }
    }

    #[test]
    fn arithmetic_agrees_with_128_bits() {
        let mut rng = Rng::new(11);
        for _ in 0..20_000 {
            let (a, b) = (draw(&mut rng), draw(&mut rng));
            let (x, y) = (Whole::from(a), Whole::from(b));
            assert_eq!(&x + &y, of_wide(i128::from(a) + i128::from(b)), "{a} + {b}");
            assert_eq!(&x - &y, of_wide(i128::from(a) - i128::from(b)), "{a} - {b}");
            assert_eq!(&x * &y, of_wide(i128::from(a) * i128::from(b)), "{a} * {b}");
            assert_eq!(x.cmp(&y), a.cmp(&b), "{a} against {b}");
            assert_eq!(x.abs(), of_wide(i128::from(a).abs()), "|{a}|");
        }
    }

    #[test]
    fn products_distribute_at_great_length() {
        let mut rng = Rng::new(12);
        let mut big = Whole::from(1);
        for _ in 0..200 {
            let factor = Whole::from(draw(&mut rng));
            let term = Whole::from(draw(&mut rng));
            let next = &(&big * &factor) + &term;
            assert_eq!(&(&next - &term) * &term, &(&big * &term) * &factor);
            assert_eq!(next.cmp(&term), (&next - &term).cmp(&Whole::from(0)));
            if next.abs() > Whole::from(0) {
                big = next;
            }
        }
        assert!(big.abs() > of_wide(i128::MAX));
    }
}
