//! Natural numbers of any size, as far as exact fractions need them.

use std::cmp::Ordering;

/// 32 bits a digit, the lowest first, without leading zeros.
#[derive(Clone, Debug, PartialEq, Eq)]
pub struct Natural(Vec<u32>);

impl Natural {
    pub fn new(value: u64) -> Self {
        Self(vec![value as u32, (value >> 32) as u32]).trimmed()
    }

    fn trimmed(mut self) -> Self {
        while self.0.last() == Some(&0) {
            self.0.pop();
        }
        self
    }

    pub fn add(&self, other: &Self) -> Self {
        let digit = |number: &Self, i: usize| u64::from(number.0.get(i).copied().unwrap_or(0));
        let mut carry = 0;
        let digits = (0..=self.0.len().max(other.0.len())).map(|i| {
            let sum = digit(self, i) + digit(other, i) + carry;
            carry = sum >> 32;
            sum as u32
        });
        Self(digits.collect()).trimmed()
    }

    /// The distance of the two.
    pub fn apart(&self, other: &Self) -> Self {
        let (more, less) =
            if self.cmp(other) == Ordering::Less { (other, self) } else { (self, other) };
        let mut borrow = 0;
        let digits = more.0.iter().enumerate().map(|(i, &digit)| {
            let taken = u64::from(less.0.get(i).copied().unwrap_or(0)) + borrow;
            borrow = u64::from(u64::from(digit) < taken);
            (u64::from(digit) + (borrow << 32) - taken) as u32
        });
        Self(digits.collect()).trimmed()
    }

    pub fn times(&self, other: &Self) -> Self {
        let mut digits = vec![0_u32; self.0.len() + other.0.len()];
        for (i, &a) in self.0.iter().enumerate() {
            let mut carry = 0;
            for (j, &b) in other.0.iter().enumerate() {
                let sum = u64::from(a) * u64::from(b) + u64::from(digits[i + j]) + carry;
                digits[i + j] = sum as u32;
                carry = sum >> 32;
            }
            digits[i + other.0.len()] = carry as u32;
        }
        Self(digits).trimmed()
    }

    /// Times 2^count.
    pub fn shifted(&self, count: usize) -> Self {
        let mut digits = vec![0; count / 32];
        digits.extend(&self.0);
        Self(digits).trimmed().times(&Self::new(1 << (count % 32)))
    }

    pub fn cmp(&self, other: &Self) -> Ordering {
        let by_length = self.0.len().cmp(&other.0.len());
        by_length.then_with(|| self.0.iter().rev().cmp(other.0.iter().rev()))
    }

    /// Size and p where the number is about size · 2^p, by its first three digits.
    pub fn leading(&self) -> (f64, i32) {
        let first = self.0.iter().rev().take(3).rev();
        let size = first.fold(0.0, |sum, &digit| sum / 4294967296.0 + f64::from(digit));
        (size, 32 * (self.0.len() as i32 - 1))
    }
}

#[cfg(test)]
mod tests {
    use super::Natural;
    use std::cmp::Ordering;

    #[test]
    fn sums_products_and_distances_of_128_bits() {
        let natural = |value: u128| {
            Natural::new((value >> 64) as u64).shifted(64).add(&Natural::new(value as u64))
        };
        let values = [0, 1, 0xffff_ffff, 1 << 32, (1 << 63) - 1, 0xdead_beef_0000_0001_u128 << 20];
        for a in values {
            for b in values {
                assert_eq!(natural(a).add(&natural(b)), natural(a + b));
                assert_eq!(natural(a).apart(&natural(b)), natural(a.abs_diff(b)));
                assert_eq!(natural(a).cmp(&natural(b)), a.cmp(&b));
                if let Some(product) = a.checked_mul(b) {
                    assert_eq!(natural(a).times(&natural(b)), natural(product));
                }
            }
            let (size, power) = natural(a).leading();
            assert_eq!(size * 2.0_f64.powi(power), a as f64);
        }
        assert_eq!(Natural::new(3).cmp(&Natural::new(1).shifted(70)), Ordering::Less);
    }
}
