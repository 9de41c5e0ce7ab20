//! Whole numbers wide enough for the matrices of long strings.

/// A whole number of N words in two's complement, least word first. Each result is tested to fit.
#[derive(Clone, Copy, PartialEq, Eq)]
pub struct Whole<const N: usize>([u64; N]);

const WORD: u32 = 64;

impl<const N: usize> Whole<N> {
    pub const ZERO: Self = Whole([0; N]);

    pub fn from(value: i64) -> Self {
        let mut words = [if value < 0 { u64::MAX } else { 0 }; N];
        words[0] = value as u64;
        Whole(words)
    }

    /// The number, where 64 bits hold it.
    pub fn small(self) -> Option<i64> {
        let value = self.0[0] as i64;
        if Self::from(value) == self {
            Some(value)
        } else {
            None
        }
    }

    pub fn odd(self) -> bool {
        self.0[0] & 1 == 1
    }

    fn negative(self) -> bool {
        self.0[N - 1] >> (WORD - 1) == 1
    }

    pub fn plus(self, other: Self) -> Self {
        let mut words = [0; N];
        let mut carry = false;
        for i in 0..N {
            let (part, over) = self.0[i].overflowing_add(other.0[i]);
            let (sum, more) = part.overflowing_add(carry as u64);
            words[i] = sum;
            carry = over | more;
        }
        let sum = Whole(words);
        assert!(self.negative() != other.negative() || sum.negative() == self.negative(), "a sum outgrew its words");
        sum
    }

    pub fn minus(self, other: Self) -> Self {
        let mut words = [0; N];
        let mut borrow = false;
        for i in 0..N {
            let (part, under) = self.0[i].overflowing_sub(other.0[i]);
            let (difference, more) = part.overflowing_sub(borrow as u64);
            words[i] = difference;
            borrow = under | more;
        }
        let difference = Whole(words);
        let fits = self.negative() == other.negative() || difference.negative() == self.negative();
        assert!(fits, "a difference outgrew its words");
        difference
    }

    pub fn negated(self) -> Self {
        Self::ZERO.minus(self)
    }

    /// Half of an even number.
    pub fn halved(self) -> Self {
        assert!(!self.odd(), "an odd number was halved");
        let mut words = self.0;
        for i in 0..N {
            let above = if i + 1 < N { self.0[i + 1] } else { self.0[i] >> (WORD - 1) };
            words[i] = self.0[i] >> 1 | above << (WORD - 1);
        }
        Whole(words)
    }

    /// How many bits the number has beside its sign.
    fn bits(self) -> u32 {
        let sign = if self.negative() { u64::MAX } else { 0 };
        match (0..N).rev().find(|&i| self.0[i] != sign) {
            Some(i) => WORD * (i as u32 + 1) - (self.0[i] ^ sign).leading_zeros(),
            None => 0,
        }
    }

    pub fn times(self, other: Self) -> Self {
        assert!(self.bits() + other.bits() + 1 < WORD * N as u32, "a product outgrew its words");
        let mut words = [0; N];
        for i in 0..N {
            let mut carry = 0;
            for j in 0..N - i {
                let part = self.0[i] as u128 * other.0[j] as u128 + words[i + j] as u128 + carry as u128;
                words[i + j] = part as u64;
                carry = (part >> WORD) as u64;
            }
        }
        Whole(words)
    }
}
