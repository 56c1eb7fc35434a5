//! A heap of numbers with four below each: half as deep as a binary one, and
//! the four lie in one line of the cache.

#[derive(Default)]
pub struct Heap {
    numbers: Vec<u64>,
}

impl Heap {
    #[inline(always)]
    pub fn push(&mut self, number: u64) {
        let numbers = &mut self.numbers;
        let mut at = numbers.len();
        numbers.push(number);
        while at > 0 {
            let above = (at - 1) / 4;
            if numbers[above] <= number {
                break;
            }
            numbers[at] = numbers[above];
            at = above;
        }
        numbers[at] = number;
    }

    /// Takes the least away.
    #[inline(always)]
    pub fn pop(&mut self) -> Option<u64> {
        let last = self.numbers.pop()?;
        let Some(&least) = self.numbers.first() else {
            return Some(last);
        };
        let mut at = 0;
        while let Some(below) = self.least_below(at) {
            if last <= self.numbers[below] {
                break;
            }
            self.numbers[at] = self.numbers[below];
            at = below;
        }
        self.numbers[at] = last;
        Some(least)
    }

    /// Where the least of the four below a place stands. Two pairs are compared
    /// at once: the processor need not wait for one to begin the other.
    #[inline(always)]
    fn least_below(&self, at: usize) -> Option<usize> {
        let first = 4 * at + 1;
        if let Some(four) = self.numbers.get(first..first + 4) {
            let one = usize::from(four[1] < four[0]);
            let other = 2 + usize::from(four[3] < four[2]);
            let least = if four[other] < four[one] { other } else { one };
            return Some(first + least);
        }
        (first..self.numbers.len()).min_by_key(|&place| self.numbers[place])
    }
}

#[cfg(test)]
mod tests {
    use std::cmp::Reverse;
    use std::collections::BinaryHeap;

    use outside::rng::Rng;

    use super::*;

    #[test]
    fn numbers_come_as_from_the_library_heap() {
        let mut rng = Rng::new(4, 4);
        let (mut own, mut right) = (Heap::default(), BinaryHeap::new());
        for _ in 0..20_000 {
            match rng.chance(55) {
                true => {
                    let number = rng.below(5_000) as u64;
                    own.push(number);
                    right.push(Reverse(number));
                }
                false => assert_eq!(own.pop(), right.pop().map(|Reverse(number)| number)),
            }
        }
        while let Some(Reverse(number)) = right.pop() {
            assert_eq!(own.pop(), Some(number));
        }
        assert_eq!(own.pop(), None);
    }
}
