//! Free numbers in the order of their freeing: document 02, E11.

use crate::limits::{BLOCKS, LISTS};

/// Free numbers of one kind, from 1 to `GREATEST`: first the one "that has been free longest".
#[derive(Clone, Copy, PartialEq, Eq, Debug)]
pub struct Order<const GREATEST: usize> {
    numbers: [u8; GREATEST],
    /// How many of `numbers` count.
    count: u8,
}

impl<const GREATEST: usize> Order<GREATEST> {
    /// "Numbers never used come first, ascending."
    pub const NEVER_USED: Order<GREATEST> = {
        let mut numbers = [0; GREATEST];
        let mut at = 0;
        while at < GREATEST {
            numbers[at] = at as u8 + 1;
            at += 1;
        }
        Order {
            numbers,
            count: GREATEST as u8,
        }
    };

    /// These numbers in this order, of which there are no more than `GREATEST`.
    pub const fn listing(listed: &[u8]) -> Order<GREATEST> {
        let mut numbers = [0; GREATEST];
        let mut at = 0;
        while at < listed.len() {
            numbers[at] = listed[at];
            at += 1;
        }
        Order {
            numbers,
            count: listed.len() as u8,
        }
    }

    /// The numbers listed, the one that has been free longest first.
    pub fn listed(&self) -> &[u8] {
        &self.numbers[..usize::from(self.count)]
    }

    /// The number that has been free longest.
    pub fn first(&self) -> Option<u8> {
        self.listed().first().copied()
    }

    /// Whether `number` is listed.
    pub fn has(&self, number: u8) -> bool {
        self.listed().contains(&number)
    }

    /// `number` is free no more, wherever it stands; nothing changes if it is not listed.
    pub fn remove(&mut self, number: u8) {
        if let Some(position) = self.listed().iter().position(|&listed| listed == number) {
            self.numbers
                .copy_within(position + 1..usize::from(self.count), position);
            self.count -= 1;
        }
    }

    /// `number`, which is not listed, is free from now on.
    pub fn add(&mut self, number: u8) {
        self.numbers[usize::from(self.count)] = number;
        self.count += 1;
    }

    /// "Each free number and no other listed, once"; "their order" is believed.
    pub fn lists_what_is_free(&self, is_free: impl Fn(u8) -> bool) -> bool {
        let free = (1..=GREATEST as u8).filter(|&number| is_free(number));
        free.clone().count() == self.listed().len() && free.clone().all(|number| self.has(number))
    }
}

/// The free numbers of both kinds.
#[derive(Clone, Copy, PartialEq, Eq, Debug)]
pub struct Free {
    /// The free blocks.
    pub blocks: Order<{ BLOCKS as usize }>,
    /// The free lists.
    pub lists: Order<{ LISTS as usize }>,
}

impl Free {
    /// No number was ever used.
    pub const NEVER_USED: Free = Free {
        blocks: Order::NEVER_USED,
        lists: Order::NEVER_USED,
    };
}

#[cfg(test)]
mod tests {
    use super::*;

    #[test]
    fn numbers_never_used_ascend() {
        assert_eq!(Free::NEVER_USED.blocks.listed(), (1..=64).collect::<Vec<u8>>());
        assert_eq!(Free::NEVER_USED.lists.listed(), (1..=16).collect::<Vec<u8>>());
    }

    /// A number goes wherever it stands, and comes back at the end.
    #[test]
    fn a_number_freed_is_the_last() {
        let mut order = Order::<4>::NEVER_USED;
        order.remove(2);
        assert_eq!(order.listed(), [1, 3, 4]);
        order.remove(4);
        order.remove(2);
        assert_eq!(order.listed(), [1, 3]);
        order.add(2);
        assert_eq!((order.listed(), order.first()), (&[1, 3, 2][..], Some(1)));
        for number in 1..=3 {
            order.remove(number);
        }
        assert_eq!((order.listed(), order.first()), (&[][..], None));
        order.add(4);
        assert_eq!(order.listed(), [4]);
    }

    /// "Each free number and no other listed, once".
    #[test]
    fn what_is_listed_is_judged_and_its_order_is_not() {
        let is_free = |number: u8| number != 2;
        for listed in [&[1, 3, 4][..], &[4, 1, 3], &[3, 4, 1]] {
            assert!(Order::<4>::listing(listed).lists_what_is_free(is_free));
        }
        for listed in [
            &[1, 3][..],
            &[1, 3, 3],
            &[1, 3, 3, 4],
            &[1, 2, 3, 4],
            &[1, 2, 3],
            &[0, 1, 3, 4],
            &[5, 1, 3],
            &[],
        ] {
            assert!(!Order::<4>::listing(listed).lists_what_is_free(is_free));
        }
    }
}
