//! Every operator number with every payload variant and every bit above them in a word of kind 1 (card 7), beside a plain model. A word is
//! put together here, and what it was put together from says the answer: no word is taken apart, and no other model is asked.

/// What a word is put together from.
#[derive(Copy, Clone, Debug)]
pub struct Head {
    pub kind: u32,
    /// The operator's number, of twelve bits.
    pub number: u32,
    /// The payload's variant, of four bits.
    pub variant: u32,
    /// A bit from 16 on.
    pub bit: Option<u32>,
}

impl Head {
    pub fn word(self) -> u32 {
        let (upper, lower) = (self.number / 256, self.number % 256);
        let above = self.bit.map_or(0, |bit| 2u32.pow(bit));
        self.kind * 2u32.pow(29) + above + upper * 4_096 + self.variant * 256 + lower
    }

    fn is_host(self) -> bool {
        (256..=1_023).contains(&self.number)
    }

    /// The first of answers 8 to 11 that the word is turned back with.
    pub fn fault(self) -> Option<u32> {
        if self.kind != 1 {
            return Some(8);
        }
        if self.number > 110 && !self.is_host() {
            return Some(9);
        }
        if self.variant > 12 {
            return Some(10);
        }
        self.bit.map(|_| 11)
    }

    /// Whether a leaf of this number is plain.
    pub fn is_plain_leaf(self) -> bool {
        let listed = [40, 42, 43, 44, 46, 47, 48, 49, 61, 62, 76];
        listed.contains(&self.number) || self.is_host()
    }

    /// A token's words with this as the first; what it carries is 0 under variant 0.
    pub fn token(self) -> [u32; 5] {
        let value = if self.variant == 0 { 0 } else { 0xA5A5 };
        let rest = [(2, 7), (3, 3), (4, value), (5, value)];
        let [start, end, upper, lower] = rest.map(|(kind, low)| kind * 2u32.pow(29) + low);
        [self.word(), start, end, upper, lower]
    }

    /// The words of a leaf of this token, which closes at its end.
    pub fn leaf(self) -> [u32; 7] {
        let [first, start, end, upper, lower] = self.token();
        [first, start, end, upper, lower, 6 << 29, 7 << 29 | 3]
    }
}

/// Every number of twelve bits with every variant of four: as a word of kind 1 without another bit and with each from 16 to 28, and as one
/// of each other kind.
pub fn every_head() -> impl Iterator<Item = Head> {
    let other_kinds = [0, 2, 3, 4, 5, 6, 7].map(|kind| (kind, None));
    let bits = (16..=28).map(|bit| (1, Some(bit)));
    let kinds: Vec<_> = other_kinds
        .into_iter()
        .chain([(1, None)])
        .chain(bits)
        .collect();
    (0..4_096).flat_map(move |number| {
        let kinds = kinds.clone();
        (0..16).flat_map(move |variant| {
            kinds.clone().into_iter().map(move |(kind, bit)| Head {
                kind,
                number,
                variant,
                bit,
            })
        })
    })
}

#[cfg(library)]
pub use beside::Numbers;

#[cfg(library)]
mod beside {
    use super::{Head, every_head};
    use crate::library;
    use crate::reading::{Buffers, Expected};
    use crate::stack_model::Reordered;
    use crate::writer_model::Written;
    use oracle::nesting::MOST_NESTING;
    use oracle::refusal::Call;

    /// How many words were judged, and how many of them are an operator's.
    #[derive(Default)]
    pub struct Numbers {
        buffers: Buffers,
        pub words: u64,
        pub good: u64,
    }

    impl Numbers {
        /// Has every word judged by all four entries; `progress` is called for each.
        pub fn all(&mut self, mut progress: impl FnMut()) -> Result<(), String> {
            for head in every_head() {
                self.head(head)
                    .map_err(|why| format!("{why}\nto {head:?}"))?;
                progress();
            }
            Ok(())
        }

        fn head(&mut self, head: Head) -> Result<(), String> {
            self.words += 1;
            self.good += u64::from(head.fault().is_none());
            self.read(head)?;
            written(head)?;
            reordered(head)
        }

        /// The list of one token: with no operator in the used set no pass runs, and it is its own leaf.
        fn read(&mut self, head: Head) -> Result<(), String> {
            let call = Call {
                list: head.token().to_vec(),
                tree_len: 21,
                messages_len: 16,
                work_len: 128,
                used: (0, 0),
                source_len: 9,
                version: 6,
                limit: MOST_NESTING,
            };
            let wanted = match head.fault() {
                Some(number) => Expected::Refused(number, 0),
                None => Expected::Tree(head.leaf().to_vec()),
            };
            self.buffers.call(&call, &wanted).map(|_| ())
        }
    }

    /// The leaf alone is written as its token where it is plain.
    fn written(head: Head) -> Result<(), String> {
        let mut list = [u32::MAX; 6];
        let answer = library::write(&head.leaf(), &mut list);
        let (wanted, words) = match head.fault() {
            Some(_) => (Written::Refused(12, 0), [u32::MAX; 5]),
            None if head.is_plain_leaf() => (Written::Tokens(1), head.token()),
            None => (Written::Refused(13, 0), [u32::MAX; 5]),
        };
        let same = answer == wanted && list[..5] == words && list[5] == u32::MAX;
        same.then_some(())
            .ok_or_else(|| format!("writing: {answer:?} and not {wanted:?}, {list:x?}"))
    }

    /// The leaf alone is in both orders the same.
    fn reordered(head: Head) -> Result<(), String> {
        for (number, entry) in [
            (12, library::export as fn(&[u32], &mut [u32]) -> Reordered),
            (24, library::import),
        ] {
            let mut output = [u32::MAX; 7];
            let answer = entry(&head.leaf(), &mut output);
            let (wanted, words) = match head.fault() {
                Some(_) => (Reordered::Refused(number, 0), [u32::MAX; 7]),
                None => (Reordered::Nodes(1), head.leaf()),
            };
            if answer != wanted || output != words {
                return Err(format!("{answer:?} and not {wanted:?}, {output:x?}"));
            }
        }
        Ok(())
    }
}

#[cfg(test)]
mod tests {
    use super::every_head;
    use oracle::refusal::{Call, refusal};
    use oracle::words::{Case, Token, number_in};

    /// The two models were written by themselves.
    #[test]
    fn the_oracle_says_the_same_of_every_word() {
        let sound = Call::of(&Case::exact(vec![Token::default()], 6));
        let (mut words, mut good) = (0, 0);
        for head in every_head() {
            let list = head.token().to_vec();
            let call = Call {
                list,
                ..sound.clone()
            };
            let refused = refusal(&call).map(|refused| (refused.number, refused.place));
            assert_eq!(refused, head.fault().map(|number| (number, 0)), "{head:?}");
            assert_eq!(u32::from(number_in(head.word())), head.number);
            words += 1;
            good += usize::from(refused.is_none());
        }
        assert_eq!(words, 4_096 * 16 * (8 + 13));
        assert_eq!(good, (111 + 768) * 13);
    }
}
