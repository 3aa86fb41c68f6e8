//! Tables as they are lent: full of other words, with guard words before and after.

use crate::random::Random;

const GUARDS: usize = 4;

pub struct Lent {
    words: Vec<u32>,
    length: usize,
}

fn guard(place: usize) -> u32 {
    0x5eed_0000 ^ place as u32
}

impl Lent {
    pub fn new(random: &mut Random, length: usize) -> Lent {
        let mut words: Vec<u32> = (0..length + 2 * GUARDS).map(guard).collect();
        let salt = random.below(usize::MAX);
        for (place, word) in words[GUARDS..GUARDS + length].iter_mut().enumerate() {
            *word = (place ^ salt).wrapping_mul(0x9e37_79b9) as u32 | 1;
        }
        Lent { words, length }
    }

    pub fn pointer(&mut self) -> *mut u32 {
        self.words[GUARDS..].as_mut_ptr()
    }

    pub fn length(&self) -> usize {
        self.length
    }

    pub fn words(&self) -> &[u32] {
        &self.words[GUARDS..GUARDS + self.length]
    }

    /// Whether it holds these words and then 0, and its guards are whole.
    pub fn holds(&self, used: &[u32]) -> bool {
        let end = GUARDS + self.length;
        let own = self.words();
        let guarded =
            |range: std::ops::Range<usize>| range.into_iter().all(|i| self.words[i] == guard(i));
        used.len() <= own.len()
            && own[..used.len()] == *used
            && own[used.len()..].iter().all(|&word| word == 0)
            && guarded(0..GUARDS)
            && guarded(end..end + GUARDS)
    }
}
