//! Words lent to the library between two guards that it may not touch.

/// Words before and behind those lent.
const GUARD: usize = 64;
const GUARD_WORD: u32 = 3;

pub struct Guarded<W = u32>(Vec<W>);

impl<W: Copy + PartialEq + From<u32>> Guarded<W> {
    pub fn new(words: &[W]) -> Guarded<W> {
        let mut guarded = Guarded(Vec::new());
        guarded.set(words);
        guarded
    }

    /// Other words to lend, as many as there are.
    pub fn set(&mut self, words: &[W]) {
        self.0.clear();
        self.0.resize(GUARD, GUARD_WORD.into());
        self.0.extend_from_slice(words);
        self.0.resize(words.len() + 2 * GUARD, GUARD_WORD.into());
    }

    fn end(&self) -> usize {
        self.0.len() - GUARD
    }

    pub fn words(&self) -> &[W] {
        &self.0[GUARD..self.end()]
    }

    pub fn lend(&mut self) -> &mut [W] {
        let end = self.end();
        &mut self.0[GUARD..end]
    }

    /// Whether a word outside those lent has changed.
    pub fn overrun(&self) -> bool {
        let (before, behind) = (&self.0[..GUARD], &self.0[self.end()..]);
        before
            .iter()
            .chain(behind)
            .any(|word| *word != GUARD_WORD.into())
    }
}

#[cfg(test)]
mod tests {
    use super::*;

    /// A change of the words lent is none of the guards; any of a guard is seen.
    #[test]
    fn guards() {
        let mut guarded = Guarded::<u32>::new(&[1, 2]);
        guarded.lend().copy_from_slice(&[5, 6]);
        assert!(!guarded.overrun());
        for at in [0, GUARD - 1, GUARD + 2, 2 * GUARD + 1] {
            guarded.set(&[1, 2]);
            guarded.0[at] ^= 1;
            assert!(guarded.overrun(), "word {at}");
        }
    }
}
