//! The linked core and the model side by side: every call is made on both, and
//! the answers and all words are compared.

use crate::counts::Counts;
use crate::guarded::Guarded;
use crate::linked;
use host::answer::{Answer, RULES_FAIL};
use host::call::Call;
use host::fast;
use host::layout::WORDS;
use std::fmt::Write;

/// How many of the words that differ are shown.
const SHOWN: usize = 40;

/// How the library makes a call.
pub type Library = fn(&Call, &mut [u32]) -> u64;

pub struct Pair {
    /// The linked library; a test puts one that errs in its place.
    pub library: Library,
    linked: Guarded,
    pub model: Vec<u32>,
    pub counts: Counts,
}

impl Default for Pair {
    fn default() -> Pair {
        let mut pair = Pair {
            library: linked::make_guarded,
            linked: Guarded::new(&[]),
            model: Vec::new(),
            counts: Counts::default(),
        };
        pair.set(&[0; WORDS]);
        pair
    }
}

impl Pair {
    /// Gives both the same words.
    pub fn set(&mut self, words: &[u32]) {
        self.linked.set(words);
        self.model.clear();
        self.model.extend_from_slice(words);
    }

    /// Makes the call on both; says what differs.
    pub fn make(&mut self, call: &Call) -> Result<Answer, String> {
        let due = call.make(&mut self.model);
        let given = (self.library)(call, self.linked.lend());
        if given != linked::packed(due) || self.linked.words() != &self.model[..] {
            return Err(self.difference(call, given, due));
        }
        if self.linked.overrun() {
            return Err(format!("{call}: words outside the memory changed"));
        }
        let late = due == RULES_FAIL && self.model.len() == WORDS && fast::hold(&self.model);
        self.counts.add(call, due, late);
        Ok(due)
    }

    fn difference(&self, call: &Call, given: u64, due: Answer) -> String {
        let (status, value) = (given >> 32, given & 0xFFFF_FFFF);
        let (due_status, due_value) = (due.number(), due.value());
        let mut text = format!(
            "{call}\n  linked: status {status}, value {value}\n  \
             model:  status {due_status}, value {due_value}"
        );
        let words = self.linked.words().iter().zip(&self.model).enumerate();
        let differ: Vec<_> = words.filter(|(_, (a, b))| a != b).collect();
        for (address, (linked, model)) in differ.iter().take(SHOWN) {
            let _ = write!(text, "\n  word {address}: linked {linked}, model {model}");
        }
        let _ = write!(text, "\n  {} words differ", differ.len());
        text
    }
}
