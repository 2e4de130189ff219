//! What a call answers.

#[derive(Clone, Copy, Debug, PartialEq, Eq)]
pub enum Answer {
    /// The call moved, with its value.
    Moved(u32),
    /// A take that moved and found the queue empty.
    Empty,
    Waits,
    /// Turned down, with its number in document 01's table.
    Refused(u32),
}

pub const LENGTH_WRONG: Answer = Answer::Refused(1);
pub const RULES_FAIL: Answer = Answer::Refused(2);
pub const NUMBERS_WRONG: Answer = Answer::Refused(3);
pub const NO_SUCH_TASK: Answer = Answer::Refused(4);
pub const NO_SUCH_QUEUE: Answer = Answer::Refused(5);
pub const NO_RIGHT: Answer = Answer::Refused(6);
pub const PAST_THE_END: Answer = Answer::Refused(7);
pub const NO_RECORD: Answer = Answer::Refused(8);
pub const NO_SEGMENT: Answer = Answer::Refused(9);

impl Answer {
    /// The number of the case: 0 moved, k refused with k, 32, 33.
    pub fn number(self) -> u32 {
        match self {
            Answer::Moved(_) => 0,
            Answer::Refused(k) => k,
            Answer::Waits => 32,
            Answer::Empty => 33,
        }
    }

    /// The value that goes with it.
    pub fn value(self) -> u32 {
        match self {
            Answer::Moved(value) => value,
            _ => 0,
        }
    }

    /// Is the call a step, neither refused nor waiting?
    pub fn moved(self) -> bool {
        !matches!(self, Answer::Waits | Answer::Refused(_))
    }
}
