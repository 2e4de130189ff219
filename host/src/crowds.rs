//! Jobs that ask for more than there is.

/// A top that spawns without end, more children than there are records; and one
/// that pushes without end, more values than the segments hold.
pub const CROWDS: [&str; 2] = [
    "length 1
     procedure top all
     again: spawn child 1
     go again
     procedure child pop 0
     pop 0
     return",
    "length 1
     procedure top all
     spawn child 1
     again: push 0 1
     go again
     procedure child pop 0
     pop 0
     return",
];
