//! A job of 60,000 steps that does operations 0 to 9, for timing.

use host::layout::WORDS;
use host::overlap::Log;
use host::random::Random;
use host::runner::{self, RUNNER};

pub const STEPS: usize = 60_000;

/// Queue 3 holds what is left of a count; each turn spawns a child, which
/// spawns another.
pub const TEXT: &str = "
length 4
procedure top all
    sync
    sync
    push 3 3333
again:
    pop 3
    go-if-zero done
    push-register 3 -1
    push-register 0 7
    spawn check 5
    go-if-empty 1 again
    pop 1
    add 1
    sync
    go again
done:
    return
procedure check pop 0 push 1 push 2 pop 2
    pop 0
    add 100
    push-register 1 0
    spawn note 0
    return
procedure note push 2 pop 2
    push 2 1
    pop 2
    return
";

/// Task numbers that lead the long job to its end, some of them in vain.
pub fn order(job: &[u8]) -> Vec<u32> {
    let (mut core, mut words) = (vec![0; WORDS], vec![0; RUNNER]);
    runner::open(job, &mut core, &mut words);
    let (mut log, mut tasks, mut r) = (Log::default(), Vec::new(), Random::new(2013));
    while !log.unfinished().is_empty() {
        let t = r.pick(&log.unfinished());
        log.note(t, runner::step(job, &mut core, &mut words, t));
        tasks.push(t);
    }
    assert_eq!(log.moves(), STEPS as u64);
    tasks
}
