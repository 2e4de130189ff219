//! Jobs whose span is timed. The library has no call for the span alone: each job comes
//! with one that makes the same effects up to its last, which is refused with 9, so
//! that no span is worked out. What the first takes longer is its span.

use host::asm::assemble;
use host::job::Job;
use host::overlap::Plain;

pub struct SpanScene {
    pub name: String,
    /// The job, and the one that stops with 9 where the first returns.
    pub ends: Vec<u8>,
    pub stops: Vec<u8>,
    pub steps: usize,
}

/// Values that a child pushes at the end, of which there are two, and values that the
/// top pushes behind them until no segment is free.
const FILLED: usize = 120;
const FITS: usize = 13;
/// Effects of a turn.
const TURN: usize = 18;

/// As the long job of the serial runner, but with a value a segment: each turn spawns a
/// child, which spawns another. At the end the segments are filled.
fn text(syncs: usize, turns: usize, pushes: usize) -> String {
    let (syncs, pushes) = ("sync\n".repeat(syncs), "push 2 1\n".repeat(pushes));
    let filled = "push 2 1\n".repeat(FILLED);
    format!(
        "length 1
        procedure top all
        {syncs}push 3 {turns}
        again: pop 3
        go-if-zero done
        push-register 3 -1
        push-register 0 7
        spawn check 5
        go-if-empty 1 again
        pop 1
        add 1
        sync
        go again
        done: spawn filler 0
        spawn filler 0
        {pushes}return
        procedure check pop 0 push 1 push 2 pop 2
        pop 0
        add 100
        push-register 1 0
        spawn note 0
        return
        procedure note push 2 pop 2
        push 2 1
        pop 2
        return
        procedure filler push 2
        {filled}return"
    )
}

/// A job of so many steps, and the one that stops.
fn scene(steps: usize) -> SpanScene {
    let job = |syncs, turns, pushes| {
        let text = text(syncs, turns, pushes);
        assemble(&text).expect("the job assembles")
    };
    let once = Job::read(&job(0, 1, FITS)).expect("a job");
    let once = Plain::run(&once, u64::MAX).expect("it ends").steps as usize;
    let (turns, syncs) = ((steps - once) / TURN + 1, (steps - once) % TURN);
    SpanScene {
        name: format!("{steps} steps"),
        ends: job(syncs, turns, FITS),
        stops: job(syncs, turns, FITS + 1),
        steps,
    }
}

pub fn all() -> Vec<SpanScene> {
    vec![scene(30_000), scene(60_000)]
}

#[cfg(test)]
mod tests {
    use super::*;
    use host::layout::WORDS;
    use host::plain::Reply;
    use host::runner::RUNNER;
    use host::simulate::{watched, Simulated, Watch, OURS, WORKING};

    #[derive(Default)]
    struct Count(usize);

    impl Watch for Count {
        fn fell(&mut self, _: u32, _: Reply) {
            self.0 += 1;
        }
    }

    fn simulated(job: &[u8]) -> (Simulated, usize) {
        let mut lent = [WORDS, RUNNER, WORKING].map(|length| vec![0; length]);
        let slices = lent.each_mut().map(|words| &mut words[..]);
        let mut count = Count::default();
        (watched(job, 1, &OURS, slices, &mut count), count.0)
    }

    /// They are what is said of them: one returns, the other stops there.
    #[test]
    fn scenes() {
        for scene in all() {
            let (ends, effects) = simulated(&scene.ends);
            assert!(matches!(ends, Simulated::Ended { .. }), "{ends:?}");
            assert_eq!(effects, scene.steps);
            let stops = simulated(&scene.stops);
            assert_eq!(stops, (Simulated::Stopped(9), scene.steps - 1));
        }
    }
}
