//! Simulations that are timed: a job of 60,000 effects with 1, 4 and 16 workers, and
//! one of 100 tasks of which all but a few wait.

use crate::long_job;
use host::asm::assemble;
use host::layout::WORDS;
use host::runner::RUNNER;
use host::simulate::{watched, Simulated, Watch, OURS, WORKING};

/// The top's children, which share a right to pop, so that only the oldest moves.
const WAITING: usize = 100;

/// How often each goes round, three effects a time.
const ROUNDS: usize = 200;

pub struct SimulationScene {
    pub name: String,
    pub job: Vec<u8>,
    pub workers: u32,
    /// Effects until its end.
    pub effects: usize,
}

impl SimulationScene {
    fn new(name: &str, job: &[u8], workers: u32, effects: usize) -> SimulationScene {
        SimulationScene {
            name: format!("{name}, {workers} workers"),
            job: job.to_vec(),
            workers,
            effects,
        }
    }

    /// The model's answer, watched.
    pub fn due(&self, watch: &mut impl Watch) -> Simulated {
        let mut lent = [WORDS, RUNNER, WORKING].map(|length| vec![0; length]);
        let slices = lent.each_mut().map(|words| &mut words[..]);
        watched(&self.job, self.workers, &OURS, slices, watch)
    }
}

/// The job of those children.
fn waiting() -> Vec<u8> {
    let spawns = format!("spawn child {ROUNDS}\n").repeat(WAITING);
    let text = format!(
        "length 4
        procedure top all
        {spawns}return
        procedure child pop 0
        more: go-if-zero done
        add -1
        go more
        done: return"
    );
    assemble(&text).expect("the job assembles")
}

pub fn all() -> Vec<SimulationScene> {
    let long = assemble(long_job::TEXT).expect("the long job assembles");
    let long = |w| SimulationScene::new("60,000 effects", &long, w, long_job::STEPS);
    let (job, effects) = (waiting(), WAITING * (3 + 3 * ROUNDS) + 1);
    let waiting = |w| SimulationScene::new("100 tasks, most waiting", &job, w, effects);
    vec![long(1), long(4), long(16), waiting(4), waiting(16)]
}

#[cfg(test)]
mod tests {
    use super::*;
    use host::plain::Reply;

    /// Counts effects, and the most tasks that were unfinished together.
    #[derive(Default)]
    struct Count {
        effects: usize,
        tasks: usize,
        most: usize,
    }

    impl Watch for Count {
        fn fell(&mut self, _: u32, reply: Reply) {
            self.effects += 1;
            match reply {
                Reply::Spawned(_) => self.tasks += 1,
                Reply::Finished => self.tasks = self.tasks.saturating_sub(1),
                _ => {}
            }
            self.most = self.most.max(self.tasks);
        }
    }

    /// They are what their names say.
    #[test]
    fn scenes() {
        for scene in all() {
            let (name, mut count) = (&scene.name, Count::default());
            let due = scene.due(&mut count);
            assert!(matches!(due, Simulated::Ended { .. }), "{name}: {due:?}");
            assert_eq!(count.effects, scene.effects, "{name}");
            let wide = name.starts_with("100");
            assert_eq!(count.most + 2 > WAITING, wide, "{name}: {}", count.most);
        }
    }
}
