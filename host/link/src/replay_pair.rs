//! The linked replay beside the model's: the answers and the words around those
//! lent are compared. A refused replay leaves the words lent as they were; what
//! they hold after another means nothing.

use crate::guarded::Guarded;
use crate::linked_replay::{self, packed};
use host::random_traces::Case;
use host::replay::{self, Judged, TRACE_FORM};

/// How much of a trace is shown.
const SHOWN: usize = 4_000;

/// How the library replays a trace.
pub type Library = fn(&[u8], &[u8], &mut [u32], &mut [u32]) -> u64;

/// What the library is lent. The words stay from replay to replay until others
/// are set, so that a replay finds what the last one left.
pub struct ReplayPair {
    /// The linked library; a test puts one that errs in its place.
    pub library: Library,
    core: Guarded,
    runner: Guarded,
}

impl ReplayPair {
    pub fn new(core: &[u32], runner: &[u32]) -> ReplayPair {
        ReplayPair {
            library: linked_replay::replay,
            core: Guarded::new(core),
            runner: Guarded::new(runner),
        }
    }

    /// Other words to lend.
    pub fn set(&mut self, core: &[u32], runner: &[u32]) {
        self.core.set(core);
        self.runner.set(runner);
    }

    /// How many words are lent.
    pub fn lengths(&self) -> (usize, usize) {
        (self.core.words().len(), self.runner.words().len())
    }

    /// Replays the trace on both; says what differs.
    pub fn replay(&mut self, job: &[u8], trace: &[u8]) -> Result<Judged, String> {
        let (core, runner) = (self.core.words().to_vec(), self.runner.words().to_vec());
        let due = replay::replay(job, trace, &mut core.clone(), &mut runner.clone());
        let given = (self.library)(job, trace, self.core.lend(), self.runner.lend());
        if given != packed(due) {
            let (status, value) = (given >> 32, given & 0xFFFF_FFFF);
            return Err(format!("status {status}, value {value}, model {due:?}"));
        }
        if self.core.overrun() || self.runner.overrun() {
            return Err("words outside those lent changed".to_string());
        }
        let kept = self.core.words() == core && self.runner.words() == runner;
        if matches!(due, Judged::Refused(_)) && !kept {
            return Err(format!("{due:?}, and words lent changed"));
        }
        Ok(due)
    }
}

/// The model's answer by the text of the run, where it is another.
pub fn otherwise_by_text(case: &Case, due: Judged) -> Option<String> {
    if due == Judged::Refused(1) {
        return None;
    }
    let by_text = replay::replay_by_text(&case.job, &case.trace);
    (by_text != due).then(|| format!("the model says {due:?}, and by text {by_text:?}"))
}

/// The case in words, to be made again.
pub fn told(case: &Case) -> String {
    let job: String = case.job.iter().map(|byte| format!("{byte:02x}")).collect();
    let shown = &case.trace[..case.trace.len().min(SHOWN)];
    let more = match case.trace.len() - shown.len() {
        0 => String::new(),
        more => format!(" and {more} bytes more"),
    };
    format!(
        "{} words of the core, {} of the runner\n  job {job}\n  trace \"{}\"{more}",
        case.words,
        case.runner,
        shown.escape_ascii()
    )
}

/// The kind of an answer, for counting.
pub fn kind(judged: Judged) -> &'static str {
    match judged {
        Judged::Agrees => "agrees",
        Judged::Differs(_) => "differs",
        Judged::Refused(TRACE_FORM) => "refused 13",
        Judged::Refused(1) => "refused 1",
        Judged::Refused(_) => "job refused",
    }
}

#[cfg(test)]
mod tests {
    use super::*;
    use crate::rounds::random_of;
    use host::random_traces::of_a_run;

    /// The first case in which this library is found to err.
    fn found(library: Library) -> Option<String> {
        let mut pair = ReplayPair::new(&[7; 16_384], &[7; 384]);
        pair.library = library;
        let cases = (0..200).flat_map(|round| of_a_run(&mut random_of(5, 0, round)));
        let mut errors = cases.map(|case| pair.replay(&case.job, &case.trace).err());
        errors.find_map(|error| error)
    }

    #[test]
    fn libraries_that_err_are_found() {
        let agrees_always: Library = |_, _, _, _| packed(Judged::Agrees);
        let next_line: Library = |job, trace, core, runner| {
            let answer = linked_replay::replay(job, trace, core, runner);
            answer + u64::from(answer as u32 > 0)
        };
        let a_word_outside: Library = |job, trace, core, runner| {
            // The guards are there for this.
            unsafe { *core.as_mut_ptr().add(core.len()) = 0 };
            linked_replay::replay(job, trace, core, runner)
        };
        let refused_and_written: Library = |job, trace, core, runner| {
            let answer = linked_replay::replay(job, trace, core, runner);
            core[0] ^= 1;
            answer
        };
        for (library, due) in [
            (refused_and_written, "Refused(13), and words lent changed"),
            (agrees_always, "status 37, value 0, model "),
            (next_line, "status 36, value "),
            (a_word_outside, "words outside those lent changed"),
        ] {
            let what = found(library).expect("a difference");
            assert!(what.starts_with(due), "{what}");
        }
        assert_eq!(found(linked_replay::replay), None);
    }
}
