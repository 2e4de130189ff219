//! That random programs and random jobs can show an error of takes: calls that err
//! in one place, made from the model's, each of which has to differ from program
//! order; and steps whose operation 10 errs, each of which has to differ from the
//! plain machine.

use host::answer::{Answer, NO_RIGHT, PAST_THE_END};
use host::call::Call;
use host::check::Program;
use host::job::{Instruction, Job};
use host::layout::*;
use host::operations::TAKE_OR_GO;
use host::overlap::{Log, Plain};
use host::plain::Reply;
use host::pools;
use host::random::Random;
use host::random_jobs::accepted;
use host::runner::{self, Stepped, RECORD, RUNNER};
use host::shown;

/// The call with `keep` as it is given here.
fn made_with(keep: bool, call: &Call, m: &mut [u32]) -> Answer {
    match call.as_take() {
        Some((task, queue, _)) => Call::Take { task, queue, keep }.make(m),
        None => call.make(m),
    }
}

/// The model's answer to a take, changed.
fn answered(call: &Call, m: &mut [u32], change: impl Fn(bool, Answer) -> Answer) -> Answer {
    let answer = call.make(m);
    match call.as_take() {
        Some((_, _, keep)) => change(keep, answer),
        None => answer,
    }
}

fn keep_takes(call: &Call, m: &mut [u32]) -> Answer {
    made_with(false, call, m)
}

fn take_keeps(call: &Call, m: &mut [u32]) -> Answer {
    made_with(true, call, m)
}

fn empty_waits(call: &Call, m: &mut [u32]) -> Answer {
    answered(call, m, |_, answer| match answer {
        Answer::Empty => Answer::Waits,
        other => other,
    })
}

fn empty_gets_7(call: &Call, m: &mut [u32]) -> Answer {
    answered(call, m, |keep, answer| match answer {
        Answer::Empty if !keep => PAST_THE_END,
        other => other,
    })
}

fn empty_keep_gets_7(call: &Call, m: &mut [u32]) -> Answer {
    answered(call, m, |keep, answer| match answer {
        Answer::Empty if keep => PAST_THE_END,
        other => other,
    })
}

fn empty_is_0(call: &Call, m: &mut [u32]) -> Answer {
    answered(call, m, |_, answer| match answer {
        Answer::Empty => Answer::Moved(0),
        other => other,
    })
}

fn kept_value_is_0(call: &Call, m: &mut [u32]) -> Answer {
    answered(call, m, |keep, answer| match answer {
        Answer::Moved(_) if keep => Answer::Moved(0),
        other => other,
    })
}

/// A value of 0 is taken for none.
fn zero_is_empty(call: &Call, m: &mut [u32]) -> Answer {
    answered(call, m, |_, answer| match answer {
        Answer::Moved(0) => Answer::Empty,
        other => other,
    })
}

fn keep_needs_no_right(call: &Call, m: &mut [u32]) -> Answer {
    answered(call, m, |keep, answer| match answer {
        NO_RIGHT if keep => Answer::Empty,
        other => other,
    })
}

fn keep_never_waits(call: &Call, m: &mut [u32]) -> Answer {
    answered(call, m, |keep, answer| match answer {
        Answer::Waits if keep => Answer::Empty,
        other => other,
    })
}

/// The value goes, and the segment that has none left stays.
fn frees_nothing(call: &Call, m: &mut [u32]) -> Answer {
    let before = m.to_vec();
    let answer = call.make(m);
    let freed = get(m, FREE_SEGMENTS) > get(&before, FREE_SEGMENTS);
    if let Some((task, queue, _)) = call.as_take().filter(|_| freed) {
        m.copy_from_slice(&before);
        pools::drop_first(m, get(&before, queue_head(task, queue)));
    }
    answer
}

/// A kept take frees a segment with one value, if another follows.
fn keep_frees(call: &Call, m: &mut [u32]) -> Answer {
    let mut taken = m.to_vec();
    made_with(false, call, &mut taken);
    let frees = get(&taken, FREE_SEGMENTS) > get(m, FREE_SEGMENTS);
    match call.as_take() {
        Some((_, _, true)) if frees => made_with(false, call, m),
        _ => call.make(m),
    }
}

const BROKEN: [(&str, Program); 12] = [
    ("keep that takes", keep_takes),
    ("a take that keeps", take_keeps),
    ("empty that waits", empty_waits),
    ("7 for an empty take", empty_gets_7),
    ("7 for an empty kept take", empty_keep_gets_7),
    ("a value for an empty take", empty_is_0),
    ("a kept take that answers 0", kept_value_is_0),
    ("a value of 0 is empty", zero_is_empty),
    ("a kept take needs no right", keep_needs_no_right),
    ("a kept take never waits", keep_never_waits),
    ("a take that frees nothing", frees_nothing),
    ("a kept take that frees", keep_frees),
];

#[test]
fn each_is_shown() {
    shown::each(&BROKEN, "take(");
}

/// Both memories of a run.
#[derive(Clone)]
struct Memories {
    core: Vec<u32>,
    runner: Vec<u32>,
}

/// The words of a task.
const PROCEDURE: usize = 0;
const INSTRUCTION: usize = 1;
const REGISTER: usize = 2;

impl Memories {
    fn word(&mut self, t: u32, word: usize) -> &mut u32 {
        &mut self.runner[RECORD * t as usize + word]
    }
}

/// A step of operation 10 that moved.
struct Taken<'a> {
    task: u32,
    instruction: Instruction,
    before: Memories,
    after: &'a mut Memories,
    reply: Reply,
}

impl Taken<'_> {
    fn empty(&self) -> bool {
        self.reply == Reply::Empty
    }

    /// Changes a word of the task.
    fn set(&mut self, word: usize, value: u32) {
        *self.after.word(self.task, word) = value;
    }

    /// A word of the task as it was.
    fn was(&mut self, word: usize) -> u32 {
        *self.before.word(self.task, word)
    }
}

/// Changes what the step left, and gives the answer that is handed out.
type Change = fn(&mut Taken) -> Stepped;

fn as_it_is(taken: &mut Taken) -> Stepped {
    Stepped::Moved(taken.reply)
}

fn register_on_empty(taken: &mut Taken) -> Stepped {
    if taken.empty() {
        taken.set(REGISTER, 0);
    }
    as_it_is(taken)
}

fn next_on_empty(taken: &mut Taken) -> Stepped {
    if taken.empty() {
        let next = taken.was(INSTRUCTION) + 1;
        taken.set(INSTRUCTION, next);
    }
    as_it_is(taken)
}

fn goes_on_took(taken: &mut Taken) -> Stepped {
    taken.set(INSTRUCTION, taken.instruction.operand);
    as_it_is(taken)
}

fn register_stays(taken: &mut Taken) -> Stepped {
    let register = taken.was(REGISTER);
    taken.set(REGISTER, register);
    as_it_is(taken)
}

fn value_stays(taken: &mut Taken) -> Stepped {
    taken.after.core.copy_from_slice(&taken.before.core);
    as_it_is(taken)
}

fn waits_on_empty(taken: &mut Taken) -> Stepped {
    if !taken.empty() {
        return as_it_is(taken);
    }
    taken.after.runner.copy_from_slice(&taken.before.runner);
    Stepped::Waits
}

/// As operation 4 is answered where it finds a value.
fn answered_not(taken: &mut Taken) -> Stepped {
    if taken.empty() {
        return as_it_is(taken);
    }
    Stepped::Moved(Reply::Not)
}

const BROKEN_STEPS: [(&str, Change); 7] = [
    ("the register changed on empty", register_on_empty),
    ("the next instruction on empty", next_on_empty),
    ("the target although it took", goes_on_took),
    ("the register stays although it took", register_stays),
    ("the value stays queued", value_stays),
    ("empty that waits", waits_on_empty),
    ("took answered not", answered_not),
];

/// The instruction of an unfinished task, if it is operation 10.
fn next(job: &Job, m: &mut Memories, t: u32) -> Option<Instruction> {
    let body = &job.procedures()[*m.word(t, PROCEDURE) as usize].body;
    let instruction = body[*m.word(t, INSTRUCTION) as usize];
    (instruction.operation == TAKE_OR_GO).then_some(instruction)
}

/// What differs from the plain machine in a run of the job under a random order,
/// with its operation 10 changed.
fn differs(r: &mut Random, bytes: &[u8], plain: &Plain, change: Change) -> Option<String> {
    let job = Job::read(bytes).expect("a job");
    let mut m = Memories {
        core: vec![7; WORDS],
        runner: vec![7; RUNNER],
    };
    runner::open(bytes, &mut m.core, &mut m.runner);
    let mut log = Log::default();
    for _ in 0..6 * plain.steps {
        let tasks = log.unfinished();
        if tasks.is_empty() {
            break;
        }
        let t = r.pick(&tasks);
        let instruction = next(&job, &mut m, t);
        let before = m.clone();
        let mut answer = runner::step(bytes, &mut m.core, &mut m.runner, t);
        if let (Stepped::Moved(reply), Some(instruction)) = (answer, instruction) {
            answer = change(&mut Taken {
                task: t,
                instruction,
                before,
                after: &mut m,
                reply,
            });
        }
        log.note(t, answer);
    }
    plain.differs(&log).or_else(|| stuck(&log, plain))
}

/// A run that has made less than half of its steps, though there was time.
fn stuck(log: &Log, plain: &Plain) -> Option<String> {
    let (moves, steps) = (log.moves(), plain.steps);
    (2 * moves < steps).then(|| format!("{moves} of {steps} steps made"))
}

/// The first difference in the runs of so many random jobs.
fn shown_in_jobs(change: Change, most: u64) -> Option<String> {
    (0..most).find_map(|seed| {
        let r = &mut Random::new(seed);
        let job = accepted(r);
        let plain = Plain::run(&Job::read(&job).expect("a job"), 600)?;
        differs(r, &job, &plain, change)
    })
}

#[test]
fn each_operation_10_is_shown() {
    assert_eq!(shown_in_jobs(as_it_is, 100), None);
    for (name, change) in BROKEN_STEPS {
        let what = shown_in_jobs(change, 400).unwrap_or_else(|| panic!("not shown: {name}"));
        println!("{name}: {what}");
    }
}
