//! The runner of written jobs over the core: opening a job, a step of a task, a
//! list of steps, and the ready map; on any bytes, any words and any task number.

use crate::answer::Answer;
use crate::calls::{self, either};
use crate::fast;
use crate::job::{Instruction, Job, Procedure};
use crate::layout::*;
use crate::operations::*;
use crate::plain::Reply;

/// Words of the runner's memory: three a task record.
pub const RUNNER: usize = 384;
pub const RECORD: usize = 3;
/// The most segments that a job opens with.
const MOST: u32 = 256;

/// What a step is answered.
#[derive(Clone, Copy, Debug, PartialEq, Eq)]
pub enum Stepped {
    Moved(Reply),
    Waits,
    Refused(u32),
}

impl Stepped {
    pub fn moved(self) -> bool {
        matches!(self, Stepped::Moved(_))
    }

    /// The number of the case, as the library gives it.
    pub fn status(self) -> u32 {
        match self {
            Stepped::Refused(number) => number,
            Stepped::Waits => 32,
            Stepped::Moved(Reply::Empty) => 33,
            Stepped::Moved(Reply::Not) => 34,
            Stepped::Moved(Reply::Spawned(_)) => 40,
            Stepped::Moved(Reply::Pushed(_)) => 41,
            Stepped::Moved(Reply::Took(_)) => 42,
            Stepped::Moved(Reply::Finished) => 43,
            Stepped::Moved(Reply::Moved) => 44,
        }
    }

    pub fn value(self) -> u32 {
        match self {
            Stepped::Moved(reply) => reply.value().unwrap_or(0),
            Stepped::Waits | Stepped::Refused(_) => 0,
        }
    }
}

/// A step that does not move is the error case.
type Tried<T> = Result<T, Stepped>;

/// Tests 1, 10, 11 and 12.
pub(crate) fn accepted(job: &[u8], m: &[u32], r: &[u32]) -> Tried<Job> {
    if m.len() != WORDS || r.len() != RUNNER {
        return Err(Stepped::Refused(1));
    }
    Job::read(job).map_err(|refusal| Stepped::Refused(refusal.number()))
}

/// Those, and test 2 of both memories.
fn tested(job: &[u8], m: &[u32], r: &[u32]) -> Tried<Job> {
    let job = accepted(job, m, r)?;
    if fast::hold(m) && words_hold(&job, m, r) {
        Ok(job)
    } else {
        Err(Stepped::Refused(2))
    }
}

/// A procedure and an instruction that exist and equal rights for an unfinished
/// task, zeros for any other record.
fn words_hold(job: &Job, m: &[u32], r: &[u32]) -> bool {
    (0..TASKS).zip(r.chunks_exact(RECORD)).all(|(t, words)| {
        if status(m, t) != UNFINISHED {
            return words == [0, 0, 0];
        }
        let procedure = job.procedures().get(words[0] as usize);
        procedure.is_some_and(|p| {
            (words[1] as usize) < p.body.len() && u32::from(p.rights) == rights(m, t)
        })
    })
}

/// Opens the core for the job, and the runner with the top at instruction 0.
pub fn open(job: &[u8], m: &mut [u32], r: &mut [u32]) -> Stepped {
    match accepted(job, m, r) {
        Ok(job) => open_job(&job, m, r),
        Err(refused) => refused,
    }
}

/// The same behind the tests.
pub(crate) fn open_job(job: &Job, m: &mut [u32], r: &mut [u32]) -> Stepped {
    let length = u32::from(job.length());
    match calls::open(m, length, MOST.min(VALUE_WORDS / length)) {
        Answer::Refused(number) => Stepped::Refused(number),
        _ => {
            r.fill(0);
            Stepped::Moved(Reply::Moved)
        }
    }
}

/// Opens the job afresh and makes a step of each task in the list, with its
/// answer in the same place; as many places as tasks are needed.
pub fn run(
    job: &[u8],
    m: &mut [u32],
    r: &mut [u32],
    tasks: &[u32],
    answers: &mut [Stepped],
) -> Stepped {
    if answers.len() != tasks.len() {
        return Stepped::Refused(1);
    }
    let opened = open(job, m, r);
    if opened.moved() {
        for (answer, t) in answers.iter_mut().zip(tasks) {
            *answer = step(job, m, r, *t);
        }
    }
    opened
}

/// One step of task `t`.
pub fn step(job: &[u8], m: &mut [u32], r: &mut [u32], t: u32) -> Stepped {
    match tested(job, m, r) {
        Ok(job) => stepped(&job, m, r, t),
        Err(refused) => refused,
    }
}

/// The same behind the tests, for memory that only the runner has written: it
/// passes them.
pub(crate) fn stepped(job: &Job, m: &mut [u32], r: &mut [u32], t: u32) -> Stepped {
    match try_step(job, m, r, t) {
        Ok(reply) => Stepped::Moved(reply),
        Err(answer) => answer,
    }
}

/// Whether a step of `t` would move, behind the same tests; else what it would be
/// answered. No word changes.
pub(crate) fn would_move(job: &Job, m: &[u32], r: &[u32], t: u32) -> Tried<()> {
    let i = next(job, r, t);
    let q = u32::from(i.which);
    let asked = match i.operation {
        RETURN => calls::may_finish(m, t),
        PUSH | PUSH_REGISTER => calls::may_push(m, t, q),
        POP | GO_IF_EMPTY | TAKE_OR_GO => calls::find(m, t, q).map(|_| ()),
        SPAWN => {
            let rights = u32::from(job.procedures()[usize::from(i.which)].rights);
            calls::may_spawn(m, t, rights).map(|_| ())
        }
        SYNC => calls::may_sync(m, t),
        _ => calls::no_older_popper(m, t),
    };
    pass(asked)
}

/// The next instruction of an unfinished task.
pub(crate) fn next(job: &Job, r: &[u32], t: u32) -> Instruction {
    let at = place(r, t);
    job.procedures()[at.procedure].body[at.instruction]
}

/// A task's three words.
struct Place {
    procedure: usize,
    instruction: usize,
    register: u32,
}

fn place(r: &[u32], t: u32) -> Place {
    let words = &r[RECORD * t as usize..][..RECORD];
    Place {
        procedure: words[0] as usize,
        instruction: words[1] as usize,
        register: words[2],
    }
}

fn write(r: &mut [u32], t: u32, words: [u32; RECORD]) {
    r[RECORD * t as usize..][..RECORD].copy_from_slice(&words);
}

/// The tests behind the memory test, and the instruction of the task.
fn try_step(job: &Job, m: &mut [u32], r: &mut [u32], t: u32) -> Tried<Reply> {
    pass(calls::task_unfinished(m, t))?;
    pass(calls::no_older_popper(m, t))?;
    let (i, mut at) = (next(job, r, t), place(r, t));
    at.instruction += 1;
    let reply = perform(job.procedures(), m, &mut at, t, i)?;
    let words = match reply {
        Reply::Finished => [0, 0, 0],
        _ => [at.procedure as u32, at.instruction as u32, at.register],
    };
    write(r, t, words);
    if let Reply::Spawned(child) = reply {
        let register = at.register.wrapping_add(i.operand);
        write(r, child, [u32::from(i.which), 0, register]);
    }
    Ok(reply)
}

fn pass(passed: Result<(), Answer>) -> Tried<()> {
    passed.map_err(turned_down)
}

fn turned_down(answer: Answer) -> Stepped {
    match answer {
        Answer::Refused(number) => Stepped::Refused(number),
        _ => Stepped::Waits,
    }
}

/// What instruction `i` does to the core and to the task's place.
fn perform(
    all: &[Procedure],
    m: &mut [u32],
    at: &mut Place,
    t: u32,
    i: Instruction,
) -> Tried<Reply> {
    let q = u32::from(i.which);
    let sum = at.register.wrapping_add(i.operand);
    match i.operation {
        RETURN => calls::try_finish(m, t)
            .map(|_| Reply::Finished)
            .map_err(turned_down),
        PUSH => push(m, t, q, i.operand),
        PUSH_REGISTER => push(m, t, q, sum),
        POP => take(m, at, t, q, at.instruction),
        TAKE_OR_GO => take(m, at, t, q, i.operand as usize),
        GO_IF_EMPTY => go_if_empty(m, at, t, q, i.operand as usize),
        GO => go(at, i.operand),
        GO_IF_ZERO if at.register == 0 => go(at, i.operand),
        GO_IF_ZERO => Ok(Reply::Moved),
        ADD => {
            at.register = sum;
            Ok(Reply::Moved)
        }
        SPAWN => {
            let rights = u32::from(all[usize::from(i.which)].rights);
            calls::try_spawn(m, t, rights)
                .map(|answer| Reply::Spawned(answer.value()))
                .map_err(turned_down)
        }
        _ => calls::try_sync(m, t)
            .map(|_| Reply::Moved)
            .map_err(turned_down),
    }
}

fn push(m: &mut [u32], t: u32, q: u32, value: u32) -> Tried<Reply> {
    let pushed = calls::try_push(m, t, q, &[value]);
    pushed.map(|_| Reply::Pushed(value)).map_err(turned_down)
}

/// The value goes into the register. An empty queue leaves the register, and the
/// task goes to `target`.
fn take(m: &mut [u32], at: &mut Place, t: u32, q: u32, target: usize) -> Tried<Reply> {
    match either(calls::try_take(m, t, q, false)) {
        Answer::Moved(value) => {
            at.register = value;
            Ok(Reply::Took(value))
        }
        Answer::Empty => {
            at.instruction = target;
            Ok(Reply::Empty)
        }
        other => Err(turned_down(other)),
    }
}

/// The value stays queued, and the register as it is.
fn go_if_empty(m: &mut [u32], at: &mut Place, t: u32, q: u32, target: usize) -> Tried<Reply> {
    match either(calls::try_take(m, t, q, true)) {
        Answer::Moved(_) => Ok(Reply::Not),
        Answer::Empty => {
            at.instruction = target;
            Ok(Reply::Empty)
        }
        other => Err(turned_down(other)),
    }
}

fn go(at: &mut Place, target: u32) -> Tried<Reply> {
    at.instruction = target as usize;
    Ok(Reply::Moved)
}

/// The ready map: which tasks' next step would move.
#[derive(Clone, Copy, Debug, PartialEq, Eq)]
pub struct Ready {
    pub words: [u32; 4],
    pub count: u32,
    pub lowest: Option<u32>,
}

const NOBODY: Ready = Ready {
    words: [0; 4],
    count: 0,
    lowest: None,
};

/// The map, each step tried on a copy; or the refusal, with an empty map.
pub fn ready(job: &[u8], m: &[u32], r: &[u32]) -> (Stepped, Ready) {
    let job = match tested(job, m, r) {
        Ok(job) => job,
        Err(refused) => return (refused, NOBODY),
    };
    let mut map = NOBODY;
    for t in (0..TASKS).filter(|t| status(m, *t) == UNFINISHED) {
        let (mut m, mut r) = (m.to_vec(), r.to_vec());
        if stepped(&job, &mut m, &mut r, t).moved() {
            map.words[(t / 32) as usize] |= 1 << (t % 32);
            map.count += 1;
            map.lowest = map.lowest.or(Some(t));
        }
    }
    (Stepped::Moved(Reply::Moved), map)
}
