//! Overlap on against overlap off: the serial run of a job beside runs of it
//! under random orders, all through the proved library.

use crate::proved_run::{stepped, ProvedRun};
use host::overlap::{Path, Replies};
use host::plain::Reply;
use host::random::Random;
use host::runner::Stepped;
use hyperqueue::jobs::{self, ANSWERS, WORKING};
use hyperqueue::runner::SPAWNED;
use hyperqueue::Answer;
use std::collections::BTreeMap;

/// A run without overlap, as the proved serial runner gives it.
pub struct Off {
    pub replies: Replies,
    pub steps: usize,
    pub queues: [Vec<u32>; 4],
    /// Why it stopped, where it did not end.
    pub stopped: Option<String>,
}

/// The reply to a step of the serial runner, which neither waits nor refuses.
pub fn reply(status: u32, value: u32) -> Reply {
    match stepped(Answer { status, value }) {
        Stepped::Moved(reply) => reply,
        answer => panic!("{answer:?} without overlap"),
    }
}

/// The replies by path: tasks of a serial run are numbered as they are spawned.
fn by_path(words: &[u32]) -> Replies {
    let mut paths: BTreeMap<u32, (Path, u32)> = BTreeMap::from([(0, (Path::default(), 0))]);
    let mut replies = Replies::new();
    for step in words.chunks_exact(3) {
        let (task, status, value) = (step[0], step[1], step[2]);
        let (path, children) = paths[&task].clone();
        if status == SPAWNED {
            let new = path.iter().copied().chain([children]).collect();
            paths.insert(value, (new, 0));
            paths.insert(task, (path.clone(), children + 1));
        }
        let aside = if status == SPAWNED { 0 } else { value };
        replies.entry(path).or_default().push(reply(status, aside));
    }
    replies
}

/// The serial run, or the number with which the job is refused.
pub fn off(job: &[u8]) -> Result<Off, u32> {
    let (mut working, mut answers) = (vec![0; WORKING], vec![0; ANSWERS]);
    let given = jobs::run_serially(job, &mut working, &mut answers);
    let steps = given.value as usize;
    let stopped = match given.status {
        Answer::MOVED => None,
        Answer::SPENT => Some("spent".to_string()),
        number if number >= 10 => return Err(number),
        number => Some(format!("refused {number}")),
    };
    Ok(Off {
        replies: by_path(&answers[..3 * steps]),
        steps,
        queues: jobs::queues(&working),
        stopped,
    })
}

/// Why a run under some order stopped before its end.
#[derive(Clone, Copy, Debug, PartialEq, Eq, PartialOrd, Ord)]
pub enum Stop {
    /// No task could go on; 8 or 9.
    Refused(u32),
    /// The most calls of one run were made.
    Calls,
}

/// How a run under some order went.
pub struct On {
    pub calls: u64,
    /// Calls that waited or were refused.
    pub waits: u64,
    pub stopped: Option<Stop>,
    /// How many answers of each task were compared.
    pub compared: BTreeMap<Path, usize>,
}

/// Most calls of one run.
pub const MOST_CALLS: u64 = 400_000;

/// One run under a random order. Mostly a task that is ready is called, now and
/// then any other. Says what differs from the serial run.
pub fn on(job: &[u8], off: &Off, r: &mut Random) -> Result<On, String> {
    let mut run = ProvedRun::open(job).map_err(|number| format!("job refused {number}"))?;
    let (mut calls, mut waits, mut stopped) = (0, 0, None);
    while !run.log.unfinished().is_empty() {
        let ready = run.ready();
        if ready.is_empty() {
            stopped = Some(Stop::Refused(want(&mut run)));
            break;
        }
        if calls == MOST_CALLS {
            stopped = Some(Stop::Calls);
            break;
        }
        let any = run.log.unfinished();
        let list = if r.chance(20) { &any } else { &ready };
        let t = r.pick(list);
        calls += 1;
        waits += u64::from(!run.step(t).moved());
    }
    Ok(On {
        calls,
        waits,
        stopped,
        compared: compared(&mut run, off)?,
    })
}

/// The number that a task gets where none can go on.
fn want(run: &mut ProvedRun) -> u32 {
    let tasks = run.log.unfinished();
    let number = |t: &u32| match run.step(*t) {
        Stepped::Refused(number) => Some(number),
        _ => None,
    };
    tasks.iter().find_map(number).unwrap_or(0)
}

/// How many answers of each task were compared. Each task's replies are the
/// first ones of its counterpart; once all have finished all of them, and the
/// same values are left. Otherwise it says what differs.
fn compared(run: &mut ProvedRun, off: &Off) -> Result<BTreeMap<Path, usize>, String> {
    let mut compared = BTreeMap::new();
    for (path, given) in run.log.replies() {
        let due = off.replies.get(path).map_or(&[][..], |due| &due[..]);
        let both = given.len().min(due.len());
        let beyond = off.stopped.is_none() && given.len() > due.len();
        if given[..both] != due[..both] || beyond {
            let at = (0..both).find(|i| given[*i] != due[*i]).unwrap_or(both);
            return Err(format!("{}: answer {}", name(path), at + 1));
        }
        compared.insert(path.clone(), both);
    }
    if off.stopped.is_some() || !run.log.unfinished().is_empty() {
        return Ok(compared);
    }
    if *run.log.replies() != off.replies || run.log.moves() != off.steps as u64 {
        return Err("a task's answers are missing".to_string());
    }
    match (0..4).find(|q| run.left(*q) != off.queues[*q as usize]) {
        Some(q) => Err(format!("the values left in queue {q}")),
        None => Ok(compared),
    }
}

/// A task by its place in the tree of spawns: the top, or "top.0.2".
pub fn name(path: &Path) -> String {
    let numbers = path.iter().map(|k| format!(".{k}"));
    format!("top{}", numbers.collect::<String>())
}
