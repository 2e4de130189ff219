//! Simulations of the model: small jobs with their answers, refusals and their
//! order, and what is promised of the schedule, on random jobs.

use host::asm::assemble;
use host::crowded_jobs::crowded;
use host::erring_simulations;
use host::job::Job;
use host::layout::{status, FINISHED, WORDS};
use host::operations::OPERATIONS;
use host::overlap::{Log, Plain};
use host::plain::{Machine, Reply};
use host::random::Random;
use host::random_jobs::accepted;
use host::runner::{self, Stepped, RUNNER};
use host::schedule::{Bar, Schedule};
use host::simulate::*;
use host::timed_jobs;
use host::tree;
use std::collections::BTreeMap;

/// The three memories, with what was in them before.
struct Lent {
    core: Vec<u32>,
    runner: Vec<u32>,
    working: Vec<u32>,
}

impl Lent {
    fn new(core: usize, runner: usize, working: usize) -> Lent {
        Lent {
            core: vec![7; core],
            runner: vec![7; runner],
            working: vec![7; working],
        }
    }

    fn all() -> Lent {
        Lent::new(WORDS, RUNNER, WORKING)
    }

    fn slices(&mut self) -> [&mut [u32]; 3] {
        [&mut self.core, &mut self.runner, &mut self.working]
    }

    fn simulate(&mut self, job: &[u8], workers: u32) -> Simulated {
        let [m, r, working] = self.slices();
        simulate(job, workers, &OURS, m, r, working)
    }

    fn untouched(&self) -> bool {
        let all = [&self.core, &self.runner, &self.working];
        all.into_iter().flatten().all(|word| *word == 7)
    }
}

fn simulated(job: &[u8], workers: u32) -> Simulated {
    Lent::all().simulate(job, workers)
}

fn made(text: &str) -> Vec<u8> {
    assemble(text).expect("a job")
}

#[test]
fn small_jobs() {
    for job in timed_jobs::all() {
        for workers in 1..=MOST_WORKERS {
            let given = simulated(&job.job, workers);
            assert_eq!(given, job.due(workers), "{}, {workers}", job.name);
        }
    }
}

/// The tick at which the effect of each task is due, where one is under way.
fn under_way(lent: &Lent) -> Vec<(usize, u32)> {
    let words = lent.working[..ENDS].iter().copied().enumerate();
    words.filter(|(_, end)| *end != 0).collect()
}

fn left_by(name: &str, workers: u32) -> Lent {
    let all = timed_jobs::all();
    let job = all.iter().find(|job| job.name == name).expect("a job");
    let mut lent = Lent::all();
    assert_eq!(lent.simulate(&job.job, workers), job.due(workers));
    lent
}

/// What is under way when a simulation stops. An effect that is refused, and those
/// of its tick behind it, have not fallen.
#[test]
fn what_is_under_way_at_the_end() {
    let under_way = |name, workers| under_way(&left_by(name, workers));
    assert_eq!(under_way("document 01", 2), []);
    assert_eq!(under_way("ends with the last effect", 1), []);
    // The pop, when the second worker comes to the push at 405.
    assert_eq!(under_way("9 when chosen", 2), [(2, 408)]);
    assert_eq!(
        under_way("9 when its effect falls", 3),
        [(0, 1_527), (2, 1_528)]
    );
    assert_eq!(under_way("spent", 1), []);
    assert_eq!(under_way("spent within a tick", 1), []);
    assert_eq!(under_way("spent within a tick", 2), [(0, 32_773)]);
}

/// A finished top keeps its record; the runner's words are zeros then.
#[test]
fn memories_after_the_end() {
    for workers in 1..4 {
        let lent = left_by("document 01", workers);
        assert_eq!(status(&lent.core, 0), FINISHED);
        assert!(lent.runner.iter().all(|word| *word == 0));
    }
}

fn document_01() -> Vec<u8> {
    made(include_str!("../../jobs/document-01.txt"))
}

#[test]
fn workers_out_of_range() {
    for workers in [0, 17, 18, 256, 65_537, u32::MAX] {
        let mut lent = Lent::all();
        let given = lent.simulate(&document_01(), workers);
        assert_eq!(given, Simulated::Refused(14), "{workers}");
        assert!(lent.untouched());
    }
}

#[test]
fn the_order_of_refusals() {
    let changed = |at: usize, byte| {
        let mut job = document_01();
        job[at] = byte;
        job
    };
    let refused = [(vec![0; 3], 10), (changed(8, 3), 11), (changed(28, 11), 12)];
    for (job, number) in &refused {
        for workers in [0, 1, 17] {
            let mut lent = Lent::all();
            assert_eq!(lent.simulate(job, workers), Simulated::Refused(*number));
            assert!(lent.untouched());
        }
    }
    for (core, runner, working) in [
        (WORDS - 1, RUNNER, WORKING),
        (WORDS + 1, RUNNER, WORKING),
        (WORDS, RUNNER - 1, WORKING),
        (WORDS, RUNNER + 1, WORKING),
        (WORDS, RUNNER, WORKING - 1),
        (WORDS, RUNNER, WORKING + 1),
        (0, 0, 0),
    ] {
        for job in [document_01(), vec![0; 3]] {
            for workers in [0, 1] {
                let mut lent = Lent::new(core, runner, working);
                assert_eq!(lent.simulate(&job, workers), Simulated::Refused(1));
                assert!(lent.untouched());
            }
        }
    }
}

/// Each number of the table counts, for the operation that it is for.
#[test]
fn another_table() {
    let text = "length 1
        procedure top all
        push 0 5
        push-register 1 0
        pop 0
        go-if-empty 1 next
        next: go on
        on: go-if-zero over
        over: add 1
        spawn child 0
        sync
        take-or-go 1 end
        end: return
        procedure child
        return";
    let (job, work) = (made(text), OURS.iter().sum::<u32>() + OURS[0]);
    for operation in 0..OPERATIONS.len() {
        let mut table = OURS;
        table[operation] += 1_000;
        let mut lent = Lent::all();
        let [m, r, working] = lent.slices();
        let more = if operation == 0 { 2_000 } else { 1_000 };
        let due = u64::from(work + more);
        assert_eq!(
            simulate(&job, 1, &table, m, r, working),
            Simulated::Ended {
                ticks: due,
                work: due,
                span: due
            }
        );
    }
}

/// A schedule beside the job that is run again along it.
struct Again<'a> {
    job: &'a [u8],
    workers: usize,
    schedule: Schedule,
    core: Vec<u32>,
    runner: Vec<u32>,
    log: Log,
}

impl Again<'_> {
    fn of(job: &[u8], workers: u32) -> (Simulated, Again<'_>) {
        let (mut schedule, mut lent) = (Schedule::default(), Lent::all());
        let given = watched(job, workers, &OURS, lent.slices(), &mut schedule);
        let mut again = Again {
            job,
            workers: workers as usize,
            schedule,
            core: vec![9; WORDS],
            runner: vec![9; RUNNER],
            log: Log::default(),
        };
        runner::open(job, &mut again.core, &mut again.runner);
        (given, again)
    }

    fn order(&self) -> Vec<u32> {
        let mut tasks = tree::backward(&self.core);
        tasks.reverse();
        tasks
    }

    fn bars_at(&self, tick: u32) -> Vec<&Bar> {
        let bars = self.schedule.bars.iter();
        bars.filter(|bar| bar.start <= tick && tick < bar.end)
            .collect()
    }

    /// The effects of this tick, made again in program order.
    fn effects(&mut self, tick: u32) {
        let order = self.order();
        let schedule = &self.schedule;
        let fell = schedule.effects.iter().map(|at| &schedule.bars[*at]);
        let fell: Vec<Bar> = fell.filter(|bar| bar.end == tick).cloned().collect();
        let place = |bar: &Bar| order.iter().position(|t| *t == bar.task);
        assert!(fell.is_sorted_by_key(place), "effects of tick {tick}");
        for bar in fell {
            let answer = runner::step(self.job, &mut self.core, &mut self.runner, bar.task);
            assert_eq!(Some(answer), bar.reply.map(Stepped::Moved));
            self.log.note(bar.task, answer);
        }
    }

    /// Free workers took the first tasks, in program order, that could move; and a
    /// worker idles only where no other task could.
    fn choice(&self, tick: u32) {
        let held = self.bars_at(tick);
        assert!(held.len() <= self.workers, "{} workers", held.len());
        let map = runner::ready(self.job, &self.core, &self.runner).1;
        let ready = |t: &u32| map.words[(t / 32) as usize] >> (t % 32) & 1 == 1;
        let before = |t: &u32| held.iter().any(|bar| bar.task == *t && bar.start < tick);
        let order = self.order().into_iter();
        let able = order.filter(|t| ready(t) && !before(t));
        let free = self.workers - held.iter().filter(|bar| bar.start < tick).count();
        let due: Vec<u32> = able.take(free).collect();
        let new = held.iter().filter(|bar| bar.start == tick);
        let taken: Vec<u32> = new.map(|bar| bar.task).collect();
        assert_eq!(taken, due, "taken at tick {tick}");
    }

    /// No two bars of a task, or of a worker, at one time; each as long as its
    /// operation takes.
    fn bars(&self) {
        let bars = &self.schedule.bars;
        for (at, bar) in bars.iter().enumerate() {
            let ticks = OURS[usize::from(bar.instruction.operation)];
            assert_eq!(bar.end - bar.start, ticks, "{bar:?}");
            assert!(bar.worker < self.workers);
            let both = |other: &&Bar| bar.start < other.end && other.start < bar.end;
            for other in bars[..at].iter().filter(both) {
                assert_ne!(bar.worker, other.worker, "{bar:?} {other:?}");
                assert_ne!(bar.task, other.task, "{bar:?} {other:?}");
            }
        }
    }

    fn all(&mut self) {
        self.bars();
        let mut ticks: Vec<u32> = self.schedule.bars.iter().map(|bar| bar.end).collect();
        ticks.push(0);
        ticks.sort();
        ticks.dedup();
        for tick in ticks {
            self.effects(tick);
            if !self.log.unfinished().is_empty() {
                self.choice(tick);
            }
        }
    }
}

/// Steps of the jobs whose schedules are looked at.
const MOST_STEPS: u64 = 300;

/// What document 02 says of a simulation, on random jobs that come to their end.
#[test]
fn promises() {
    let mut ended = 0;
    for seed in 0..150 {
        let r = &mut Random::new(seed);
        let job = accepted(r);
        let Some(plain) = Plain::run(&Job::read(&job).expect("a job"), MOST_STEPS) else {
            continue;
        };
        for workers in [1, 2, 3, 5, 16] {
            let (given, mut again) = Again::of(&job, workers);
            let Simulated::Ended { ticks, work, .. } = given else {
                continue;
            };
            again.all();
            assert_eq!(plain.differs(&again.log), None, "seed {seed}");
            assert!(again.log.unfinished().is_empty(), "seed {seed}");
            let bars = &again.schedule.bars;
            let last = bars.last().expect("the top's return");
            assert_eq!((last.task, last.reply), (0, Some(Reply::Finished)));
            assert_eq!(u64::from(last.end), ticks);
            let sum: u32 = bars.iter().map(|bar| bar.end - bar.start).sum();
            assert_eq!(u64::from(sum), work);
            assert!(work <= ticks * u64::from(workers) && ticks <= work);
            ended += 1;
        }
    }
    assert!(ended > 300, "{ended} simulations ended");
}

/// The ticks of all steps of the plain machine, if it ends by then.
fn plain_work(job: &Job, most: usize) -> Option<u64> {
    let mut machine = Machine::new(job);
    let mut work = 0;
    for _ in 0..most {
        let Some(event) = machine.step() else {
            return Some(work);
        };
        work += u64::from(OURS[usize::from(event.operation)]);
    }
    None
}

/// The work is that of the plain machine's steps, whatever the workers; and one
/// worker is never idle.
#[test]
fn work_whatever_the_workers() {
    let mut ended = 0;
    for seed in 0..600 {
        let job = accepted(&mut Random::new(seed));
        let Some(due) = plain_work(&Job::read(&job).expect("a job"), 3_000) else {
            continue;
        };
        for workers in 1..=MOST_WORKERS {
            let Simulated::Ended { ticks, work, .. } = simulated(&job, workers) else {
                continue;
            };
            assert_eq!(work, due, "seed {seed}, {workers}");
            assert!(workers > 1 || ticks == work, "seed {seed}");
            ended += 1;
        }
    }
    assert!(ended > 3_000, "{ended} simulations ended");
}

/// A random job, often one with few segments or records, that is not too long.
fn some_job(r: &mut Random) -> Option<Vec<u8>> {
    let job = if r.chance(40) {
        accepted(r)
    } else {
        crowded(r)
    };
    let plain = Plain::run(&Job::read(&job).expect("a job"), 2_000);
    (plain.is_some() || r.chance(4)).then_some(job)
}

/// The same, memories too, by questions that are steps on copies.
#[test]
fn word_by_word() {
    let mut came = BTreeMap::new();
    for seed in 0..250 {
        let r = &mut Random::new(seed);
        let Some(job) = some_job(r) else {
            continue;
        };
        let workers = r.within(0, 17);
        let (mut lent, mut plainly) = (Lent::all(), Lent::all());
        let given = lent.simulate(&job, workers);
        let due = erring_simulations::simulate(None, &job, workers, &OURS, plainly.slices());
        assert_eq!(given, due, "seed {seed}");
        assert!(lent.core == plainly.core, "seed {seed}");
        assert!(lent.runner == plainly.runner, "seed {seed}");
        assert!(lent.working == plainly.working, "seed {seed}");
        *came.entry(given.status()).or_insert(0) += 1;
    }
    println!("{came:?}");
    let all: Vec<u32> = came.into_keys().collect();
    assert_eq!(all, [0, 8, 9, 14, 35]);
}
