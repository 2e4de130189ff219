//! Nanoseconds a call, best of several rounds.
//!
//! `bench` makes the same calls on the linked core and on the model, in turn.
//! `bench growth` makes calls on the linked core alone, and asks it for the ready
//! map, on memories of growing size. `bench serial` runs a job of 60,000 steps
//! without overlap on both, `bench overlap` the same job under a random order of
//! its tasks. `bench replay` replays traces of 65,535 lines. `bench simulate` simulates
//! that job, and one of many tasks, with workers. `bench span` works out the span of a
//! job, beside the model's one pass. `bench runs` pushes runs of values, `bench take`
//! takes a value. `bench counts` counts instructions instead, with valgrind; `bench
//! counts LETTERS` those of the scenes with these letters in their name.

use host::asm::assemble;
use host::call::Call;
use host::job::Job;
use host::layout::{TASKS, VALUES, WORDS};
use host::one_pass_span;
use host::replay::{self, Judged};
use host::runner::{self, RUNNER};
use host::serial::{self, End};
use host::simulate::{self, OURS};
use host::trace::MOST_LINES;
use link::instructions;
use link::linked;
use link::linked_jobs::{packed, run_serially, ANSWERS, WORKING};
use link::linked_replay;
use link::linked_runner;
use link::linked_simulation;
use link::long_job;
use link::ready_scenes::{self, ReadyScene};
use link::replay_scenes::{self, ReplayScene};
use link::run_scenes;
use link::scenes::{self, held_segments, unfinished_tasks, Scene};
use link::simulation_scenes::{self, SimulationScene};
use link::span_scenes::{self, SpanScene};
use link::take_scenes::{self, IN_A_ROW};
use std::process::ExitCode;
use std::time::Instant;

/// Many short rounds, so that the best of them had the processor to itself.
const ROUNDS: u32 = 301;
/// Calls of one timing, about.
const CALLS: usize = 400;

/// How a call is made, with the answer in one number.
type Make = fn(&Call, &mut [u32]) -> u64;

fn model(call: &Call, words: &mut [u32]) -> u64 {
    linked::packed(call.make(words))
}

/// Best nanoseconds a call so far, and a sum over all answers and words.
struct Side {
    make: Make,
    best: f64,
    sum: u64,
}

impl Side {
    fn new(make: Make) -> Side {
        Side {
            make,
            best: f64::INFINITY,
            sum: 0,
        }
    }

    /// Leads to the scene untimed, then times its repeated calls.
    fn round(&mut self, scene: &Scene) {
        let mut words = vec![0; WORDS];
        for call in &scene.start {
            (self.make)(call, &mut words);
        }
        let times = CALLS.div_ceil(scene.again.len());
        let begin = Instant::now();
        for _ in 0..times {
            for call in &scene.again {
                self.add((self.make)(call, &mut words));
            }
        }
        let nanoseconds = begin.elapsed().as_nanos() as f64;
        self.best = self
            .best
            .min(nanoseconds / (times * scene.again.len()) as f64);
        words.iter().for_each(|word| self.add(u64::from(*word)));
    }

    fn add(&mut self, number: u64) {
        self.sum = self.sum.rotate_left(1) ^ number;
    }
}

/// The linked core beside the model.
fn beside_the_model() {
    println!("{:10}{:>10}{:>10}{:>8}", "", "linked", "model", "ratio");
    for scene in scenes::all() {
        let (mut core, mut model) = (Side::new(linked::make), Side::new(model));
        for _ in 0..ROUNDS {
            core.round(&scene);
            model.round(&scene);
        }
        assert_eq!(core.sum, model.sum, "{}: answers or words", scene.name);
        let ratio = core.best / model.best;
        let (name, core, model) = (scene.name, core.best, model.best);
        println!("{name:10}{core:>10.0}{model:>10.0}{ratio:>8.2}");
    }
}

/// The linked core's time beside the number of unfinished tasks and of held
/// segments: where it grows no faster than these, the last column does not rise.
fn growth() {
    println!(
        "{:10}{:>7}{:>10}{:>8}{:>10}",
        "", "tasks", "segments", "ns", "ns each"
    );
    for scene in scenes::growing() {
        let m = scene.memory();
        let (tasks, segments) = (unfinished_tasks(&m), held_segments(&m));
        let mut core = Side::new(linked::make);
        for _ in 0..ROUNDS {
            core.round(&scene);
        }
        let each = core.best / f64::from(tasks + segments);
        let (name, best) = (scene.name, core.best);
        println!("{name:10}{tasks:>7}{segments:>10}{best:>8.0}{each:>10.1}");
    }
    println!(
        "{:10}{:>7}{:>8}{:>10}",
        "ready map", "tasks", "ns", "ns each"
    );
    for scene in ready_scenes::growing() {
        let best = map_time(&scene);
        let (name, tasks, each) = (scene.name, scene.tasks, best / f64::from(scene.tasks));
        println!("{name:10}{tasks:>7}{best:>8.0}{each:>10.1}");
    }
}

/// Best nanoseconds of the linked core for one ready map, which is the model's.
fn map_time(scene: &ReadyScene) -> f64 {
    let (job, core, words) = (&scene.job, &scene.core, &scene.words);
    let due = linked_runner::map_words(runner::ready(job, core, words).1);
    let mut best = f64::INFINITY;
    for _ in 0..ROUNDS {
        let mut map = [0; 6];
        let (time, _) = timed(|| linked_runner::ready(job, core, words, &mut map));
        assert_eq!(map, due, "{}", scene.name);
        best = best.min(time);
    }
    best
}

/// Nanoseconds that this takes.
fn timed<T>(work: impl FnOnce() -> T) -> (f64, T) {
    let begin = Instant::now();
    let result = work();
    (begin.elapsed().as_nanos() as f64, result)
}

/// The job test and the run of a long job, on the library and on the model.
fn without_overlap() {
    let job = assemble(long_job::TEXT).expect("the long job assembles");
    let (mut working, mut answers) = (vec![0; WORKING], vec![0; ANSWERS]);
    let (mut linked, mut model) = (f64::INFINITY, f64::INFINITY);
    for _ in 0..ROUNDS {
        let (time, answer) = timed(|| run_serially(&job, &mut working, &mut answers));
        assert_eq!(answer, packed(End::Ended, long_job::STEPS));
        linked = linked.min(time / long_job::STEPS as f64);
        let (time, run) = timed(|| Job::read(&job).map(|job| serial::run(&job)));
        assert_eq!(run.map(|run| run.events.len()), Ok(long_job::STEPS));
        model = model.min(time / long_job::STEPS as f64);
    }
    println!("{:10}{:>10}{:>10}{:>8}", "", "linked", "model", "ratio");
    let ratio = linked / model;
    println!("{:10}{linked:>10.2}{model:>10.2}{ratio:>8.2}", "a step");
}

/// Rounds of a run under another order, which takes longer.
const RUNS: u32 = 31;

/// How a job is opened and a step is made, with the answer in one number.
type Steps = (
    fn(&[u8], &mut [u32], &mut [u32]) -> u64,
    fn(&[u8], &mut [u32], &mut [u32], u32) -> u64,
);

const LINKED: Steps = (linked_runner::open, linked_runner::step);
const MODEL: Steps = (
    |job, core, words| linked_runner::packed(runner::open(job, core, words)),
    |job, core, words, t| linked_runner::packed(runner::step(job, core, words, t)),
);

/// Nanoseconds a call of a run, and a sum over all answers.
fn run_order((open, step): Steps, job: &[u8], tasks: &[u32]) -> (f64, u64) {
    let (mut core, mut words) = (vec![0; WORDS], vec![0; RUNNER]);
    open(job, &mut core, &mut words);
    let (time, sum) = timed(|| {
        let add = |sum: u64, t: &u32| sum.rotate_left(1) ^ step(job, &mut core, &mut words, *t);
        tasks.iter().fold(0, add)
    });
    (time / tasks.len() as f64, sum)
}

/// Nanoseconds a call of the same run as one list, and the same sum.
fn run_list(job: &[u8], tasks: &[u32]) -> (f64, u64) {
    let (mut core, mut words) = (vec![0; WORDS], vec![0; RUNNER]);
    let mut answers = vec![0; tasks.len()];
    let (time, _) = timed(|| linked_runner::run(job, &mut core, &mut words, tasks, &mut answers));
    let sum = answers
        .iter()
        .fold(0u64, |sum, answer| sum.rotate_left(1) ^ answer);
    (time / tasks.len() as f64, sum)
}

/// The long job with overlap, on the library and on the model; and on the
/// library as one list of steps.
fn with_overlap() {
    let job = assemble(long_job::TEXT).expect("the long job assembles");
    let tasks = long_job::order(&job);
    let (mut linked, mut model, mut list) = (f64::INFINITY, f64::INFINITY, f64::INFINITY);
    for _ in 0..RUNS {
        let (time, sum) = run_order(LINKED, &job, &tasks);
        linked = linked.min(time);
        let (time, due) = run_order(MODEL, &job, &tasks);
        model = model.min(time);
        assert_eq!(sum, due, "answers");
        let (time, sum) = run_list(&job, &tasks);
        list = list.min(time);
        assert_eq!(sum, due, "answers of the list");
    }
    println!("{} calls, {} of them moved", tasks.len(), long_job::STEPS);
    println!("{:10}{:>10}{:>10}{:>8}", "", "linked", "model", "ratio");
    let (ratio, list_ratio) = (linked / model, list / model);
    println!("{:10}{linked:>10.0}{model:>10.0}{ratio:>8.2}", "a call");
    println!(
        "{:10}{list:>10.1}{model:>10.0}{list_ratio:>8.3}",
        "of a list"
    );
}

/// Best nanoseconds a line: of the linked replay and of the model's; and a step
/// of the same calls as one list of the linked library.
fn replay_times(scene: &ReplayScene) -> [f64; 3] {
    let (job, trace) = (&scene.job, &scene.trace);
    let (mut core, mut words) = (vec![0; WORDS], vec![0; RUNNER]);
    let mut answers = vec![0; scene.tasks.len()];
    let mut best = [f64::INFINITY; 3];
    for _ in 0..RUNS {
        let (linked, answer) = timed(|| linked_replay::replay(job, trace, &mut core, &mut words));
        assert_eq!(
            answer,
            linked_replay::packed(Judged::Agrees),
            "{}",
            scene.name
        );
        let (model, judged) = timed(|| replay::replay(job, trace, &mut core, &mut words));
        assert_eq!(judged, Judged::Agrees, "{}", scene.name);
        let run = || linked_runner::run(job, &mut core, &mut words, &scene.tasks, &mut answers);
        let (list, _) = timed(run);
        let (lines, steps) = (MOST_LINES as f64, scene.tasks.len() as f64);
        for (best, time) in best
            .iter_mut()
            .zip([linked / lines, model / lines, list / steps])
        {
            *best = best.min(time);
        }
    }
    best
}

/// Traces of the most lines, on the library and on the model, and their steps as
/// a list.
fn replays() {
    println!(
        "{:20}{:>10}{:>10}{:>8}{:>12}{:>8}{:>14}{:>14}",
        "", "linked", "model", "ratio", "of a list", "ratio", "linked, 1/s", "model, 1/s"
    );
    for scene in replay_scenes::all() {
        let [linked, model, list] = replay_times(&scene);
        let (of_model, of_list) = (linked / model, linked / list);
        let (a_second, of_the_model) = (1e9 / linked, 1e9 / model);
        let name = scene.name;
        println!(
            "{name:20}{linked:>10.1}{model:>10.1}{of_model:>8.2}{list:>12.1}{of_list:>8.2}{a_second:>14.0}{of_the_model:>14.0}"
        );
    }
}

/// Best nanoseconds an effect: of the linked simulation and of the model's.
fn simulation_times(scene: &SimulationScene) -> [f64; 2] {
    let (job, workers, due) = (&scene.job, scene.workers, scene.due(&mut ()));
    let [mut core, mut words, mut working] =
        [WORDS, RUNNER, simulate::WORKING].map(|length| vec![0; length]);
    let mut best = [f64::INFINITY; 2];
    for _ in 0..RUNS {
        let (lent, mut out) = ([&mut core[..], &mut words, &mut working], [0; 3]);
        let (linked, answer) = timed(|| linked_simulation::simulate(job, workers, lent, &mut out));
        assert_eq!(answer, linked_simulation::packed(due));
        assert_eq!(out, due.out(), "{}", scene.name);
        let (model, given) =
            timed(|| simulate::simulate(job, workers, &OURS, &mut core, &mut words, &mut working));
        assert_eq!(given, due, "{}", scene.name);
        for (best, time) in best.iter_mut().zip([linked, model]) {
            *best = best.min(time / scene.effects as f64);
        }
    }
    best
}

/// Simulations on the library and on the model: nanoseconds an effect.
fn simulations() {
    println!("{:40}{:>10}{:>10}{:>8}", "", "linked", "model", "ratio");
    for scene in simulation_scenes::all() {
        let [linked, model] = simulation_times(&scene);
        let (name, ratio) = (scene.name, linked / model);
        println!("{name:40}{linked:>10.1}{model:>10.1}{ratio:>8.2}");
    }
}

/// Best nanoseconds a step: of the linked simulation with one worker, of the one that
/// stops before its last effect, of the model's simulation, and of its span.
fn span_times(scene: &SpanScene) -> [f64; 4] {
    let [mut core, mut words, mut working] =
        [WORDS, RUNNER, simulate::WORKING].map(|length| vec![0; length]);
    let job = Job::read(&scene.ends).expect("a job");
    let due = one_pass_span::span(&job, &OURS).expect("it ends");
    let mut best = [f64::INFINITY; 4];
    for _ in 0..ROUNDS {
        let [ends, stops] = [&scene.ends, &scene.stops].map(|job| {
            let (lent, mut out) = ([&mut core[..], &mut words, &mut working], [0; 3]);
            let (time, answer) = timed(|| linked_simulation::simulate(job, 1, lent, &mut out));
            (time, answer >> 32, out[2])
        });
        assert_eq!([ends.1, stops.1], [0, 9], "one ends, the other stops");
        assert_eq!([ends.2, stops.2], [due, 0], "spans");
        let (model, given) = timed(|| {
            simulate::simulate(&scene.ends, 1, &OURS, &mut core, &mut words, &mut working)
        });
        assert_eq!(given.out()[2], due);
        let (one_pass, span) = timed(|| one_pass_span::span(&job, &OURS));
        assert_eq!(span, Some(due));
        for (best, time) in best.iter_mut().zip([ends.0, stops.0, model, one_pass]) {
            *best = best.min(time / scene.steps as f64);
        }
    }
    best
}

/// The span of a job on the library and on the model: nanoseconds a step, and the whole
/// simulation with it.
fn spans() {
    println!("span: what a simulation that ends takes longer than one that stops with 9 instead");
    println!(
        "{:14}{:>10}{:>10}{:>8}{:>14}{:>10}{:>10}{:>8}",
        "", "span", "one pass", "ratio", "ends", "stops", "model", "ratio"
    );
    for scene in span_scenes::all() {
        let [ends, stops, model, one_pass] = span_times(&scene);
        let (name, span) = (scene.name, ends - stops);
        let (ratio, whole) = (span / one_pass, ends / model);
        println!(
            "{name:14}{span:>10.2}{one_pass:>10.2}{ratio:>8.2}{ends:>14.1}{stops:>10.1}{model:>10.1}{whole:>8.2}"
        );
    }
}

/// Memories of one timing, so that the clock's own time counts for little.
const COPIES: usize = 4;

type Work<'a> = &'a dyn Fn(&mut [u32]);

/// Best nanoseconds of each work, in turn, on copies of the memory.
fn best_of<const N: usize>(memory: &[u32], works: [Work; N]) -> [f64; N] {
    let mut copies = vec![memory.to_vec(); COPIES];
    let mut best = [f64::INFINITY; N];
    for _ in 0..ROUNDS {
        for (work, best) in works.iter().zip(&mut best) {
            copies.iter_mut().for_each(|m| m.copy_from_slice(memory));
            let (time, ()) = timed(|| copies.iter_mut().for_each(|m| work(m)));
            *best = best.min(time / COPIES as f64);
        }
    }
    best
}

/// The words after this work.
fn after(memory: &[u32], work: Work) -> Vec<u32> {
    let mut words = memory.to_vec();
    work(&mut words);
    words
}

/// Runs of values on the library, beside single pushes of the library, beside the
/// model, and beside copying the values and testing the memory once.
fn runs() {
    println!("{:40}{:>10}{:>10}{:>10}", "", "run", "beside", "ratio");
    for scene in [run_scenes::block(), run_scenes::long()] {
        let (run, single) = (scene.push(), scene.pushes());
        let linked = |m: &mut [u32]| assert_eq!(linked::make(&run, m) >> 32, 0);
        let model = |m: &mut [u32]| assert!(run.make(m).moved());
        let singly = |m: &mut [u32]| {
            for call in &single {
                assert_eq!(linked::make(call, m) >> 32, 0);
            }
        };
        // A sync of no task is refused behind the memory test.
        let sync = Call::Sync { task: TASKS };
        let copied = |m: &mut [u32]| {
            m[VALUES..][..scene.values.len()].copy_from_slice(&scene.values);
            assert_eq!(linked::make(&sync, m) >> 32, 4);
        };
        let due = after(&scene.memory, &linked);
        assert!(due == after(&scene.memory, &model), "words of the model");
        assert!(
            due == after(&scene.memory, &singly),
            "words of single pushes"
        );
        let best = best_of(&scene.memory, [&linked, &singly, &model, &copied]);
        let names = ["single pushes", "the model", "copied, one memory test"];
        for (beside, name) in best[1..].iter().zip(names) {
            let (run, name) = (best[0], format!("{}; {name}", scene.name));
            println!("{name:40}{run:>10.0}{beside:>10.0}{:>10.3}", run / beside);
        }
    }
}

/// Takes of the library one after another, each beside a kept take and a take
/// behind it, which is what a host makes that looks first; and beside the model's.
fn takes() {
    println!("{:40}{:>10}{:>10}{:>10}", "", "take", "beside", "ratio");
    let scene = take_scenes::in_a_row();
    let (take, kept) = (scene.take(false), scene.take(true));
    let linked = |m: &mut [u32]| assert_eq!(linked::make(&take, m) >> 32, 0);
    let both = |m: &mut [u32]| {
        assert_eq!(linked::make(&kept, m), linked::make(&take, m));
    };
    let model = |m: &mut [u32]| assert!(take.make(m).moved());
    let works: [Work; 3] = [&linked, &both, &model];
    let rows = works.map(|work| move |m: &mut [u32]| (0..IN_A_ROW).for_each(|_| work(m)));
    let [linked, both, model] = &rows;
    let due = after(&scene.memory, linked);
    assert!(due == after(&scene.memory, model), "words of the model");
    assert!(due == after(&scene.memory, both), "words of both takes");
    let best = best_of(&scene.memory, [linked, both, model]).map(|time| time / IN_A_ROW as f64);
    for (beside, name) in best[1..].iter().zip(["kept, then taken", "the model"]) {
        let (take, name) = (best[0], format!("{}; {name}", scene.name));
        println!("{name:40}{take:>10.0}{beside:>10.0}{:>10.3}", take / beside);
    }
}

/// The instructions of each scene with these letters in its name.
fn counts(letters: &str) -> ExitCode {
    let scenes = instructions::scenes();
    let numbered = scenes.iter().enumerate();
    let wanted: Vec<_> = numbered
        .filter(|(_, scene)| scene.name.contains(letters))
        .collect();
    if wanted.is_empty() {
        eprintln!("bench: no scene of the counts has `{letters}` in its name");
        return ExitCode::FAILURE;
    }
    println!("{:40}{:>14}", "", "instructions");
    for (at, scene) in wanted {
        match instructions::count(at, scene) {
            Ok(count) => println!("{:40}{count:>14.1} {}", scene.name, scene.unit),
            Err(fault) => {
                eprintln!("bench: {fault}");
                return ExitCode::FAILURE;
            }
        }
    }
    ExitCode::SUCCESS
}

fn main() -> ExitCode {
    let words: Vec<String> = std::env::args().skip(1).collect();
    let words: Vec<&str> = words.iter().map(String::as_str).collect();
    let (run, rounds): (fn(), u32) = match words[..] {
        [] => (beside_the_model, ROUNDS),
        ["growth"] => (growth, ROUNDS),
        ["serial"] => (without_overlap, ROUNDS),
        ["overlap"] => (with_overlap, RUNS),
        ["replay"] => (replays, RUNS),
        ["simulate"] => (simulations, RUNS),
        ["span"] => (spans, ROUNDS),
        ["runs"] => (runs, ROUNDS),
        ["take"] => (takes, ROUNDS),
        ["counts"] => return counts(""),
        ["counts", letters] => return counts(letters),
        ["scene", scene, part] => {
            let number = |word: &str| word.parse().expect("a number");
            instructions::run(number(scene), number(part));
            return ExitCode::SUCCESS;
        }
        _ => {
            eprintln!(
                "bench [growth | serial | overlap | replay | simulate | span | runs | take | counts [LETTERS]]"
            );
            return ExitCode::FAILURE;
        }
    };
    println!("nanoseconds, best of {rounds} rounds");
    run();
    ExitCode::SUCCESS
}
