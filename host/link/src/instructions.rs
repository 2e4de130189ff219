//! Instructions that a call takes, counted by valgrind's callgrind: they do not
//! hang on what else the machine does.
//!
//! A scene is run by this program in a process of its own under valgrind, which
//! counts inside one exported function only.

use crate::large_job::{large, BODIES, BODY};
use crate::proved_run::printed;
use crate::run_scenes::{self, RunScene};
use crate::simulation_scenes::{self, SimulationScene};
use crate::span_scenes::{self, SpanScene};
use crate::take_scenes::{self, TakeScene};
use crate::{linked, linked_replay, linked_runner, linked_simulation};
use host::asm::assemble;
use host::call::Call;
use host::job::Job;
use host::layout::{segment_place, WORDS};
use host::one_pass_span;
use host::runner::{self, RUNNER};
use host::simulate::{OURS, WORKING};
use std::process::Command;

const DOWNLOAD_BENCH: &str = include_str!("../../../jobs/download-bench.txt");
/// Calls of a scene that makes the same call over and over.
const TIMES: u64 = 64;

/// Calls of one exported function, in which alone is counted.
struct Part {
    call: &'static str,
    run: Box<dyn Fn()>,
}

pub struct Scene {
    pub name: String,
    /// What is counted.
    part: Part,
    /// What is taken off the count.
    less: Vec<Part>,
    /// What the count is divided by, and how often it was there.
    pub unit: &'static str,
    units: u64,
}

impl Scene {
    fn parts(&self) -> impl Iterator<Item = &Part> {
        std::iter::once(&self.part).chain(&self.less)
    }
}

/// Both memories and a job.
struct Stage {
    job: Vec<u8>,
    core: Vec<u32>,
    runner: Vec<u32>,
}

impl Stage {
    fn of(job: Vec<u8>) -> Stage {
        let (core, runner) = (vec![0; WORDS], vec![0; RUNNER]);
        Stage { job, core, runner }
    }

    fn open(&mut self) {
        linked_runner::open(&self.job, &mut self.core, &mut self.runner);
    }

    fn step(&mut self, task: u32) -> u64 {
        linked_runner::step(&self.job, &mut self.core, &mut self.runner, task)
    }

    fn replay(&mut self, trace: &[u8]) -> u64 {
        linked_replay::replay(&self.job, trace, &mut self.core, &mut self.runner)
    }

    fn run(&mut self, tasks: &[u32]) {
        let mut answers = vec![0; tasks.len()];
        let (core, runner) = (&mut self.core, &mut self.runner);
        let answer = linked_runner::run(&self.job, core, runner, tasks, &mut answers);
        assert_eq!(answer, 44 << 32, "the list of steps is made");
    }
}

fn small() -> Vec<u8> {
    assemble(DOWNLOAD_BENCH).expect("the download bench assembles")
}

/// So many children of the top, each about to push and none able to pop.
fn children(number: usize) -> Stage {
    let text = "length 4
        procedure top all
        again: spawn child 1
        go again
        procedure child push 0
        push 0 1
        return";
    let mut stage = Stage::of(assemble(text).expect("the children assemble"));
    stage.run(&vec![0; 2 * number]);
    stage
}

/// Turns over all tasks until the small job is over. Made on the model, since
/// the library's calls count.
fn turns(job: &[u8]) -> Vec<u32> {
    let (mut core, mut words) = (vec![0; WORDS], vec![0; RUNNER]);
    runner::open(job, &mut core, &mut words);
    let (mut tasks, mut idle) = (Vec::new(), 0);
    for task in (0..8).cycle() {
        let moved = runner::step(job, &mut core, &mut words, task).moved();
        idle = if moved { 0 } else { idle + 1 };
        if idle == 8 {
            return tasks;
        }
        tasks.push(task);
    }
    tasks
}

fn tested(job: Vec<u8>) -> Part {
    Part {
        call: "hq_job_test",
        run: Box::new(move || {
            for _ in 0..TIMES {
                let _ = hyperqueue::jobs::test(&job);
            }
        }),
    }
}

fn job_test(name: &str, job: Vec<u8>, units: u64) -> Scene {
    Scene {
        name: format!("job test, {name}"),
        part: tested(job),
        less: vec![],
        unit: "an instruction of the job",
        units: units * TIMES,
    }
}

/// Tests of the core alone: a call that is refused right behind them, or by them.
fn core_tests(memory: impl Fn() -> Vec<u32> + 'static) -> Part {
    Part {
        call: "hq_sync",
        run: Box::new(move || {
            let (mut core, call) = (memory(), Call::Sync { task: 128 });
            for _ in 0..TIMES {
                linked::make(&call, &mut core);
            }
        }),
    }
}

fn memory_test(name: &str, core: Vec<u32>) -> Scene {
    Scene {
        name: format!("memory test, {name}"),
        part: core_tests(move || core.clone()),
        less: vec![],
        unit: "a call",
        units: TIMES,
    }
}

/// The memory test on each memory of `bench`, and on those with tasks few and
/// many where it fails since a segment stands on the stack twice.
fn memory_tests() -> Vec<Scene> {
    let mut all = Vec::new();
    for scene in crate::scenes::all() {
        let mut core = scene.memory();
        all.push(memory_test(scene.name, core.clone()));
        if ["fresh", "wide"].contains(&scene.name) {
            core[segment_place(0)] = core[segment_place(1)];
            all.push(memory_test(&format!("{}, refused", scene.name), core));
        }
    }
    all
}

/// The push of a run, on the same memory over and over.
fn pushed(scene: &RunScene) -> Part {
    let (memory, push) = (scene.memory.clone(), scene.push());
    Part {
        call: "hq_push",
        run: Box::new(move || {
            let mut core = memory.clone();
            for _ in 0..TIMES {
                core.copy_from_slice(&memory);
                linked::make(&push, &mut core);
            }
        }),
    }
}

/// The whole push of a run; and what it takes beyond the memory test.
fn run_of_values(scene: RunScene) -> [Scene; 2] {
    let (part, again) = (pushed(&scene), pushed(&scene));
    let units = TIMES * scene.values.len() as u64;
    let memory = scene.memory;
    [
        Scene {
            name: format!("push of {}", scene.name),
            part,
            less: vec![],
            unit: "a call",
            units: TIMES,
        },
        Scene {
            name: format!("push of {}, beyond the test", scene.name),
            part: again,
            less: vec![core_tests(move || memory.clone())],
            unit: "a value",
            units,
        },
    ]
}

/// A take, on the same memory over and over; with the value kept too.
fn taken(scene: TakeScene) -> [Scene; 2] {
    [false, true].map(|keep| {
        let (memory, take) = (scene.memory.clone(), scene.take(keep));
        let run = move || {
            let mut core = memory.clone();
            for _ in 0..TIMES {
                core.copy_from_slice(&memory);
                linked::make(&take, &mut core);
            }
        };
        Scene {
            name: format!(
                "{} of {}",
                if keep { "kept take" } else { "take" },
                scene.name
            ),
            part: Part {
                call: "hq_take",
                run: Box::new(run),
            },
            less: vec![],
            unit: "a call",
            units: TIMES,
        }
    })
}

fn simulation(job: Vec<u8>, workers: u32) -> Part {
    let run = move || {
        let mut lent = [WORDS, RUNNER, WORKING].map(|length| vec![0; length]);
        let slices = lent.each_mut().map(|words| &mut words[..]);
        linked_simulation::simulate(&job, workers, slices, &mut [0; 3]);
    };
    Part {
        call: "hq_simulate",
        run: Box::new(run),
    }
}

/// A whole simulation.
fn simulated(scene: SimulationScene) -> Scene {
    Scene {
        name: scene.name,
        part: simulation(scene.job, scene.workers),
        less: vec![],
        unit: "an effect",
        units: scene.effects as u64,
    }
}

/// The span of a job: what a simulation takes more than one that stops before its last
/// effect, that effect included; and the model's own, in one pass.
fn spanned(scene: SpanScene) -> [Scene; 2] {
    let (units, unit) = (scene.steps as u64, "a step");
    let job = Job::read(&scene.ends).expect("a job");
    let one_pass = Part {
        call: "host::one_pass_span::span*",
        run: Box::new(move || {
            one_pass_span::span(&job, &OURS);
        }),
    };
    [
        Scene {
            name: format!("span, {}", scene.name),
            part: simulation(scene.ends, 1),
            less: vec![simulation(scene.stops, 1)],
            unit,
            units,
        },
        Scene {
            name: format!("span of the model, {}", scene.name),
            part: one_pass,
            less: vec![],
            unit,
            units,
        },
    ]
}

/// The runner's tests without those of the core and of the job: its words, all
/// but one record of them free.
fn runner_words() -> Scene {
    let step = || {
        let mut stage = children(0);
        for _ in 0..TIMES {
            stage.step(128);
        }
    };
    Scene {
        name: "runner's words, 1 task".to_string(),
        part: Part {
            call: "hq_job_step",
            run: Box::new(step),
        },
        less: vec![core_tests(|| children(0).core), tested(children(0).job)],
        unit: "a record",
        units: 128 * TIMES,
    }
}

fn one_by_one(name: &str, job: Vec<u8>, tasks: Vec<u32>) -> Scene {
    let units = tasks.len() as u64;
    let run = move || {
        let mut stage = Stage::of(job.clone());
        stage.open();
        for task in &tasks {
            stage.step(*task);
        }
    };
    Scene {
        name: format!("{name}, step by step"),
        part: Part {
            call: "hq_job_step",
            run: Box::new(run),
        },
        less: vec![],
        unit: "a step",
        units,
    }
}

fn list(job: Vec<u8>, tasks: Vec<u32>) -> Part {
    Part {
        call: "hq_job_run",
        run: Box::new(move || Stage::of(job.clone()).run(&tasks)),
    }
}

/// What a list of steps takes beyond its opening: an empty list.
fn listed(name: &str, job: Vec<u8>, tasks: Vec<u32>) -> [Scene; 2] {
    let units = tasks.len() as u64;
    [
        Scene {
            name: format!("{name}, an empty list"),
            part: list(job.clone(), vec![]),
            less: vec![],
            unit: "a call",
            units: 1,
        },
        Scene {
            name: format!("{name}, a list of steps"),
            part: list(job.clone(), tasks),
            less: vec![list(job, vec![])],
            unit: "a step",
            units,
        },
    ]
}

/// The lines of these tasks' calls.
fn trace(job: &[u8], tasks: &[u32]) -> Vec<u8> {
    let tasks: Vec<u8> = tasks.iter().map(|task| *task as u8).collect();
    let text = printed(job, &tasks).map_or(String::new(), |printed| printed.text);
    let lines: Vec<&str> = text.split_inclusive('\n').take(tasks.len()).collect();
    lines.concat().into_bytes()
}

/// The replay of a trace, which is made when the part is run, since the library's
/// other calls do not count then.
fn replay(job: &[u8], trace: impl Fn(&[u8]) -> Vec<u8> + 'static) -> Part {
    let job = job.to_vec();
    Part {
        call: "hq_replay",
        run: Box::new(move || {
            let trace = trace(&job);
            Stage::of(job.clone()).replay(&trace);
        }),
    }
}

/// What the replay of a trace takes beyond that of an empty one; and the form of
/// its lines: without the last line feed it is refused, and so is a line feed by
/// itself, which is taken off.
fn replayed(name: &str, job: Vec<u8>, tasks: Vec<u32>) -> [Scene; 2] {
    let units = tasks.len() as u64;
    let (whole, cut) = (tasks.clone(), tasks);
    let cut_trace = move |job: &[u8]| {
        let mut trace = trace(job, &cut);
        trace.pop();
        trace
    };
    [
        Scene {
            name: format!("{name}, a trace"),
            part: replay(&job, move |job| trace(job, &whole)),
            less: vec![replay(&job, |_| vec![])],
            unit: "a line",
            units,
        },
        Scene {
            name: format!("{name}, the form of a trace"),
            part: replay(&job, cut_trace),
            less: vec![replay(&job, |_| vec![b'\n'])],
            unit: "a line",
            units,
        },
    ]
}

fn ready(tasks: usize) -> Scene {
    let run = move || {
        let (stage, mut map) = (children(tasks - 1), [0; 6]);
        for _ in 0..TIMES {
            linked_runner::ready(&stage.job, &stage.core, &stage.runner, &mut map);
        }
    };
    Scene {
        name: format!("ready map, {tasks} tasks"),
        part: Part {
            call: "hq_job_ready",
            run: Box::new(run),
        },
        less: vec![],
        unit: "a call",
        units: TIMES,
    }
}

pub fn scenes() -> Vec<Scene> {
    let (small_job, large_job) = (small(), large(BODIES));
    let order = turns(&small_job);
    let bodies = Job::read(&small_job).expect("a job");
    let body: usize = bodies.procedures().iter().map(|p| p.body.len()).sum();
    let mut all = vec![
        job_test(
            "64 bodies of 128",
            large_job.clone(),
            (BODIES * BODY) as u64,
        ),
        job_test("small", small_job.clone(), body as u64),
    ];
    all.push(runner_words());
    for (name, job, tasks) in [
        ("small job", small_job, order),
        ("1 body of 128", large(1), vec![0; 1_000]),
        ("64 bodies of 128", large_job, vec![0; 1_000]),
    ] {
        all.push(one_by_one(name, job.clone(), tasks.clone()));
        all.extend(listed(name, job.clone(), tasks.clone()));
        all.extend(replayed(name, job, tasks));
    }
    all.extend([2, 17, 33, 65, 128].map(ready));
    all.extend(memory_tests());
    for scene in [run_scenes::one(), run_scenes::block(), run_scenes::long()] {
        all.extend(run_of_values(scene));
    }
    all.extend(take_scenes::all().into_iter().flat_map(taken));
    all.extend(simulation_scenes::all().into_iter().map(simulated));
    all.extend(span_scenes::all().into_iter().flat_map(spanned));
    all
}

/// Runs a part of a scene: what the process under valgrind does.
pub fn run(scene: usize, part: usize) {
    let scenes = scenes();
    let part = scenes[scene].parts().nth(part).expect("a part");
    (part.run)();
}

/// The instructions of a part of a scene.
fn collected(scene: usize, at: usize, part: &Part) -> Result<u64, String> {
    let program = std::env::current_exe().map_err(|fault| fault.to_string())?;
    let output = Command::new("valgrind")
        .args(["--tool=callgrind", "--callgrind-out-file=/dev/null"])
        .arg(format!("--toggle-collect={}", part.call))
        .arg(program)
        .args(["scene", &scene.to_string(), &at.to_string()])
        .output()
        .map_err(|fault| format!("valgrind: {fault}"))?;
    let text = String::from_utf8_lossy(&output.stderr);
    let total = text
        .lines()
        .find_map(|line| line.split_once("Collected : "))
        .and_then(|(_, number)| number.trim().parse().ok());
    match total {
        Some(total) if output.status.success() => Ok(total),
        _ => Err(format!("valgrind counted nothing: {text}")),
    }
}

/// The instructions of scene number `at` for each unit.
pub fn count(at: usize, scene: &Scene) -> Result<f64, String> {
    let counts: Result<Vec<u64>, String> = scene
        .parts()
        .enumerate()
        .map(|(number, part)| collected(at, number, part))
        .collect();
    let counts = counts?;
    let less: u64 = counts[1..].iter().sum();
    Ok((counts[0] - less) as f64 / scene.units as f64)
}
