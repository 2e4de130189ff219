//! A job simulated with workers. The library answers; the picture is drawn from the
//! model's schedule, where the two agree.

use super::input::{self, Input};
use super::prints::told;
use super::words::Words;
use super::{Fault, Said};
use crate::simulation_picture::{self, Drawn};
use host::chain::{self, Places};
use host::job::Job;
use host::layout::WORDS;
use host::runner::RUNNER;
use host::schedule::Schedule;
use host::simulate::{self, OURS};
use hyperqueue::simulation::{self, ceiling, Simulated, MOST_WORKERS};
use std::fmt::Write;
use std::fs;
use std::ops::RangeInclusive;

pub fn simulate(words: &Words) -> Result<Said, Fault> {
    let workers = asked(words)?;
    let job = input::job(words.file)?;
    let one = simulated(&job.bytes, 1);
    if let Simulated::Refused(number) = one {
        return Ok(told(&job.bytes, number));
    }
    let mut out = format!(
        "{:>7}{:>10}{:>10}{:>10}{:>10}{:>10}{:>13}\n",
        "workers", "ticks", "work", "span", "ceiling", "speed-up", "utilisation"
    );
    let mut fine = true;
    for number in workers.clone() {
        let given = simulated(&job.bytes, number);
        fine &= matches!(given, Simulated::Ended { .. });
        let _ = writeln!(out, "{number:>7}{}", row(number, given, one));
    }
    match words.text("--draw") {
        Some(file) => draw(&job, words.file, file, &workers, Said::only(fine, out)),
        None => Ok(Said::only(fine, out)),
    }
}

/// The numbers of workers: all, a single one, or a range with both its ends.
fn asked(words: &Words) -> Result<RangeInclusive<u32>, Fault> {
    let Some(text) = words.text("--workers") else {
        return Ok(1..=MOST_WORKERS);
    };
    let (first, last) = text.split_once("..").unwrap_or((text, text));
    match (first.parse(), last.parse()) {
        (Ok(first), Ok(last)) if 1 <= first && first <= last && last <= MOST_WORKERS => {
            Ok(first..=last)
        }
        _ => Err(words.fault(format!(
            "--workers {text}: workers are 1 to {MOST_WORKERS}, as a number or as a range like 2..8"
        ))),
    }
}

fn simulated(job: &[u8], workers: u32) -> Simulated {
    let [mut core, mut runner, mut working] =
        [WORDS, RUNNER, simulation::WORDS].map(|length| vec![0; length]);
    simulation::simulate(job, workers, &mut core, &mut runner, &mut working)
}

/// What is said of so many workers behind their number.
fn row(workers: u32, given: Simulated, one: Simulated) -> String {
    let Simulated::Ended { ticks, work, span } = given else {
        return format!("  {}", why(given));
    };
    let ceiling = ceiling(workers, work, span).unwrap_or(0);
    let speed_up = match one {
        Simulated::Ended { ticks: alone, .. } => format!("{:.2}", alone as f64 / ticks as f64),
        _ => "-".to_string(),
    };
    let busy = 100.0 * work as f64 / (f64::from(workers) * ticks as f64);
    format!("{ticks:>10}{work:>10}{span:>10}{ceiling:>10}{speed_up:>10}{busy:>11.1} %")
}

/// Why a simulation did not come to the job's end.
fn why(given: Simulated) -> String {
    match given {
        Simulated::Stopped(8) => "stopped with 8: 128 tasks were unfinished".to_string(),
        Simulated::Stopped(number) => format!("stopped with {number}: no segment was free"),
        Simulated::Refused(number) => format!("refused {number}"),
        _ => "spent: 65,535 steps were made and the job has not ended".to_string(),
    }
}

/// What came of a simulation.
fn said(given: Simulated) -> String {
    match given {
        Simulated::Ended { ticks, work, span } => {
            format!("{ticks} ticks, work {work}, span {span}")
        }
        other => why(other),
    }
}

/// Draws the schedule with the most workers that were asked for, and says so.
fn draw(
    job: &Input,
    name: &str,
    file: &str,
    asked: &RangeInclusive<u32>,
    table: Said,
) -> Result<Said, Fault> {
    let workers = *asked.end();
    let given = simulated(&job.bytes, workers);
    let (model, schedule) = modelled(&job.bytes, workers);
    if model != given {
        let what = format!(
            "{}library and model differ, library: {}, model: {}; nothing is drawn\n",
            table.out,
            said(given),
            said(model)
        );
        return Ok(Said::only(false, what));
    }
    let workers_said = format!("{workers} worker{}", if workers == 1 { "" } else { "s" });
    let ended = matches!(given, Simulated::Ended { .. });
    let picture = simulation_picture::svg(&Drawn {
        schedule: &schedule,
        chain: ended.then(|| longest(&job.bytes)).unwrap_or_default(),
        workers: workers as usize,
        names: &job.names,
        heading: format!("{}: {workers_said}, {}", short(name), said(given)),
    });
    fs::write(file, picture).map_err(|e| Fault(format!("{file}: {e}")))?;
    let several = asked.start() < asked.end();
    let out = table.out + &drawn(file, &workers_said, several, ended);
    Ok(Said { out, ..table })
}

/// What is said of a picture: for whom it is, and whose is what is drawn.
fn drawn(file: &str, workers: &str, several: bool, ended: bool) -> String {
    let which = match several {
        true => ", the most that were asked for",
        false => "",
    };
    let what = match ended {
        true => "schedule and chain are",
        false => "the schedule is",
    };
    format!("{file}: drawn for {workers}{which}; {what} the model's, which gives the same answer as the library\n")
}

/// A longest chain of a job that ends.
fn longest(job: &[u8]) -> Places {
    let Ok(job) = Job::read(job) else {
        return Places::new();
    };
    let chain = chain::longest(&job, &OURS).unwrap_or_default();
    chain::places(&job, &chain)
}

/// The name of a file without its folder.
fn short(file: &str) -> &str {
    file.rsplit(['/', '\\']).next().unwrap_or(file)
}

/// The model's answer, as the library says it, and its schedule.
fn modelled(job: &[u8], workers: u32) -> (Simulated, Schedule) {
    let mut lent = [WORDS, RUNNER, simulate::WORKING].map(|length| vec![0; length]);
    let slices = lent.each_mut().map(|words| &mut words[..]);
    let mut schedule = Schedule::default();
    let given = simulate::watched(job, workers, &OURS, slices, &mut schedule);
    let answer = match given {
        simulate::Simulated::Ended { ticks, work, span } => Simulated::Ended { ticks, work, span },
        simulate::Simulated::Spent => Simulated::Spent,
        simulate::Simulated::Stopped(number) => Simulated::Stopped(number),
        simulate::Simulated::Refused(number) => Simulated::Refused(number),
    };
    (answer, schedule)
}
