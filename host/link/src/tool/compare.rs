//! Overlap on against off: a job in many orders, each compared with the run
//! without overlap. What is said is what was compared, and no more.

use super::words::Words;
use super::{input, Fault, Said};
use crate::on_off::{name, off, on, Off, Stop, MOST_CALLS};
use host::overlap::Path;
use host::random::Random;
use std::collections::BTreeMap;
use std::fmt::Write;
use std::time::{Duration, Instant};

const ORDERS: u64 = 100;

/// What all orders came to.
#[derive(Default)]
struct Sums {
    calls: u64,
    waits: u64,
    /// Answers compared, by task.
    compared: BTreeMap<Path, u64>,
    stops: BTreeMap<Stop, u64>,
}

pub fn compare(words: &Words) -> Result<Said, Fault> {
    let orders = words.option("--orders", ORDERS);
    let seed = words.option("--seed", 1);
    let job = input::job(words.file)?.bytes;
    let off = match off(&job) {
        Ok(off) => off,
        Err(number) => return Ok(Said::only(false, format!("job refused {number}\n"))),
    };
    let mut sums = Sums::default();
    let mut shown = Instant::now();
    for order in 0..orders {
        let mut random = Random::new(seed.wrapping_mul(1_000_003).wrapping_add(order));
        match on(&job, &off, &mut random) {
            Ok(went) => sums.add(went.calls, went.waits, went.stopped, went.compared),
            Err(what) => {
                let out = format!("order {order} of seed {seed} differs: {what}\n");
                return Ok(Said::only(false, out));
            }
        }
        if shown.elapsed() > Duration::from_secs(1) {
            eprintln!("{} of {orders} orders, {} calls", order + 1, sums.calls);
            shown = Instant::now();
        }
    }
    Ok(sums.said(&off, orders))
}

impl Sums {
    fn add(
        &mut self,
        calls: u64,
        waits: u64,
        stopped: Option<Stop>,
        compared: BTreeMap<Path, usize>,
    ) {
        self.calls += calls;
        self.waits += waits;
        if let Some(stop) = stopped {
            *self.stops.entry(stop).or_default() += 1;
        }
        for (path, answers) in compared {
            *self.compared.entry(path).or_default() += answers as u64;
        }
    }

    fn said(&self, off: &Off, orders: u64) -> Said {
        let mut out = String::new();
        if let Some(why) = &off.stopped {
            let _ = writeln!(out, "without overlap: {why} after {} steps", off.steps);
        }
        let (mut all, mut most) = (0, 0);
        for (path, due) in &off.replies {
            let compared = self.compared.get(path).copied().unwrap_or(0);
            let due = due.len() as u64 * orders;
            let _ = writeln!(out, "{}: {compared} of {due} answers compared", name(path));
            all += compared;
            most += due;
        }
        for (stop, count) in &self.stops {
            let _ = writeln!(out, "{count} orders stopped early: {}", why(*stop));
        }
        let Sums { calls, waits, .. } = self;
        let _ = writeln!(
            out,
            "{orders} orders, {calls} calls, {waits} of them waited or were refused"
        );
        let whole = all == most && all > 0 && off.stopped.is_none() && self.stops.is_empty();
        out += &match (all, whole) {
            (0, _) => "nothing was compared\n".to_string(),
            (_, true) => format!(
                "{all} of {most} answers compared: all agree with the run without overlap\n"
            ),
            (_, false) => format!(
                "{all} of {most} answers compared: these agree with the run without overlap\n"
            ),
        };
        Said::only(whole, out)
    }
}

fn why(stop: Stop) -> String {
    match stop {
        Stop::Refused(8) => "refused 8, no task record was free".to_string(),
        Stop::Refused(9) => "refused 9, no segment was free".to_string(),
        Stop::Refused(number) => format!("refused {number}"),
        Stop::Calls => format!("{MOST_CALLS} calls were made"),
    }
}
