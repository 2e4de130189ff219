//! Small jobs with their spans, one for each rule of what an instruction needs: a
//! reading without the rule, or with a wider one, gives another span.

use crate::timed_jobs::{ended, job, TimedJob};

/// Instructions that take ten ticks and do nothing.
const TEN: &str = "add 0\nadd 0\nadd 0\nadd 0\nadd 0\nadd 0\nadd 0\nadd 0\nadd 0\nadd 0\n";

/// A job with this top and these other procedures, where `ten` is ten instructions of
/// a tick. One worker needs the work; for two the span is enough.
fn timed(name: &'static str, text: &str, work: u64, span: u64) -> TimedJob {
    let text = format!(
        "length 4\nprocedure top all\n{}",
        text.replace("ten\n", TEN)
    );
    let answers = [(1, ended(work, work, span)), (2, ended(span, work, span))];
    job(name, &text, &answers)
}

pub fn all() -> Vec<TimedJob> {
    let mut all = of_the_task();
    all.extend(of_siblings());
    all.extend(of_children());
    all.extend(of_values());
    all.extend(of_idle_pushers());
    all.extend(of_other_pushers());
    all
}

/// 5,000 values through one queue, where the serial runner has room for 4,096. The
/// taker is faster and waits for each value; two workers need the span.
pub fn five_thousand() -> TimedJob {
    // A spawn; 5,000 times a test of the register, a push, a subtraction and a go; a
    // test and a return; then the taker finds the queue empty and returns, and the top
    // returns.
    let span = 5 + 5_000 * 6 + 3 + 3 + 2 + 2;
    let work = 5 + 5 + 5_000 * 6 + 3 + 5_000 * 4 + 3 + 2 + 2;
    let text = "length 64
        procedure top all
        spawn pusher 5000
        spawn taker 0
        return
        procedure pusher push 0
        more: go-if-zero done
        push 0 7
        add -1
        go more
        done: return
        procedure taker pop 0
        next: take-or-go 0 done
        go next
        done: return";
    let answers = [(1, ended(work, work, span)), (2, ended(span, work, span))];
    job("5,000 values", text, &answers)
}

/// The task's own steps, and its spawn.
fn of_the_task() -> Vec<TimedJob> {
    vec![
        timed("a return", "return", 2, 2),
        timed("one after another", "ten\nreturn", 12, 12),
        timed(
            "a late spawn",
            "ten\nspawn child 0\nreturn
            procedure child\nten\nreturn",
            29,
            29,
        ),
    ]
}

fn of_siblings() -> Vec<TimedJob> {
    vec![
        timed(
            "siblings that share a right to pop",
            "spawn older 0\nspawn younger 0\nreturn
            procedure older pop 0\nten\nreturn
            procedure younger pop 0 pop 1\nten\nreturn",
            36,
            31,
        ),
        timed(
            "siblings that share no right to pop",
            "spawn older 0\nspawn younger 0\nreturn
            procedure older push 0 pop 2\nten\nreturn
            procedure younger push 0 pop 1\nten\nreturn",
            36,
            24,
        ),
    ]
}

fn of_children() -> Vec<TimedJob> {
    let finish = "procedure other\nten\nreturn";
    vec![
        timed(
            "a child",
            &format!("spawn other 0\nreturn\n{finish}"),
            19,
            19,
        ),
        timed(
            "a sync",
            &format!("spawn other 0\nsync\nten\nreturn\n{finish}"),
            30,
            30,
        ),
        timed(
            "a child that may pop",
            "push 0 5\npush 0 6\nspawn other 0\npop 0\nreturn
            procedure other pop 0\nten\nreturn",
            28,
            28,
        ),
        timed(
            "a child that may not pop",
            "push 0 5\nspawn other 0\npop 0\nten\nreturn
            procedure other pop 1\nten\nreturn",
            35,
            23,
        ),
    ]
}

/// The push of the value that is found.
fn of_values() -> Vec<TimedJob> {
    let pushed_late = "spawn pusher 0\nspawn other 0\nreturn
        procedure pusher push 0\nten\npush 0 5\nreturn
        procedure other pop 0";
    vec![
        timed(
            "a value pushed late",
            &format!("{pushed_late}\npop 0\nreturn"),
            32,
            25,
        ),
        timed(
            "a value pushed late, tested",
            &format!("{pushed_late}\ngo-if-empty 0 end\nend: return"),
            31,
            24,
        ),
        timed(
            "the first of two values",
            "spawn early 0\nspawn late 0\nspawn other 0\nreturn
            procedure early push 0\npush 0 5\nreturn
            procedure late push 0\nten\nten\npush 0 6\nreturn
            procedure other pop 0\npop 0\nreturn",
            52,
            37,
        ),
    ]
}

/// A pusher that pushes nothing and goes on for long.
const IDLE: &str = "procedure pusher push 0\nten\nten\nreturn";

/// Its finish is needed where it stands before the push, or the queue is found empty.
fn of_idle_pushers() -> Vec<TimedJob> {
    vec![
        timed(
            "a pusher that pushes nothing",
            &format!("spawn pusher 0\npop 0\nreturn\n{IDLE}"),
            32,
            32,
        ),
        timed(
            "a pusher that pushes nothing, tested",
            &format!("spawn pusher 0\ngo-if-empty 0 end\nend: return\n{IDLE}"),
            31,
            31,
        ),
        timed(
            "a pusher that pushes nothing, taken or gone",
            &format!("spawn pusher 0\ntake-or-go 0 end\nend: return\n{IDLE}"),
            32,
            32,
        ),
        timed(
            "a pusher before the push",
            &format!("spawn pusher 0\npush 0 7\npop 0\nten\nreturn\n{IDLE}"),
            45,
            42,
        ),
        timed(
            "a pusher behind the push",
            &format!("push 0 7\nspawn pusher 0\npop 0\nten\nten\nreturn\n{IDLE}"),
            55,
            33,
        ),
    ]
}

/// Pushers that have pushed the value, that push elsewhere, or that are no siblings.
fn of_other_pushers() -> Vec<TimedJob> {
    vec![
        timed(
            "the pusher of the value goes on",
            "spawn pusher 0\nspawn other 0\nreturn
            procedure pusher push 0\npush 0 5\nten\nten\nreturn
            procedure other pop 0\npop 0\nten\nten\nreturn",
            62,
            37,
        ),
        timed(
            "a pusher to another queue",
            "spawn pusher 0\npop 0\nten\nten\nreturn
            procedure pusher push 1\nten\nten\nreturn",
            52,
            30,
        ),
        timed(
            "a pusher further away",
            &format!(
                "spawn pusher 0\nspawn other 0\nreturn\n{IDLE}
                procedure other pop 0\nspawn inner 0\nreturn
                procedure inner pop 0\npop 0\nreturn"
            ),
            46,
            36,
        ),
    ]
}
