//! Small jobs for the simulation, one for each way in which it may go, with what
//! they are answered.

use crate::asm::assemble;
use crate::simulate::Simulated::{self, Ended, Spent, Stopped};

pub struct TimedJob {
    pub name: &'static str,
    pub job: Vec<u8>,
    /// Workers and the answer, which holds up to the next row's workers.
    pub answers: Vec<(u32, Simulated)>,
}

impl TimedJob {
    /// The answer for so many workers.
    pub fn due(&self, workers: u32) -> Simulated {
        let mut rows = self.answers.iter().rev();
        let row = rows.find(|(first, _)| *first <= workers);
        row.expect("an answer for one worker").1
    }
}

pub(crate) fn job(name: &'static str, text: &str, answers: &[(u32, Simulated)]) -> TimedJob {
    TimedJob {
        name,
        job: assemble(text).expect("the job assembles"),
        answers: answers.to_vec(),
    }
}

pub(crate) fn ended(ticks: u64, work: u64, span: u64) -> Simulated {
    Ended { ticks, work, span }
}

pub fn all() -> Vec<TimedJob> {
    let document_01 = include_str!("../../jobs/document-01.txt");
    vec![
        job(
            "document 01",
            document_01,
            &[(1, ended(33, 33, 23)), (2, ended(23, 33, 23))],
        ),
        nine_when_chosen(),
        nine_when_falling(),
        two_effects(),
        one_tick(),
        pop_ahead(),
        between_effects(),
        eight_when_chosen(),
        eight_when_falling(),
        one_tick_as_taken(),
        job(
            "spent",
            "length 1\nprocedure top all\nhere: go here",
            &[(1, Spent)],
        ),
        job(
            "ends with the last effect",
            &long(7),
            &[(1, ended(65_536, 65_536, 65_536))],
        ),
        job("spent before its last effect", &long(8), &[(1, Spent)]),
        spent_within_a_tick(),
        born_in_a_tick(),
    ]
}

/// A single worker is busy with the popper, and comes to the push when that has
/// freed a segment; a second one comes to it before.
fn nine_when_chosen() -> TimedJob {
    let (fill, more) = ("push 0 1\n".repeat(124), "push 0 1\n".repeat(5));
    let text = format!(
        "length 1
        procedure top all
        spawn filler 0
        spawn filler 0
        sync
        {more}spawn popper 0
        push 0 1
        return
        procedure filler push 0
        {fill}return
        procedure popper pop 0
        pop 0
        return"
    );
    let answers = &[(1, ended(789, 789, 412)), (2, Stopped(9))];
    job("9 when chosen", &text, answers)
}

/// All segments but one are filled, then comes this body.
fn filled(rest: &str, others: &str) -> String {
    format!(
        "length 1
        procedure top all
        add 252
        again: go-if-zero done
        push 0 1
        add -1
        go again
        done: {rest}
        {others}"
    )
}

/// `late` and the top push in one tick, and a popper with these first instructions
/// stands between them.
fn last_segment(popper: &str) -> String {
    let others = format!(
        "procedure late push 0
        sync
        sync
        sync
        sync
        sync
        push 0 1
        return
        procedure popper pop 0
        {popper}pop 0
        return"
    );
    filled("spawn late 0\nspawn popper 0\npush 0 1\nreturn", &others)
}

/// Both pushes find the last segment free when they are chosen; the pop's effect
/// falls a tick behind theirs.
fn nine_when_falling() -> TimedJob {
    let answers = &[
        (1, ended(1_545, 1_545, 1_532)),
        (2, ended(1_534, 1_545, 1_532)),
        (3, Stopped(9)),
    ];
    job("9 when its effect falls", &last_segment("sync\n"), answers)
}

/// A push by the top and, in the same tick, the return of its child, which frees the
/// segment that the push needs: the child's own push has had the last one.
fn two_effects() -> TimedJob {
    let text = "length 1
        procedure top all
        add 251
        again: go-if-zero done
        push 1 1
        add -1
        go again
        done: spawn child 0
        push 0 1
        push 0 1
        return
        procedure child push 0 push 1
        sync
        push 1 1
        return";
    let answers = &[
        (1, ended(1_527, 1_527, 1_521)),
        (2, ended(1_521, 1_527, 1_521)),
    ];
    job("two effects of one tick", text, answers)
}

/// The last segment goes to the first of three effects of one tick; the second
/// frees one, which the third, of the task with the lowest number, needs.
fn one_tick() -> TimedJob {
    let answers = &[
        (1, ended(1_544, 1_544, 1_531)),
        (2, ended(1_534, 1_544, 1_531)),
        (3, ended(1_531, 1_544, 1_531)),
    ];
    job("effects of one tick", &last_segment(""), answers)
}

/// As before, but the pop goes first and both pushes need what it frees and what
/// was free.
fn pop_ahead() -> TimedJob {
    let text = filled(
        "spawn popper 0\nspawn pusher 0\npush 0 1\nreturn",
        "procedure popper pop 0\nsync\nsync\nsync\nsync\nsync\npop 0\nreturn
        procedure pusher push 0\npush 0 1\nreturn",
    );
    let answers = &[
        (1, ended(1_544, 1_544, 1_531)),
        (2, ended(1_534, 1_544, 1_531)),
        (3, ended(1_531, 1_544, 1_531)),
    ];
    job("a pop ahead of two pushes", &text, answers)
}

/// Where two effects of one tick have fallen both workers are for the second one's
/// task and its child; a worker that chooses between the effects comes to the top.
fn between_effects() -> TimedJob {
    let (syncs, adds) = ("sync\n".repeat(8), "add 0\n".repeat(10));
    let text = format!(
        "length 1
        procedure top all
        spawn first 0
        spawn second 0
        spawn leaf 0
        return
        procedure first
        {syncs}return
        procedure second
        spawn leaf 0
        {adds}return
        procedure leaf
        return"
    );
    let answers = &[
        (1, ended(48, 48, 29)),
        (2, ended(29, 48, 29)),
        (3, ended(29, 48, 29)),
    ];
    job("between two effects", &text, answers)
}

/// Children that wait for each other: a second worker is free for the top, which
/// spawns faster than they finish.
fn eight_when_chosen() -> TimedJob {
    let text = "length 64
        procedure top all
        again: spawn slow 100
        go again
        procedure slow pop 0
        more: go-if-zero done
        add -1
        go more
        done: return";
    job("8 when chosen", text, &[(1, Spent), (2, Stopped(8))])
}

/// 125 tasks below each other, the last of which has this body; two more, and there
/// is one record.
fn line(end: &str, others: &str) -> String {
    format!(
        "length 64
        procedure top all
        spawn line 123
        return
        procedure line
        go-if-zero end
        spawn line -1
        return
        end: {end}
        {others}
        procedure late
        sync
        sync
        sync
        sync
        sync
        spawn leaf 0
        return
        procedure leaf
        return"
    )
}

/// Two at the end of the line spawn together.
fn eight_when_falling() -> TimedJob {
    let text = line(
        "spawn late 0\nspawn spawner 0\nreturn",
        "procedure spawner\nspawn leaf 0\nreturn",
    );
    let answers = &[(1, ended(1_027, 1_027, 1_013)), (2, Stopped(8))];
    job("8 when its effect falls", &text, answers)
}

/// The last record goes to the first of three effects of one tick; the second is a
/// finish, taken later than the third, which needs the record.
fn one_tick_as_taken() -> TimedJob {
    let text = line(
        "spawn late 0\nspawn brief 0\nspawn leaf 0\nreturn",
        "procedure brief\nsync\nsync\nsync\nreturn",
    );
    let answers = &[
        (1, ended(1_030, 1_030, 1_013)),
        (2, ended(1_016, 1_030, 1_013)),
        (3, ended(1_013, 1_030, 1_013)),
    ];
    job("effects of one tick, as taken", &text, answers)
}

/// 65,528 effects, and so many others before and behind them.
fn long(others: usize) -> String {
    let syncs = "sync\n".repeat(others - 3);
    format!(
        "length 1
        procedure top all
        {syncs}add 16382
        again: go-if-zero done
        sync
        add -1
        go again
        done: return"
    )
}

/// Two tasks go on for ever; the effect that is one too many falls in the tick of
/// the last.
fn spent_within_a_tick() -> TimedJob {
    let text = "length 1
        procedure top all
        sync
        spawn other 0
        here: go here
        procedure other
        there: go there";
    job("spent within a tick", text, &[(1, Spent)])
}

/// A child takes part in the choice of the tick in which it is spawned.
fn born_in_a_tick() -> TimedJob {
    let text = "length 1
        procedure top all
        spawn child 0
        sync
        return
        procedure child
        return";
    job("a child's first choice", text, &[(1, ended(10, 10, 10))])
}
