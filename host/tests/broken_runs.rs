//! That random programs can show an error of runs: pushes that err in one place,
//! made from the model's, each of which has to differ from program order.

use host::answer::{Answer, NO_SEGMENT};
use host::call::Call;
use host::check::Program;
use host::layout::*;
use host::shown;
use host::views;

/// A push taken apart.
struct Push<'a> {
    task: u32,
    queue: u32,
    values: &'a [u32],
}

impl Push<'_> {
    fn of(call: &Call) -> Option<Push<'_>> {
        let (task, queue, values) = call.as_push()?;
        Some(Push {
            task,
            queue,
            values,
        })
    }

    fn make(&self, m: &mut [u32], values: &[u32]) -> Answer {
        Call::push(self.task, self.queue, values).make(m)
    }

    fn user_view_empty(&self, m: &[u32]) -> bool {
        let view = |place| views::read(m, place);
        self.task < TASKS
            && self.queue < QUEUES
            && view(user_view(self.task, self.queue)).is_empty()
    }

    /// The free segments alone do not hold the run.
    fn beyond_the_free(&self, m: &[u32]) -> bool {
        self.values.len() as u32 > get(m, FREE_SEGMENTS) * length(m)
    }
}

/// The values are pushed one by one, up to the one that is turned down.
fn stored_in_part(call: &Call, m: &mut [u32]) -> Answer {
    let Some(push) = Push::of(call).filter(|push| !push.values.is_empty()) else {
        return call.make(m);
    };
    let mut answers = push.values.iter().map(|value| push.make(m, &[*value]));
    let first = answers.find(|answer| !answer.moved());
    first.unwrap_or(Answer::Moved(push.values[push.values.len() - 1]))
}

fn freed_segment_not_counted(call: &Call, m: &mut [u32]) -> Answer {
    let before = m.to_vec();
    let answer = call.make(m);
    let wrong = |push: Push| push.user_view_empty(&before) && push.beyond_the_free(&before);
    if answer.moved() && Push::of(call).is_some_and(wrong) {
        m.copy_from_slice(&before);
        return NO_SEGMENT;
    }
    answer
}

/// The segment that the first link frees is there before the link: by hand, so
/// that the value goes into it.
fn freed_segment_counted_before(call: &Call, m: &mut [u32]) -> Answer {
    let answer = call.make(m);
    let Some(push) = Push::of(call).filter(|push| answer == NO_SEGMENT && push.values.len() == 1)
    else {
        return answer;
    };
    if !push.user_view_empty(m) {
        return answer;
    }
    let place = views::place_before_user(m, push.task, push.queue);
    let before = views::read(m, place);
    if before.is_empty() || count(m, before.tail) != 0 {
        return answer;
    }
    let user = views::View { head: NL, ..before };
    views::write(m, user_view(push.task, push.queue), user);
    put(m, place + TAIL_FROM_HEAD, NL);
    push.make(m, push.values)
}

fn first_value_returned(call: &Call, m: &mut [u32]) -> Answer {
    match (call.make(m), Push::of(call)) {
        (Answer::Moved(_), Some(push)) => Answer::Moved(*push.values.first().unwrap_or(&0)),
        (answer, _) => answer,
    }
}

fn nothing_returned(call: &Call, m: &mut [u32]) -> Answer {
    match (call.make(m), Push::of(call)) {
        (Answer::Moved(_), Some(push)) if push.values.len() > 1 => Answer::Moved(0),
        (answer, _) => answer,
    }
}

/// A run of none is a run of a zero.
fn none_as_one(call: &Call, m: &mut [u32]) -> Answer {
    match Push::of(call) {
        Some(push) if push.values.is_empty() => push.make(m, &[0]),
        _ => call.make(m),
    }
}

/// A run of none asks for a segment as any other.
fn none_needs_a_segment(call: &Call, m: &mut [u32]) -> Answer {
    let needs = |push: Push| push.values.is_empty() && push.user_view_empty(m);
    let wrong = get(m, FREE_SEGMENTS) == 0 && Push::of(call).is_some_and(needs);
    match call.make(m) {
        answer if wrong && answer.moved() => NO_SEGMENT,
        answer => answer,
    }
}

/// A run of none moves ahead of the tests.
fn none_untested(call: &Call, m: &mut [u32]) -> Answer {
    match Push::of(call) {
        Some(push) if push.values.is_empty() => Answer::Moved(0),
        _ => call.make(m),
    }
}

/// What does not fit into the first segment is forgotten.
fn first_segment_only(call: &Call, m: &mut [u32]) -> Answer {
    let Some(push) = Push::of(call) else {
        return call.make(m);
    };
    let most = push.values.len().min(length(m) as usize);
    match push.make(m, &push.values[..most]) {
        Answer::Moved(_) => Answer::Moved(*push.values.last().unwrap_or(&0)),
        answer => answer,
    }
}

fn last_first(call: &Call, m: &mut [u32]) -> Answer {
    let Some(push) = Push::of(call) else {
        return call.make(m);
    };
    let values: Vec<u32> = push.values.iter().rev().copied().collect();
    match push.make(m, &values) {
        Answer::Moved(_) => Answer::Moved(*push.values.last().unwrap_or(&0)),
        answer => answer,
    }
}

/// A run that fills the last place of all is refused.
fn one_place_short(call: &Call, m: &mut [u32]) -> Answer {
    let before = m.to_vec();
    let answer = call.make(m);
    let Some(push) = Push::of(call).filter(|push| answer.moved() && push.values.len() > 1) else {
        return answer;
    };
    let tail = views::read(m, user_view(push.task, push.queue)).tail;
    if get(m, FREE_SEGMENTS) == 0 && count(m, tail) == length(m) {
        m.copy_from_slice(&before);
        return NO_SEGMENT;
    }
    answer
}

const BROKEN: [(&str, Program); 11] = [
    ("stored in part and refused", stored_in_part),
    ("the freed segment not counted", freed_segment_not_counted),
    (
        "the freed segment counted before",
        freed_segment_counted_before,
    ),
    ("the first value returned", first_value_returned),
    ("no value returned", nothing_returned),
    ("a run of none as one", none_as_one),
    ("a run of none needs a segment", none_needs_a_segment),
    ("a run of none untested", none_untested),
    ("the first segment only", first_segment_only),
    ("the last value first", last_first),
    ("one place short", one_place_short),
];

#[test]
fn each_is_shown() {
    shown::each(&BROKEN, "push(");
}
