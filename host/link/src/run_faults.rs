//! That the fuzzer can fail on runs of values: libraries whose pushes err, made
//! from the linked one. Each error is found, on memory as it was reached or with
//! few words changed, and with few values.

use crate::faults::{found, with_core};
use crate::fuzzing::Made;
use crate::linked::{self, packed};
use crate::pair::Library;
use host::answer::NO_SEGMENT;
use host::call::Call;
use host::layout::*;
use host::views;

/// A run that does not fit is stored as far as it does, and refused.
fn stored_in_part(call: &Call, m: &mut [u32]) -> u64 {
    let answer = linked::make(call, m);
    if let (9, Some((task, queue, values))) = (answer >> 32, call.as_push()) {
        let mut single = |value: &u32| linked::make(&Call::push(task, queue, &[*value]), m);
        let _ = values.iter().find(|value| single(value) >> 32 != 0);
    }
    answer
}

/// A run that needs the segment which its first link frees is refused.
fn freed_not_counted(call: &Call, m: &mut [u32]) -> u64 {
    let before = m.to_vec();
    let answer = linked::make(call, m);
    let (0, Some((task, queue, values))) = (answer >> 32, call.as_push()) else {
        return answer;
    };
    let free = (get(&before, FREE_SEGMENTS) * length(&before)) as usize;
    let empty = views::read(&before, user_view(task, queue)).is_empty();
    if empty && values.len() > free {
        m.copy_from_slice(&before);
        return packed(NO_SEGMENT);
    }
    answer
}

/// A run of one moves although none is free, since its link would free one.
fn freed_counted_before(call: &Call, m: &mut [u32]) -> u64 {
    let answer = linked::make(call, m);
    let (9, Some((task, queue, [value]))) = (answer >> 32, call.as_push()) else {
        return answer;
    };
    let before = views::read(m, views::place_before_user(m, task, queue));
    let empty = !before.is_empty() && before.tail != NL && count(m, before.tail) == 0;
    if views::read(m, user_view(task, queue)).is_empty() && empty {
        return u64::from(*value);
    }
    answer
}

fn first_returned(call: &Call, m: &mut [u32]) -> u64 {
    match (linked::make(call, m), call.as_push()) {
        (answer, Some((_, _, [first, ..]))) if answer >> 32 == 0 => u64::from(*first),
        (answer, _) => answer,
    }
}

/// The values of the run of a push that this library gets wrong.
fn shown(library: Library) -> usize {
    let failure = found(|| with_core(library));
    match &failure.call {
        Made::Core(Call::Push { values, .. }) => values.len(),
        _ => panic!("{failure}"),
    }
}

#[test]
fn a_run_stored_in_part() {
    assert!(shown(stored_in_part) >= 2);
}

#[test]
fn a_freed_segment_not_counted() {
    assert!(shown(freed_not_counted) >= 2);
}

#[test]
fn a_freed_segment_counted_before() {
    assert_eq!(shown(freed_counted_before), 1);
}

#[test]
fn the_first_value_returned() {
    assert_eq!(shown(first_returned), 2);
}
