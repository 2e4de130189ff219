//! A push of a run of values, behind the tests that other calls make too.
//!
//! It does what single pushes of its values do, one after another. If one of
//! them would be turned down the whole run is, before a word is written.

use crate::answer::*;
use crate::layout::*;
use crate::pools;
use crate::views::{self, View};

/// Where a run begins.
pub enum Place {
    /// In the tail segment of the user view, or behind it.
    Tail(u32),
    /// In a new segment, whose head goes into the view at this address.
    View(usize),
}

/// The place of a run of so many values, at least one.
///
/// A user view that is not empty and has a non-local tail gets 2, whatever is
/// free. Else refusal 9, of the whole run, goes before the late refusal 2.
pub fn place(m: &[u32], t: u32, q: u32, number: usize) -> Result<Place, Answer> {
    let user = views::read(m, user_view(t, q));
    if !user.is_empty() {
        return place_behind(m, user, number);
    }
    let address = views::place_before_user(m, t, q);
    let before = views::read(m, address);
    // A segment that the first new one frees is there for the rest of the run,
    // but not for its beginning.
    let segments = match free(m) {
        0 => 0,
        free => free + usize::from(ends_in_an_empty_segment(m, before)),
    };
    if number > segments * length(m) as usize {
        return Err(NO_SEGMENT);
    }
    if before.tail == NL {
        return Err(RULES_FAIL);
    }
    Ok(Place::View(address))
}

fn place_behind(m: &[u32], user: View, number: usize) -> Result<Place, Answer> {
    if user.tail == NL {
        return Err(RULES_FAIL);
    }
    if number > pools::room(m, user.tail) + free(m) * length(m) as usize {
        return Err(NO_SEGMENT);
    }
    Ok(Place::Tail(user.tail))
}

fn free(m: &[u32]) -> usize {
    get(m, FREE_SEGMENTS) as usize
}

/// A link behind such a view frees the segment.
fn ends_in_an_empty_segment(m: &[u32], view: View) -> bool {
    !view.is_empty() && view.tail != NL && count(m, view.tail) == 0
}

/// Writes the run, whose place is decided.
pub fn write(m: &mut [u32], t: u32, q: u32, run: &[u32], place: Place) {
    let (mut tail, stored) = match place {
        Place::Tail(tail) => (tail, pools::store(m, tail, run)),
        Place::View(address) => begin(m, t, q, run, address),
    };
    for part in run[stored..].chunks(length(m).max(1) as usize) {
        let new = pools::take_segment(m);
        pools::store(m, new, part);
        put(m, segment(tail) + NEXT, new);
        tail = new;
    }
    put(m, user_view(t, q) + TAIL_FROM_HEAD, tail);
}

/// The first new segment of an empty user view, and how many values it stored.
/// Its head goes into the view at `address` at once, since that may free the
/// segment that is taken next.
fn begin(m: &mut [u32], t: u32, q: u32, run: &[u32], address: usize) -> (u32, usize) {
    let new = pools::take_segment(m);
    let stored = pools::store(m, new, run);
    let user = View {
        head: NL,
        tail: new,
    };
    views::write(m, user_view(t, q), user);
    put_head(m, address, new);
    (new, stored)
}

/// Reduces the view at `address` with the head of the new segment.
fn put_head(m: &mut [u32], address: usize, new: u32) {
    let before = views::read(m, address);
    if before.is_empty() {
        put(m, address, new);
    } else {
        views::link(m, before.tail, new);
    }
    put(m, address + TAIL_FROM_HEAD, NL);
}

#[cfg(test)]
mod tests {
    use super::*;
    use crate::calls::{either, try_push};
    use crate::foreign;
    use crate::random::Random;
    use crate::sample::likely_call;

    /// Single pushes without the memory test in between: the last answer, or the
    /// first of one that does not move.
    fn one_by_one(m: &mut [u32], t: u32, q: u32, run: &[u32]) -> Answer {
        let single = |value: &u32| either(try_push(m, t, q, &[*value]));
        let mut answers = run.iter().map(single);
        let first = answers.find(|answer| !answer.moved());
        first.unwrap_or(Answer::Moved(run[run.len() - 1]))
    }

    /// Does the first of these values need a segment, and are there too few for
    /// them all? The link of one that gets the late 2 frees none.
    fn too_many(m: &[u32], t: u32, q: u32, run: &[u32]) -> bool {
        let empty = views::read(m, user_view(t, q)).is_empty();
        empty && run.len() > free(m) * length(m) as usize
    }

    /// On memory of other origin a run is its single pushes, but for a late 2 of
    /// the first, which goes behind 9; though the first link may leave memory
    /// that does not pass.
    #[test]
    fn single_pushes_on_memory_of_other_origin() {
        let r = &mut Random::new(9);
        let (mut moved, mut late, mut not_late) = (0, 0, 0);
        for _ in 0..12_000 {
            let m = foreign::memory(r);
            let call = likely_call(r, &m, 2);
            let Some((task, queue, values)) = call.as_push() else {
                panic!("{call} is no push");
            };
            if values.is_empty() {
                continue;
            }
            let (mut whole, mut single) = (m.clone(), m.clone());
            let mut due = one_by_one(&mut single, task, queue, values);
            if due == RULES_FAIL && too_many(&m, task, queue, values) {
                due = NO_SEGMENT;
                not_late += 1;
            }
            assert_eq!(call.make(&mut whole), due, "{call}");
            assert!(
                whole == if due.moved() { single } else { m },
                "{call}: {due:?}"
            );
            moved += u32::from(due.moved() && values.len() > 1);
            late += u32::from(due == RULES_FAIL && values.len() > 1);
        }
        println!("{moved} runs moved, {late} got the late 2, {not_late} got 9 before it");
        assert!(moved > 500 && late > 500 && not_late > 50);
    }
}
