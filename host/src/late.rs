//! The late refusal 2: a call that would move but needs a reduction that the
//! paper leaves out.
//!
//! It is decided for each queue on the memory as the call found it, before any
//! word is written. Within one queue a head counts as it is after an empty
//! segment in front of it is freed.

use crate::layout::*;
use crate::views::{case_of, place_of_returned, read, reduced, Reduction, View};

/// The reductions of one queue, tried without writing.
struct Trial<'a> {
    m: &'a [u32],
    /// Segments that the links so far would free, and what is named instead.
    freed: Vec<(u32, u32)>,
}

impl Trial<'_> {
    /// The view with its head as it would be by now.
    fn by_now(&self, view: View) -> View {
        let rename = |head, (old, new): &(u32, u32)| if head == *old { *new } else { head };
        let head = self.freed.iter().fold(view.head, rename);
        View { head, ..view }
    }

    /// The reduction of two views, or nothing where the paper leaves it out.
    fn join(&mut self, left: View, right: View) -> Option<View> {
        let (left, right) = (self.by_now(left), self.by_now(right));
        match case_of(left, right) {
            Reduction::LeftOut => return None,
            Reduction::Links { tail, head } if count(self.m, tail) == 0 => {
                self.freed.push((tail, head));
            }
            _ => {}
        }
        Some(self.by_now(reduced(left, right)))
    }
}

fn try_sync(m: &[u32], t: u32, q: u32) -> Option<View> {
    let mut trial = Trial { m, freed: vec![] };
    trial.join(read(m, children_view(t, q)), read(m, user_view(t, q)))
}

fn try_finish(m: &[u32], t: u32, q: u32) -> Option<View> {
    let mut trial = Trial { m, freed: vec![] };
    let own = trial.join(read(m, children_view(t, q)), read(m, user_view(t, q)))?;
    let whole = trial.join(own, read(m, right_view(t, q)))?;
    if whole.is_empty() {
        return Some(whole);
    }
    let place = place_of_returned(m, t, q, whole.head);
    trial.join(read(m, place), whole)
}

/// Does a sync of `t` (or a finish of the top) need a left-out reduction?
pub fn sync_left_out(m: &[u32], t: u32) -> bool {
    (0..QUEUES).any(|q| try_sync(m, t, q).is_none())
}

/// Does a finish of `t`, which is not the top, need a left-out reduction?
pub fn finish_left_out(m: &[u32], t: u32) -> bool {
    (0..QUEUES).any(|q| try_finish(m, t, q).is_none())
}
