//! Views, their reduction (document 003 section 3.3), and where a view goes.

use crate::layout::*;
use crate::pools::free_segment;
use crate::rules::free_segments;
use crate::tree;

#[derive(Clone, Copy, Debug, PartialEq, Eq)]
pub struct View {
    pub head: u32,
    pub tail: u32,
}

pub const EMPTY: View = View {
    head: NONE,
    tail: NONE,
};

impl View {
    pub fn is_empty(self) -> bool {
        self == EMPTY
    }
}

/// The view whose head word stands at `place`.
pub fn read(m: &[u32], place: usize) -> View {
    View {
        head: get(m, place),
        tail: get(m, place + TAIL_FROM_HEAD),
    }
}

pub fn write(m: &mut [u32], place: usize, view: View) {
    put(m, place, view.head);
    put(m, place + TAIL_FROM_HEAD, view.tail);
}

/// What the paper says of a pair of views.
#[derive(Clone, Copy, Debug, PartialEq, Eq)]
pub enum Reduction {
    /// One of them is empty, or the ends that meet are a non-local pair.
    Plain,
    /// The ends that meet are two segments, to be linked.
    Links { tail: u32, head: u32 },
    /// A case that the paper leaves out: one end local and one not, or the same
    /// segment twice.
    LeftOut,
}

/// Which case of the paper's reduction this pair is.
pub fn case_of(left: View, right: View) -> Reduction {
    if left.is_empty() || right.is_empty() {
        return Reduction::Plain;
    }
    let (tail, head) = (left.tail, right.head);
    match (tail == NL, head == NL) {
        (true, true) => Reduction::Plain,
        (false, false) if tail != head => Reduction::Links { tail, head },
        _ => Reduction::LeftOut,
    }
}

/// Head of the first and tail of the second.
pub fn reduced(left: View, right: View) -> View {
    if left.is_empty() {
        return right;
    }
    if right.is_empty() {
        return left;
    }
    View {
        head: left.head,
        tail: right.tail,
    }
}

/// Puts the reduction of the views at `left` and `right` at `into`, which is one
/// of the two places, and empties the other. The call has been decided, so this
/// never refuses.
pub fn join(m: &mut [u32], left: usize, right: usize, into: usize) {
    let (a, b) = (read(m, left), read(m, right));
    let both = !a.is_empty() && !b.is_empty();
    if both && a.tail != NL && b.head != NL {
        link(m, a.tail, b.head);
    }
    // The head may have been the segment that the link freed: read it again.
    let view = reduced(read(m, left), b);
    write(m, left, EMPTY);
    write(m, right, EMPTY);
    write(m, into, view);
}

/// Makes `head` the next of segment `tail`. A segment that is empty and has a
/// next is freed at once, and what named it names `head`.
pub fn link(m: &mut [u32], tail: u32, head: u32) {
    if count(m, tail) != 0 {
        put(m, segment(tail) + NEXT, head);
        return;
    }
    if let Some(place) = name_of(m, tail) {
        put(m, place, head);
    }
    free_segment(m, tail);
}

/// The word that names segment `s`: a head of a view, else a next.
pub fn name_of(m: &[u32], s: u32) -> Option<usize> {
    let heads = |t: u32| (0..16).map(move |i| task(t) + QUEUE_HEADS + i);
    let mut all = tree::backward(m).into_iter().flat_map(heads);
    all.find(|a| get(m, *a) == s).or_else(|| next_naming(m, s))
}

/// The next word of the lowest held segment whose next is `s`.
fn next_naming(m: &[u32], s: u32) -> Option<usize> {
    let free = free_segments(m);
    let opened = segments(m).min(MOST_SEGMENTS);
    let names = |r: &u32| next(m, *r) == s && !free.contains(r);
    (0..opened).find(names).map(|r| segment(r) + NEXT)
}

/// Where the head of a new segment goes that a push with an empty user view
/// makes: the view just before the user view.
pub fn place_before_user(m: &[u32], t: u32, q: u32) -> usize {
    let youngest = tree::children(m, t).find(|c| tree::holds(m, *c, any_right(q)));
    if let Some(child) = youngest {
        return right_view(child, q);
    }
    if !read(m, children_view(t, q)).is_empty() {
        return children_view(t, q);
    }
    place_before_children(m, t, q)
}

/// The place just before the children view of `t`: the right view of a left
/// sibling, else the parent's children view; an empty one is passed over, save
/// the top's.
pub fn place_before_children(m: &[u32], t: u32, q: u32) -> usize {
    for a in tree::upward(m, t) {
        if let Some(sibling) = tree::left_sibling(m, a, q) {
            return right_view(sibling, q);
        }
        let up = parent(m, a);
        if up == 0 || up >= TASKS {
            break;
        }
        if !read(m, children_view(up, q)).is_empty() {
            return children_view(up, q);
        }
    }
    children_view(0, q)
}

/// Where the view goes that a finish of `t` returns, given its head.
pub fn place_of_returned(m: &[u32], t: u32, q: u32, head: u32) -> usize {
    match tree::left_sibling(m, t, q) {
        Some(sibling) => right_view(sibling, q),
        None if head == NL => children_view(parent(m, t), q),
        None => place_before_children(m, t, q),
    }
}
