//! Random memory that passes the rules and that no row of calls has to have
//! made: any tree, any views in a right order, chains from any head to any tail.

use crate::layout::*;
use crate::random::Random;
use crate::tree;
use crate::views::{self, View};

/// The two kinds of ends still without a segment: the words that stand for
/// them.
#[derive(Default)]
struct Ends {
    heads: Vec<usize>,
    tails: Vec<usize>,
}

/// Memory that passes, with any words where the rules say nothing.
pub fn memory(r: &mut Random) -> Vec<u32> {
    let mut m: Vec<u32> = (0..WORDS).map(|_| r.word()).collect();
    let length = r.pick(&[1, 1, 2, 3, 4, 64]);
    let opened = match r.below(3) {
        0 => r.within(4, 12),
        1 => r.within(8, 40),
        _ => r.within(41, 128),
    };
    put(&mut m, LENGTH, length);
    put(&mut m, SEGMENTS, opened);
    write_tree(r, &mut m);
    let ends = write_views(r, &mut m, opened);
    write_segments(r, &mut m, ends);
    m
}

/// A tree of tasks with random rights; the other records are free.
fn write_tree(r: &mut Random, m: &mut [u32]) {
    let mut numbers: Vec<u32> = (1..TASKS).collect();
    r.shuffle(&mut numbers);
    let number = r.pick(&[0, 1, 2, 4, 8, 20, 127]);
    let free = numbers.split_off(number);
    put(m, FREE_TASKS, free.len() as u32);
    for (i, t) in free.into_iter().enumerate() {
        put(m, task_place(i as u32), t);
        put(m, task(t) + STATUS, FREE);
    }
    let finished = numbers.is_empty() && r.chance(30);
    let status = if finished { FINISHED } else { UNFINISHED };
    write_task(m, 0, &[status, ALL_RIGHTS, NONE, NONE, NONE, NONE]);
    let mut tasks = vec![0];
    for t in numbers {
        let up = if r.chance(30) {
            tasks[tasks.len() - 1]
        } else {
            r.pick(&tasks)
        };
        add_child(r, m, up, t);
        tasks.push(t);
    }
}

/// The first words of a record, and empty views.
fn write_task(m: &mut [u32], t: u32, words: &[u32; 6]) {
    for (i, word) in words.iter().enumerate() {
        put(m, task(t) + i, *word);
    }
    for i in QUEUE_HEADS..QUEUE_HEADS + 28 {
        put(m, task(t) + i, NONE);
    }
}

fn add_child(r: &mut Random, m: &mut [u32], up: u32, t: u32) {
    let held = rights(m, up);
    let given = match r.below(3) {
        0 => held,
        1 => held & r.word(),
        _ => held & (r.word() | r.word()),
    };
    let sibling = youngest(m, up);
    write_task(m, t, &[UNFINISHED, given, up, sibling, NONE, NONE]);
    if sibling != NONE {
        put(m, task(sibling) + YOUNGER, t);
    }
    put(m, task(up) + YOUNGEST, t);
}

/// The views of all queues. The number of local heads is that of local tails,
/// and is at most the number of segments.
fn write_views(r: &mut Random, m: &mut [u32], opened: u32) -> Ends {
    let mut ends = Ends::default();
    let mut spare = opened - QUEUES;
    for q in 0..QUEUES {
        let holders = with_right(m, q);
        ends.heads.push(queue_head(r.pick(&holders), q));
        let filled = r.pick(&[10, 30, 60, 95]);
        let mut places = stored_views(m, q);
        let kept = r.pick(&places);
        places.retain(|place| *place == kept || r.chance(filled));
        write_row(r, m, &places, &mut spare, &mut ends);
    }
    ends
}

fn with_right(m: &[u32], q: u32) -> Vec<u32> {
    let holds = |t: &u32| tree::holds(m, *t, any_right(q));
    tree::backward(m).into_iter().filter(holds).collect()
}

/// The places of the views of queue `q` in the paper's order.
fn stored_views(m: &[u32], q: u32) -> Vec<usize> {
    fn add(m: &[u32], t: u32, q: u32, places: &mut Vec<usize>) {
        if tree::holds(m, t, any_right(q)) {
            places.extend([right_view(t, q), user_view(t, q)]);
            for c in tree::children(m, t) {
                add(m, c, q, places);
            }
            places.push(children_view(t, q));
        }
    }
    let mut places = Vec::new();
    add(m, 0, q, &mut places);
    places.reverse();
    places
}

/// Makes the views at `places` follow each other: where two meet, both ends
/// are local or none is.
fn write_row(r: &mut Random, m: &mut [u32], places: &[usize], spare: &mut u32, ends: &mut Ends) {
    let local = r.pick(&[5, 30, 70]);
    let both = View { head: NL, tail: NL };
    for (i, place) in places.iter().enumerate() {
        views::write(m, *place, both);
        if i > 0 && *spare > 0 && r.chance(local) {
            *spare -= 1;
            ends.tails.push(places[i - 1] + TAIL_FROM_HEAD);
            ends.heads.push(*place);
        }
        if i + 1 == places.len() {
            ends.tails.push(*place + TAIL_FROM_HEAD);
        }
    }
}

/// A chain from each head to some tail, mostly that of the same number; what is
/// left is free.
fn write_segments(r: &mut Random, m: &mut [u32], mut ends: Ends) {
    if r.chance(40) {
        r.shuffle(&mut ends.tails);
    }
    let mut rest: Vec<u32> = (0..segments(m)).collect();
    r.shuffle(&mut rest);
    let chains = ends.heads.len();
    let mut lists: Vec<Vec<u32>> = rest.drain(..chains).map(|s| vec![s]).collect();
    let more = r.below(rest.len() as u32 + 1) as usize;
    for s in rest.drain(..more) {
        let at = r.below(chains as u32) as usize;
        lists[at].push(s);
    }
    for (list, (head, tail)) in lists.iter().zip(ends.heads.into_iter().zip(ends.tails)) {
        put(m, head, list[0]);
        put(m, tail, list[list.len() - 1]);
        write_chain(r, m, list);
    }
    write_free(r, m, &rest);
}

/// Only the last segment of a chain may be empty.
fn write_chain(r: &mut Random, m: &mut [u32], list: &[u32]) {
    let length = length(m);
    for (i, s) in list.iter().enumerate() {
        let after = list.get(i + 1).copied();
        let fewest = u32::from(after.is_some());
        let full = r.chance(30);
        let held = if full {
            length
        } else {
            r.within(fewest, length)
        };
        put(m, segment(*s) + FIRST, r.below(length));
        put(m, segment(*s) + COUNT, held);
        put(m, segment(*s) + NEXT, after.unwrap_or(NONE));
    }
}

/// Free segments have counts, first places and nexts in range.
fn write_free(r: &mut Random, m: &mut [u32], free: &[u32]) {
    let (length, opened) = (length(m), segments(m));
    put(m, FREE_SEGMENTS, free.len() as u32);
    for (i, s) in free.iter().enumerate() {
        put(m, segment_place(i as u32), *s);
        put(m, segment(*s) + FIRST, r.below(length));
        put(m, segment(*s) + COUNT, r.within(0, length));
        let next = if r.chance(50) { NONE } else { r.below(opened) };
        put(m, segment(*s) + NEXT, next);
    }
}
