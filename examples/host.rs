//! The bench of host.c: cut makes blocks of pieces, check marks pieces, print
//! shows them. Queue 0 goes from cut to check, queue 1 from check to print.

use hyperqueue::core::{finish, left, may_pop, may_push, open, peek, push, spawn, take, WORDS};
use hyperqueue::Answer;

const BLOCK: u32 = 40;

/// A stage takes a piece; nothing once none will come.
fn taken(words: &mut [u32], name: &str, task: u32, queue: u32) -> Option<u32> {
    let answer = take(words, task, queue);
    if answer.status == Answer::WAITS {
        println!("{name} waits");
    }
    answer.moved()
}

/// The value of a call that has to move here.
fn moved(answer: Answer) -> u32 {
    answer.moved().expect("the call moves")
}

/// Print shows a piece, then check marks one and hands it on, if they are there.
fn turn(words: &mut [u32], check: u32, print: u32) {
    taken(words, "print", print, 1).inspect(|piece| println!("print shows {piece}"));
    if let Some(piece) = taken(words, "check", check, 0) {
        println!("check takes {piece}");
        moved(push(words, check, 1, &[piece + 100]));
    }
}

fn main() {
    let mut words = vec![0; WORDS];
    moved(open(&mut words, 4, 16));
    let stages = [
        ("cut", may_push(0)),
        ("check", may_pop(0) | may_push(1)),
        ("print", may_pop(1)),
    ];
    let [cut, check, print] = stages.map(|(name, rights)| {
        let task = moved(spawn(&mut words, 0, rights));
        println!("{name} is task {task}");
        task
    });
    // The last stage goes first, so that each one has to wait.
    turn(&mut words, check, print);
    let block: Vec<u32> = (1..=BLOCK).collect();
    let last = moved(push(&mut words, cut, 0, &block));
    println!("cut pushes a block, its last piece is {last}");
    // The free segments hold a part of a second block: none of it is stored.
    let again = push(&mut words, cut, 0, &block).status;
    println!("a second block is refused with {again}");
    for _ in 0..3 {
        turn(&mut words, check, print);
    }
    // Check ends early: the other pieces stay in queue 0. It looks at the next
    // one, which stays too.
    println!("check leaves {}", moved(peek(&mut words, check, 0)));
    moved(finish(&mut words, cut));
    moved(finish(&mut words, check));
    while let Some(piece) = taken(&mut words, "print", print, 1) {
        println!("print shows {piece}");
    }
    moved(finish(&mut words, print));
    moved(finish(&mut words, 0));
    let [first, last] = [0, BLOCK - 4].map(|index| moved(left(&mut words, 0, index)));
    println!("left in queue 0: {first} to {last}");
    println!(
        "then refused with {}",
        left(&mut words, 0, BLOCK - 3).status
    );
}
