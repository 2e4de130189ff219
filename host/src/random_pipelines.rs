//! Random jobs of one kind: a cutter pushes many values, stages hand them on from queue
//! to queue, the last one takes them. They may be long, and with few workers or small
//! segments the values of a queue are many.

use crate::asm::assemble;
use crate::job::MOST_LENGTH;
use crate::operations::QUEUES;
use crate::random::Random;

/// The bytes of a job of nearly so many steps, which are more than a hundred.
pub fn piped(r: &mut Random, steps: u32) -> Vec<u8> {
    let queues = r.within(1, u32::from(QUEUES));
    let delays: Vec<u32> = (0..=queues).map(|_| r.pick(&[0, 0, 1, 3, 8])).collect();
    // A turn of the cutter, of a stage and of the last one, without their delays.
    let turn = 4 + 3 * (queues - 1) + 2 + delays.iter().sum::<u32>();
    let values = (steps - 4 * queues) / turn;
    let mut spawns = format!("spawn cutter {values}\n");
    let mut stages = String::new();
    for queue in 1..=queues {
        spawns += &format!("spawn stage{queue} 0\n");
        let delay = "sync\n".repeat(delays[queue as usize] as usize);
        let (rights, push) = match queue == queues {
            true => (String::new(), String::new()),
            false => (
                format!(" push {queue}"),
                format!("push-register {queue} 1\n"),
            ),
        };
        let from = queue - 1;
        stages += &format!(
            "procedure stage{queue} pop {from}{rights}
            next: take-or-go {from} done
            {delay}{push}go next
            done: return\n"
        );
    }
    let (length, delay) = (
        r.within(1, u32::from(MOST_LENGTH)),
        "sync\n".repeat(delays[0] as usize),
    );
    let text = format!(
        "length {length}
        procedure top all
        {spawns}return
        procedure cutter push 0
        more: go-if-zero done
        push-register 0 0
        {delay}add -1
        go more
        done: return
        {stages}"
    );
    assemble(&text).expect("the pipeline assembles")
}
