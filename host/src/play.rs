//! Random programs: which call comes next.

use crate::call::Call;
use crate::layout::{any_right, pop_right, push_right, ALL_RIGHTS, QUEUES};
use crate::order::Order;
use crate::random::Random;

/// How likely each kind of call is.
#[derive(Clone, Copy, Debug)]
struct Weights {
    spawn: u32,
    push: u32,
    take: u32,
    /// Takes whose value stays queued.
    keep: u32,
    sync: u32,
    finish: u32,
    left: u32,
    /// Calls with numbers that may not exist.
    stray: u32,
}

const KINDS: [Weights; 6] = [
    // A bit of everything.
    Weights {
        spawn: 20,
        push: 30,
        take: 30,
        keep: 8,
        sync: 5,
        finish: 14,
        left: 1,
        stray: 2,
    },
    // Many tasks, few of which end.
    Weights {
        spawn: 60,
        push: 14,
        take: 10,
        keep: 4,
        sync: 2,
        finish: 3,
        left: 1,
        stray: 1,
    },
    // Long pushes and takes.
    Weights {
        spawn: 6,
        push: 50,
        take: 50,
        keep: 6,
        sync: 3,
        finish: 5,
        left: 0,
        stray: 1,
    },
    // Tasks come and go.
    Weights {
        spawn: 30,
        push: 20,
        take: 10,
        keep: 3,
        sync: 4,
        finish: 40,
        left: 0,
        stray: 1,
    },
    // Pushes until no segment is free.
    Weights {
        spawn: 12,
        push: 60,
        take: 6,
        keep: 2,
        sync: 3,
        finish: 8,
        left: 0,
        stray: 1,
    },
    // Kept takes and syncs.
    Weights {
        spawn: 16,
        push: 16,
        take: 10,
        keep: 30,
        sync: 20,
        finish: 14,
        left: 2,
        stray: 6,
    },
];

const ENDING: Weights = Weights {
    spawn: 0,
    push: 3,
    take: 6,
    keep: 1,
    sync: 3,
    finish: 80,
    left: 1,
    stray: 1,
};

/// Which rights a child gets.
#[derive(Clone, Copy, Debug)]
enum Gift {
    Any,
    All,
    /// Only of one queue.
    OneQueue(u32),
    Push,
    /// Mostly push, now and then one with pop.
    FewPoppers,
}

const PUSH_RIGHTS: u32 = 0b0101_0101;

/// Makes the calls of one random program.
pub struct Player {
    random: Random,
    weights: Weights,
    gift: Gift,
    /// How often, of a hundred, the task with the first spot is taken, and how
    /// often the one with the last, which is the top. The first makes deep
    /// trees, the last makes wide ones.
    first: u32,
    last: u32,
    /// The most pushes or takes in a row.
    row: u32,
    /// The most values of a run.
    longest: u32,
    /// The call that is made again, and how often.
    again: (Call, u32),
    value: u32,
    pub calls: u32,
    /// After so many calls the tasks are brought to their end.
    ending: u32,
    /// Calls made after the top's finish.
    after: u32,
}

impl Player {
    pub fn new(mut random: Random) -> Player {
        let focus = random.below(QUEUES);
        let one = Gift::OneQueue(focus);
        let gift = random.pick(&[Gift::Any, Gift::All, one, one, Gift::Push, Gift::FewPoppers]);
        let most = random.pick(&[60, 300, 900, 2_500]);
        Player {
            weights: random.pick(&KINDS),
            gift,
            first: random.pick(&[0, 10, 40, 80]),
            last: random.pick(&[0, 10, 30, 60]),
            row: random.pick(&[1, 2, 6, 20]),
            longest: random.pick(&[1, 10, 40, 300]),
            again: (Call::Sync { task: 0 }, 0),
            value: 0,
            calls: 0,
            ending: random.within(10, most),
            after: 0,
            random,
        }
    }

    /// An opening that is in range: mostly short and few segments.
    pub fn opening(&mut self) -> Call {
        let r = &mut self.random;
        let length = if r.chance(85) {
            r.within(1, 4)
        } else {
            r.within(5, 64)
        };
        let most = (8_192 / length).min(256);
        let segments = match r.below(4) {
            0 => r.within(4, 9),
            1 => r.within(8, 40),
            _ => r.within(41, most),
        };
        Call::Open { length, segments }
    }

    /// Has the program made all its calls?
    pub fn ended(&self) -> bool {
        self.after > 20 || self.calls > self.ending + 4_000
    }

    /// The next call, given what has been done.
    pub fn next(&mut self, order: &Order) -> Call {
        self.calls += 1;
        if order.top_finished() {
            self.after += 1;
            return self.after_the_top();
        }
        if self.again.1 > 0 {
            self.again.1 -= 1;
            let call = self.again.0.clone();
            return self.renewed(call);
        }
        let weights = if self.calls > self.ending {
            ENDING
        } else {
            self.weights
        };
        self.weighted(weights, order)
    }

    fn weighted(&mut self, w: Weights, order: &Order) -> Call {
        let parts = [
            w.spawn, w.push, w.take, w.keep, w.sync, w.finish, w.left, w.stray,
        ];
        let mut at = self.random.below(parts.iter().sum());
        let mut kind = 0;
        while at >= parts[kind] {
            at -= parts[kind];
            kind += 1;
        }
        match kind {
            0 => self.spawn(order),
            1 => self.first_push(order),
            2 => {
                let take = self.take(order, false);
                self.in_a_row(take)
            }
            3 => self.take(order, true),
            4 => Call::Sync {
                task: self.some_task(order),
            },
            5 => self.finish(order),
            6 => self.after_the_top(),
            _ => self.stray(),
        }
    }

    fn spawn(&mut self, order: &Order) -> Call {
        let task = self.some_task(order);
        let rights = self.some_rights(order.rights(task));
        Call::Spawn { task, rights }
    }

    /// The top ends the program, so before the ending it is mostly spared.
    fn finish(&mut self, order: &Order) -> Call {
        let task = self.some_task(order);
        if task == 0 && self.calls <= self.ending && self.random.chance(98) {
            return Call::Sync { task };
        }
        Call::Finish { task }
    }

    /// The first spot with the pop right waits for nobody but pushers, so it is
    /// chosen often.
    fn take(&mut self, order: &Order, keep: bool) -> Call {
        let queue = self.some_queue(ALL_RIGHTS);
        let pops = |t: &u32| order.rights(*t) & pop_right(queue) != 0;
        if self.random.chance(70) {
            let task = order.spots().find(pops).unwrap_or(0);
            return Call::Take { task, queue, keep };
        }
        let task = self.some_task(order);
        let queue = self.some_queue(order.rights(task));
        Call::Take { task, queue, keep }
    }

    fn some_task(&mut self, order: &Order) -> u32 {
        let spots: Vec<u32> = order.spots().collect();
        let at = self.random.below(100);
        if at < self.first {
            spots[0]
        } else if at < self.first + self.last {
            spots[spots.len() - 1]
        } else {
            self.random.pick(&spots)
        }
    }

    /// Mostly a queue to which the task has a right.
    fn some_queue(&mut self, rights: u32) -> u32 {
        let held: Vec<u32> = (0..QUEUES)
            .filter(|q| rights & any_right(*q) != 0)
            .collect();
        if held.is_empty() || self.random.chance(3) {
            return self.random.below(QUEUES);
        }
        match self.gift {
            Gift::OneQueue(q) if self.random.chance(80) => q,
            _ => self.random.pick(&held),
        }
    }

    fn some_rights(&mut self, held: u32) -> u32 {
        let r = &mut self.random;
        if r.chance(2) {
            return r.below(512);
        }
        match self.gift {
            Gift::Any => r.word() & held,
            Gift::All if r.chance(70) => held,
            Gift::All => r.word() & r.word() & held,
            Gift::OneQueue(q) => r.within(0, 3) << (2 * q) & held,
            Gift::Push => (PUSH_RIGHTS & held) & (r.word() | r.word()),
            Gift::FewPoppers if r.chance(15) => held & r.word(),
            Gift::FewPoppers => PUSH_RIGHTS & held,
        }
    }

    /// Mostly by a task with the push right.
    fn first_push(&mut self, order: &Order) -> Call {
        let mut task = self.some_task(order);
        let queue = self.some_queue(order.rights(task));
        let pushes = |t: &u32| order.rights(*t) & push_right(queue) != 0;
        if self.random.chance(80) && !pushes(&task) {
            let pushers: Vec<u32> = order.spots().filter(pushes).collect();
            task = self.random.pick(&pushers);
        }
        self.in_a_row(Call::push(task, queue, &[]))
    }

    fn in_a_row(&mut self, call: Call) -> Call {
        self.again = (call.clone(), self.random.below(self.row));
        self.renewed(call)
    }

    /// A push gets its values. Each is another one, so that no exchange stays
    /// hidden.
    fn renewed(&mut self, mut call: Call) -> Call {
        if let Call::Push { values, .. } = &mut call {
            let number = self.run_length();
            *values = (0..number).map(|i| self.value.wrapping_add(i)).collect();
            self.value = self.value.wrapping_add(number);
        }
        call
    }

    /// Mostly one value, now and then none or many.
    fn run_length(&mut self) -> u32 {
        match self.random.below(20) {
            0 => 0,
            1..=13 => 1,
            14..=17 => self.random.within(2, 6),
            _ => self.random.within(1, self.longest),
        }
    }

    fn stray(&mut self) -> Call {
        let r = &mut self.random;
        let task = r.pick(&[0, 1, 2, 127, 128, 129, u32::MAX]);
        let queue = r.pick(&[0, 3, 4, 5, 31, u32::MAX]);
        let rights = r.pick(&[0, ALL_RIGHTS, 256, u32::MAX]);
        match r.below(7) {
            0 => Call::Spawn { task, rights },
            1 => Call::push(task, queue, &[7, 8][..r.below(3) as usize]),
            kind @ 2..=3 => Call::Take {
                task,
                queue,
                keep: kind == 3,
            },
            4 => Call::Sync { task },
            5 => Call::Finish { task },
            _ => Call::Left {
                queue,
                index: r.word(),
            },
        }
    }

    fn after_the_top(&mut self) -> Call {
        if self.random.chance(30) {
            return self.stray();
        }
        let (queue, most) = (self.random.below(QUEUES), self.random.pick(&[2, 8, 200]));
        Call::Left {
            queue,
            index: self.random.below(most),
        }
    }
}
