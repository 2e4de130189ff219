//! Random bodies of procedures, for random jobs.

use crate::job::{Instruction, MOST_INSTRUCTIONS};
use crate::operations::*;
use crate::random::Random;

/// The most instructions of a block.
const BLOCK: usize = 10;

/// A body of blocks for procedure `own`; the rights of all procedures are given.
pub fn tame(r: &mut Random, rights: &[u8], own: usize) -> Vec<Instruction> {
    let mut writer = Writer::new(r, rights, own);
    writer.tame();
    writer.body
}

/// A body of any instructions that the test allows.
pub fn wild(r: &mut Random, rights: &[u8], own: usize) -> Vec<Instruction> {
    let mut writer = Writer::new(r, rights, own);
    writer.wild();
    writer.body
}

/// A value or an addend: mostly small, sometimes just below 0, or any word.
fn some_number(r: &mut Random) -> u32 {
    match r.below(120) {
        0 => r.word(),
        1 => r.below(6_000),
        2 | 3 => r.below(4).wrapping_neg(),
        _ => r.below(7),
    }
}

/// Writes the body of one procedure.
struct Writer<'a> {
    r: &'a mut Random,
    /// The rights of all procedures.
    rights: &'a [u8],
    own: usize,
    body: Vec<Instruction>,
}

impl<'a> Writer<'a> {
    fn new(r: &'a mut Random, rights: &'a [u8], own: usize) -> Writer<'a> {
        Writer {
            r,
            rights,
            own,
            body: Vec::new(),
        }
    }

    fn put(&mut self, operation: u8, which: u8, operand: u32) {
        self.body.push(Instruction {
            operation,
            which,
            operand,
        });
    }

    /// The place of the next instruction.
    fn here(&self) -> u32 {
        self.body.len() as u32
    }

    /// A go whose target comes later; its place.
    fn go_later(&mut self, operation: u8, which: u8) -> usize {
        self.put(operation, which, 0);
        self.body.len() - 1
    }

    /// Lets the go at that place go to the next instruction.
    fn land(&mut self, place: usize) {
        self.body[place].operand = self.here();
    }

    /// A queue on which the procedure has that right.
    fn queue(&mut self, right: Right) -> Option<u8> {
        let first = self.r.below(4) as u8;
        let mut queues = (0..QUEUES).map(|step| (first + step) % QUEUES);
        let rights = self.rights[self.own];
        queues.find(|q| rights & right.bit(*q) != 0)
    }

    /// A procedure from `lowest` on that this one may spawn.
    fn child(&mut self, lowest: usize) -> Option<u8> {
        let own = self.rights[self.own];
        let may = |k: &usize| self.rights[*k] & !own == 0;
        let children: Vec<usize> = (lowest..self.rights.len()).filter(may).collect();
        if children.is_empty() {
            return None;
        }
        Some(self.r.pick(&children) as u8)
    }

    /// Any instruction of that operation which the test allows in a body of
    /// `count`; none if a right is lacking.
    fn any(&mut self, operation: u8, count: u32) -> Option<Instruction> {
        let fields = OPERATIONS[usize::from(operation)];
        let which = match fields.which {
            Which::Unused => 0,
            Which::Queue(right) => self.queue(right)?,
            Which::Procedure => self.child(0)?,
        };
        let operand = match fields.operand {
            Operand::Unused => 0,
            Operand::Value | Operand::Addend => some_number(self.r),
            Operand::Target => self.r.below(count),
        };
        Some(Instruction {
            operation,
            which,
            operand,
        })
    }

    fn wild(&mut self) {
        let count = match self.r.below(10) {
            0 => self.r.within(1, MOST_INSTRUCTIONS as u32),
            _ => self.r.within(1, 12),
        };
        while self.here() + 1 < count {
            let operation = self.r.below(OPERATIONS.len() as u32) as u8;
            let instruction = self.any(operation, count);
            self.body.extend(instruction);
        }
        let last = self.r.pick(&[RETURN, RETURN, GO]);
        let last = self.any(last, count);
        self.body.extend(last);
    }

    /// A few blocks, perhaps behind a recursion that counts down, then the end:
    /// a return, or a go to one that stands first.
    fn tame(&mut self) {
        let early = self.r.chance(20);
        if early {
            self.put(GO, 0, 2);
            self.put(RETURN, 0, 0);
        }
        let recursion = self.own > 0 && self.r.chance(15);
        let base = recursion.then(|| self.go_later(GO_IF_ZERO, 0));
        if recursion {
            self.put(SPAWN, self.own as u8, u32::MAX);
        }
        let blocks = match self.r.below(25) {
            0 => 60,
            _ if self.own == 0 => self.r.within(1, 12),
            _ => self.r.within(0, 6),
        };
        for _ in 0..blocks {
            if self.body.len() + BLOCK < MOST_INSTRUCTIONS {
                self.block();
            }
        }
        if let Some(base) = base {
            self.land(base);
        }
        if early {
            self.put(GO, 0, 1);
        } else {
            self.put(RETURN, 0, 0);
        }
    }

    fn block(&mut self) {
        match self.r.below(100) {
            0..=19 => self.one(SPAWN),
            20..=54 => self.line(),
            55..=66 => self.branch(),
            67..=80 => self.counted(),
            81..=98 => self.emptied(),
            _ => self.endless(),
        }
    }

    /// One instruction without a go.
    fn line(&mut self) {
        let line = [PUSH, PUSH_REGISTER, POP, ADD, SPAWN, SYNC];
        let operation = self.r.pick(&line);
        self.one(operation);
    }

    /// An instruction of that operation; a spawn mostly of a later procedure.
    fn one(&mut self, operation: u8) {
        if operation == SPAWN && self.r.chance(97) {
            let addend = some_number(self.r);
            if let Some(child) = self.child(self.own + 1) {
                self.put(SPAWN, child, addend);
            }
        } else {
            let instruction = self.any(operation, 1);
            self.body.extend(instruction);
        }
    }

    /// Up to two instructions that leave the register as it is.
    fn kept(&mut self) {
        for _ in 0..self.r.within(0, 2) {
            let operation = self.r.pick(&[PUSH, PUSH_REGISTER, SPAWN, SYNC]);
            self.one(operation);
        }
    }

    /// Some lines that are done, or not, by the register or a queue.
    fn branch(&mut self) {
        let queue = self.queue(Right::Pop).filter(|_| self.r.chance(50));
        let skip = match queue {
            Some(queue) => {
                let operation = self.r.pick(&[GO_IF_EMPTY, TAKE_OR_GO]);
                self.go_later(operation, queue)
            }
            None => self.go_later(GO_IF_ZERO, 0),
        };
        for _ in 0..self.r.within(1, 3) {
            self.line();
        }
        self.land(skip);
    }

    /// A loop that counts the register down.
    fn counted(&mut self) {
        let count = match self.r.below(20) {
            0 => self.r.within(4_000, 12_000),
            _ => self.r.below(7),
        };
        self.put(ADD, 0, count);
        let start = self.here();
        let end = self.go_later(GO_IF_ZERO, 0);
        self.kept();
        self.put(ADD, 0, u32::MAX);
        self.put(GO, 0, start);
        self.land(end);
    }

    /// A loop that empties a queue.
    fn emptied(&mut self) {
        let Some(queue) = self.queue(Right::Pop) else {
            return;
        };
        let start = self.here();
        let operation = self.r.pick(&[GO_IF_EMPTY, TAKE_OR_GO]);
        let end = self.go_later(operation, queue);
        if operation == GO_IF_EMPTY {
            self.put(POP, queue, 0);
        }
        if self.r.chance(10) {
            self.branch();
            self.kept();
        } else if let Some(other) = self.queue(Right::Push).filter(|other| *other != queue) {
            let addend = some_number(self.r);
            self.put(PUSH_REGISTER, other, addend);
        }
        self.put(GO, 0, start);
        self.land(end);
    }

    /// A loop without an end.
    fn endless(&mut self) {
        let start = self.here();
        self.kept();
        self.put(GO, 0, start);
    }
}
