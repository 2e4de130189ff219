//! Values lent between guard pages, in pages that may only be read: a read outside
//! them or a write ends the process. The library is for x86-64, and the calls of
//! the system are those of Linux.

use std::ffi::{c_int, c_void};
use std::{ptr, slice};

extern "C" {
    fn mmap(
        at: *mut c_void,
        bytes: usize,
        allowed: c_int,
        flags: c_int,
        file: c_int,
        from: i64,
    ) -> *mut c_void;
    fn mprotect(at: *mut c_void, bytes: usize, allowed: c_int) -> c_int;
    fn munmap(at: *mut c_void, bytes: usize) -> c_int;
}

const NOTHING: c_int = 0;
const READ: c_int = 1;
const READ_AND_WRITE: c_int = 3;
/// Memory of this process alone, of no file, for which no room is set aside.
const FLAGS: c_int = 0x2 | 0x20 | 0x4000;
const PAGE: usize = 4_096;
const WORD: usize = size_of::<u32>();

/// Values between two pages that nobody may touch.
pub struct PageGuarded {
    area: *mut c_void,
    bytes: usize,
    first: *const u32,
    number: usize,
}

impl PageGuarded {
    /// The values end where the guard page behind them begins.
    pub fn at_end(values: &[u32]) -> PageGuarded {
        PageGuarded::of(values.len(), false).filled(values)
    }

    /// The values begin where the guard page before them ends.
    pub fn at_start(values: &[u32]) -> PageGuarded {
        PageGuarded::of(values.len(), true).filled(values)
    }

    /// So many zeros, which take no room as long as nobody reads them.
    pub fn zeros(number: usize) -> PageGuarded {
        PageGuarded::of(number, false)
    }

    fn of(number: usize, at_the_start: bool) -> PageGuarded {
        let inner = (number * WORD).next_multiple_of(PAGE);
        let bytes = inner + 2 * PAGE;
        let start = if at_the_start {
            PAGE
        } else {
            PAGE + inner - number * WORD
        };
        unsafe {
            let area = mmap(ptr::null_mut(), bytes, NOTHING, FLAGS, -1, 0);
            assert!(area as isize != -1, "no memory for {number} values");
            let guarded = PageGuarded {
                area,
                bytes,
                first: area.byte_add(start).cast(),
                number,
            };
            guarded.allow(READ);
            guarded
        }
    }

    /// What may be done with all but the outer pages.
    fn allow(&self, allowed: c_int) {
        let inner = self.bytes - 2 * PAGE;
        if inner > 0 {
            let done = unsafe { mprotect(self.area.byte_add(PAGE), inner, allowed) };
            assert_eq!(done, 0, "pages cannot be made so");
        }
    }

    fn filled(self, values: &[u32]) -> PageGuarded {
        self.allow(READ_AND_WRITE);
        let lent = self.first.cast_mut();
        unsafe { ptr::copy_nonoverlapping(values.as_ptr(), lent, values.len()) };
        self.allow(READ);
        self
    }

    pub fn values(&self) -> &[u32] {
        unsafe { slice::from_raw_parts(self.first, self.number) }
    }
}

impl Drop for PageGuarded {
    fn drop(&mut self) {
        unsafe { munmap(self.area, self.bytes) };
    }
}

#[cfg(test)]
mod tests {
    use super::*;
    use host::foreign;
    use host::random::Random;
    use host::sample::{likely_call, reached};
    use std::fs;

    /// What may be done at this address, by the system's list of memory in use.
    fn allowed(address: usize) -> String {
        let maps = fs::read_to_string("/proc/self/maps").expect("the list");
        let number = |word: &str| usize::from_str_radix(word, 16).expect("an address");
        let holds = |line: &&str| {
            let (from, rest) = line.split_once('-').expect("a range");
            let (to, _) = rest.split_once(' ').expect("a range");
            (number(from)..number(to)).contains(&address)
        };
        let line = maps.lines().find(holds).expect("memory in use");
        line.split(' ').nth(1).expect("what is allowed").to_string()
    }

    /// Values of any number are those given; the word behind the last, or before
    /// the first, is out of reach.
    #[test]
    fn values_and_guards() {
        let values: Vec<u32> = (0..2_100).collect();
        for number in [1, 2, 40, 1_023, 1_024, 1_025, 2_048, 2_100] {
            let run = &values[..number];
            let (end, start) = (PageGuarded::at_end(run), PageGuarded::at_start(run));
            assert_eq!((end.values(), start.values()), (run, run));
            let behind = end.values().as_ptr_range().end as usize;
            let first = start.values().as_ptr() as usize;
            let around = [behind - WORD, behind, first, first - WORD];
            assert_eq!(around.map(allowed), ["r--p", "---p", "r--p", "---p"]);
        }
        assert_eq!(PageGuarded::at_end(&[]).values(), []);
        assert_eq!(PageGuarded::zeros(1 << 33).values()[(1 << 33) - 1], 0);
    }

    /// The library reads no value before or behind those lent, and writes none: it
    /// would not come back.
    #[test]
    fn pushes_stay_within() {
        let r = &mut Random::new(12);
        let mut moved = 0;
        for round in 0..2_000 {
            let m = if round % 2 == 0 {
                reached(r)
            } else {
                foreign::memory(r)
            };
            let call = likely_call(r, &m, 2);
            let Some((task, queue, values)) = call.as_push() else {
                panic!("{call} is no push");
            };
            let mut due = m.clone();
            let answer = call.make(&mut due);
            moved += u32::from(answer.moved() && values.len() > 1);
            for lent in [PageGuarded::at_end(values), PageGuarded::at_start(values)] {
                let mut words = m.clone();
                let given = hyperqueue::core::push(&mut words, task, queue, lent.values());
                assert_eq!(
                    (given.status, given.value),
                    (answer.number(), answer.value())
                );
                assert!(words == due, "{call}");
            }
        }
        assert!(moved > 150, "{moved} runs moved");
    }
}
