//! Every outcome of a replay that docs/OUTCOMES.md lists, on the run of document
//! 01, on the linked library and on the model, with the answer named here.

use crate::replay_pair::ReplayPair;
use host::asm::assemble;
use host::layout::WORDS;
use host::replay::Judged::{self, Agrees, Differs, Refused};
use host::runner::RUNNER;

const JOB: &str = include_str!("../../../jobs/document-01.txt");
const RUN: &str = include_str!("../../../crates/overlap/stdout");

fn job() -> Vec<u8> {
    assemble(JOB).expect("the job of document 01")
}

/// The answer of both, on words that no run left.
fn on_words(job: &[u8], trace: &str, core: usize, runner: usize) -> Judged {
    let mut pair = ReplayPair::new(&vec![7; core], &vec![7; runner]);
    let judged = pair.replay(job, trace.as_bytes());
    judged.unwrap_or_else(|what| panic!("{what}\n{trace}"))
}

fn judged(trace: &str) -> Judged {
    on_words(&job(), trace, WORDS, RUNNER)
}

/// The run with another line in place of this one.
fn with(line: &str, other: &str) -> String {
    assert!(RUN.contains(line), "{line}");
    RUN.replacen(line, other, 1)
}

#[test]
fn agrees() {
    let without_last = RUN.strip_suffix("left 0 20\n").expect("the last line");
    for trace in [RUN, without_last, "", "open 1\n", "1 255 refused 4\n"] {
        assert_eq!(judged(trace), Agrees, "{trace}");
    }
}

#[test]
fn differs() {
    for (trace, line) in [
        (with("7 2 took 10\n", "7 2 took 11\n"), 7),
        (with("1 0 spawned 1\n", "7 0 spawned 1\n"), 1),
        (with("5 2 waits -\n", "5 2 moved -\n"), 5),
        (with("5 2 waits -\n", "5 2 refused 32\n"), 5),
        (with("12 0 finished -\n", "12 1 finished -\n"), 12),
        (with("left 0 20\n", "left 0 10\n"), 13),
        (with("left 0 20\n", "open 1\n"), 13),
        (format!("{RUN}left 1 1\n"), 14),
        (format!("{RUN}open 0\n"), 14),
        ("open 1\nopen 1\n".to_string(), 2),
        ("left 0 20\n".to_string(), 1),
    ] {
        assert_eq!(judged(&trace), Differs(line), "{trace}");
    }
}

/// 13, for each form that a line may not have.
#[test]
fn refused_for_its_form() {
    let first = "1 0 spawned 1\n";
    for line in [
        "01 0 spawned 1\n",
        "+1 0 spawned 1\n",
        " 1 0 spawned 1\n",
        "1 0 spawned 1 \n",
        "1  0 spawned 1\n",
        "1\t0 spawned 1\n",
        "1 0 spawned 1\r\n",
        "1 256 spawned 1\n",
        "4294967296 0 spawned 1\n",
        "1 0 spawned 4294967297\n",
        "1 0 spawned 18446744073709551617\n",
        "1 0 spawned -\n",
        "1 0 pushed -\n",
        "1 0 moved 0\n",
        "1 0 spawned\n",
        "1 0 Spawned 1\n",
        "1 0 spent -\n",
        "\n",
        "left 4 1\n",
        "left 0\n",
        "open\n",
        "open -\n",
        "job refused 10\n",
        "open 1\n1 0 spawned 1\n",
        "left 0 1\n1 0 spawned 1\n",
    ] {
        assert_eq!(judged(&with(first, line)), Refused(13), "{line}");
    }
    let without_feed = RUN.strip_suffix('\n').expect("a line feed");
    let behind_the_end = format!("{RUN}13 0 moved -\n");
    // Line 1 differs, and line 9 is none.
    let both = with(first, "7 0 spawned 1\n").replacen("9 2 finished -", "9 2 finished", 1);
    for trace in [without_feed, &behind_the_end, &both] {
        assert_eq!(judged(trace), Refused(13), "{trace}");
    }
}

#[test]
fn refused_for_its_lines() {
    let job = assemble("length 1\nprocedure top all\nhere: go here").expect("a job");
    let most: String = (1..65_536).map(|n| format!("{n} 0 moved -\n")).collect();
    let judged = |trace: &str| on_words(&job, trace, WORDS, RUNNER);
    assert_eq!(judged(&most), Agrees);
    assert_eq!(judged(&most.replace("65535 0", "65535 1")), Differs(65_535));
    for more in ["65536 0 moved -\n", "open 1\n", "o"] {
        assert_eq!(judged(&(most.clone() + more)), Refused(13));
    }
}

/// 1 for either memory, 10, 11 and 12, each before 13.
#[test]
fn refused_before_the_trace() {
    let with = |at: usize, byte| {
        let mut job = job();
        job[at] = byte;
        job
    };
    for trace in [RUN, "job refused 10\n"] {
        for (core, runner) in [
            (WORDS - 1, RUNNER),
            (WORDS + 1, RUNNER),
            (WORDS, RUNNER - 1),
            (WORDS, RUNNER + 1),
            (0, 0),
        ] {
            assert_eq!(on_words(&job(), trace, core, runner), Refused(1));
            assert_eq!(on_words(&[0; 3], trace, core, runner), Refused(1));
        }
        for (job, number) in [(vec![0; 3], 10), (with(8, 3), 11), (with(28, 11), 12)] {
            assert_eq!(on_words(&job, trace, WORDS, RUNNER), Refused(number));
        }
    }
}

/// Any words may be lent, and those that a replay left.
#[test]
fn any_words() {
    let mut pair = ReplayPair::new(&[u32::MAX; WORDS], &[u32::MAX; RUNNER]);
    for (trace, due) in [
        (RUN, Agrees),
        ("left 0 1\n", Differs(1)),
        ("1 0 spawned 1\n", Agrees),
        ("x", Refused(13)),
        (RUN, Agrees),
    ] {
        assert_eq!(pair.replay(&job(), trace.as_bytes()), Ok(due));
    }
}
