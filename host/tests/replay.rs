//! The replay of a trace: the cases of document 02, No. 1, the forms of a line,
//! and the order of refusals.

use host::asm::assemble;
use host::layout::WORDS;
use host::overlap_text;
use host::random::Random;
use host::random_jobs::accepted;
use host::replay::Judged::{self, Agrees, Differs, Refused};
use host::replay::{replay, replay_by_text};
use host::runner::RUNNER;
use host::trace::{read, Fault, Line, Malformed, MOST_LINES};

const JOB: &str = include_str!("../../jobs/document-01.txt");
/// The run of document 01.
const RUN: &str = include_str!("../../crates/overlap/stdout");

fn document_01() -> Vec<u8> {
    assemble(JOB).expect("the job of document 01")
}

/// The answer on words that no run left, which is the answer by text too.
fn judged(job: &[u8], trace: &[u8]) -> Judged {
    let judged = replay(job, trace, &mut [7; WORDS], &mut [7; RUNNER]);
    assert_eq!(judged, replay_by_text(job, trace));
    judged
}

fn of_document_01(trace: &str) -> Judged {
    judged(&document_01(), trace.as_bytes())
}

/// The run with a line in place of its line `number`.
fn with(number: usize, line: &str) -> String {
    let mut lines: Vec<&str> = RUN.lines().collect();
    lines[number - 1] = line;
    lines.join("\n") + "\n"
}

#[test]
fn the_run_and_its_beginnings_agree() {
    assert_eq!(of_document_01(RUN), Agrees);
    assert_eq!(of_document_01(""), Agrees);
    let lines: Vec<&str> = RUN.split_inclusive('\n').collect();
    for number in 0..lines.len() {
        assert_eq!(of_document_01(&lines[..number].concat()), Agrees);
    }
}

#[test]
fn lines_that_differ() {
    for (trace, line) in [
        (with(7, "7 2 took 11"), 7),
        (with(1, "7 0 spawned 1"), 1),
        (with(1, "0 0 spawned 1"), 1),
        (with(4, "4 3 refused 77"), 4),
        (with(1, "1 0 spawned 4294967295"), 1),
        (with(13, "left 1 20"), 13),
        (with(13, "open 1"), 13),
        (format!("{RUN}left 1 1\n"), 14),
        (format!("{RUN}left 0 20\n"), 14),
        (format!("{RUN}open 0\n"), 14),
        // Another task in line 5: its answer is that of the popper no more.
        (with(5, "5 3 waits -"), 5),
        ("left 0 20\n".to_string(), 1),
        ("open 2\n".to_string(), 1),
        ("open 1\nopen 1\n".to_string(), 2),
        ("open 1\nleft 0 1\n".to_string(), 2),
    ] {
        assert_eq!(of_document_01(&trace), Differs(line), "{trace}");
    }
    assert_eq!(of_document_01("open 1\n"), Agrees);
    assert_eq!(of_document_01("1 9 refused 4\nopen 1\n"), Agrees);
}

#[test]
fn refused_before_any_answer() {
    let refused = [
        format!("{RUN}13 0 moved -\n"),
        RUN.strip_suffix('\n').expect("a line feed").to_string(),
        with(4, "4 3 pushed -"),
        with(1, "01 0 spawned 1"),
        with(1, "1 256 spawned 1"),
        with(2, "2 0  spawned 2"),
        with(2, "2 0 spawned 2\r"),
        "job refused 10\n".to_string(),
        // Line 1 differs, and line 9 is none.
        with(9, "9 2 finished").replacen("1 0", "7 0", 1),
    ];
    for trace in refused {
        assert_eq!(of_document_01(&trace), Refused(13), "{trace}");
    }
}

/// Lines that are none, with what is wrong with each.
#[test]
fn faults_of_a_line() {
    for (line, fault) in [
        ("\n", Fault::OtherForm),
        (" 1 0 moved -\n", Fault::OtherForm),
        ("1 0 moved - \n", Fault::OtherForm),
        ("1 0 moved\n", Fault::OtherForm),
        ("open\n", Fault::OtherForm),
        ("open 1 \n", Fault::OtherForm),
        ("left 1\n", Fault::OtherForm),
        ("job refused 10\n", Fault::OtherForm),
        ("spent\n", Fault::OtherForm),
        ("1\t0 moved -\n", Fault::OtherForm),
        (" 0 moved -\n", Fault::NoNumber),
        ("left 0 1 \n", Fault::NoNumber),
        ("Left 0 1 2\n", Fault::NoNumber),
        ("+1 0 moved -\n", Fault::NoNumber),
        ("-1 0 moved -\n", Fault::NoNumber),
        ("open x\n", Fault::NoNumber),
        ("open 1\r\n", Fault::NoNumber),
        ("open \u{661}\n", Fault::NoNumber),
        ("1 0 pushed 1x\n", Fault::NoNumber),
        ("open 00\n", Fault::LeadingZero),
        ("1 00 moved -\n", Fault::LeadingZero),
        ("left 01 1\n", Fault::LeadingZero),
        ("4294967296 0 moved -\n", Fault::TooLarge),
        ("1 0 took 4294967296\n", Fault::TooLarge),
        ("open 99999999999999999999999999\n", Fault::TooLarge),
        ("1 256 moved -\n", Fault::NoSuchTask),
        ("1 4294967295 moved -\n", Fault::NoSuchTask),
        ("left 4 1\n", Fault::NoSuchQueue),
        ("1 0 Moved -\n", Fault::NoSuchAnswer),
        ("1 0 spent -\n", Fault::NoSuchAnswer),
        ("1 0 refused -\n", Fault::NumberGoesWithIt),
        ("1 0 waits 0\n", Fault::DashGoesWithIt),
        ("1 0 empty --\n", Fault::DashGoesWithIt),
        ("1 0 moved -", Fault::NoLineFeed),
    ] {
        let due = Malformed { line: 1, fault };
        assert_eq!(read(line.as_bytes()), Err(due), "{line:?}");
    }
    let behind = Malformed {
        line: 2,
        fault: Fault::CallBehindTheEnd,
    };
    for end in ["left 0 1", "open 1"] {
        let trace = format!("{end}\n1 0 moved -\n");
        assert_eq!(read(trace.as_bytes()), Err(behind));
    }
}

/// The text of a line that was read is the line.
#[test]
fn lines_are_written_in_one_way() {
    let texts = [
        "1 0 spawned 1\n",
        "0 255 pushed 0\n",
        "4294967295 7 took 4294967295\n",
        "10 1 refused 4\n",
        "2 1 finished -\n",
        "3 1 moved -\n",
        "4 1 waits -\n",
        "5 1 empty -\n",
        "6 1 not -\n",
        "left 3 4294967295\n",
        "open 0\n",
    ];
    for text in texts {
        let lines = read(text.as_bytes()).expect("a line");
        assert_eq!(lines.iter().map(Line::to_string).collect::<String>(), text);
    }
}

#[test]
fn at_most_65_535_lines() {
    let job = assemble("length 1\nprocedure top all\nhere: go here").expect("a job");
    let line = |number: usize| format!("{number} 0 moved -\n");
    let most: String = (1..=MOST_LINES).map(line).collect();
    assert_eq!(judged(&job, most.as_bytes()), Agrees);
    let other = most.replace("65535 0", "65534 0");
    assert_eq!(judged(&job, other.as_bytes()), Differs(65_535));
    for more in [
        line(MOST_LINES + 1),
        "open 1\n".to_string(),
        "x".to_string(),
    ] {
        let more = most.clone() + &more;
        assert_eq!(judged(&job, more.as_bytes()), Refused(13));
    }
}

#[test]
fn the_order_of_refusals() {
    let (job, bad) = (document_01(), b"job refused 10\n");
    let on =
        |job: &[u8], words, runner| replay(job, bad, &mut vec![7; words], &mut vec![7; runner]);
    let mut contents = job.clone();
    contents[8] = 3;
    let mut body = job.clone();
    body[28] = 11;
    for (bytes, number) in [(&job[..3], 10), (&contents, 11), (&body, 12), (&job, 13)] {
        assert_eq!(on(bytes, WORDS - 1, RUNNER), Refused(1));
        assert_eq!(on(bytes, WORDS, RUNNER + 1), Refused(1));
        assert_eq!(on(bytes, WORDS, RUNNER), Refused(number));
    }
}

/// What the model prints for any job and order agrees, and so does each
/// beginning; with one line more it differs there.
#[test]
fn printed_traces_agree() {
    for seed in 0..300 {
        let r = &mut Random::new(seed);
        let job = accepted(r);
        let most = r.within(0, 60);
        let tasks = overlap_text::order(&job, r, most);
        let printed = overlap_text::text(&job, &tasks);
        assert_eq!(judged(&job, printed.as_bytes()), Agrees, "seed {seed}");
        let lines: Vec<&str> = printed.split_inclusive('\n').collect();
        let begun = lines[..r.below(lines.len() as u32 + 1) as usize].concat();
        assert_eq!(judged(&job, begun.as_bytes()), Agrees, "seed {seed}");
        let longer = printed.clone() + "open 1\n";
        let due = Differs(lines.len() as u32 + 1);
        assert_eq!(judged(&job, longer.as_bytes()), due, "seed {seed}");
    }
}
