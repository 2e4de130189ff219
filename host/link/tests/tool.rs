//! The tool as its users call it: what it prints, and its exit status.

use std::fs;
use std::io::Write;
use std::path::{Path, PathBuf};
use std::process::{Command, Output, Stdio};

const JOB: &str = "../../jobs/document-01.txt";
/// What the run of these steps prints.
const RUN: &str = include_str!("../../../crates/overlap/stdout");
const STEPS: [&str; 12] = ["0", "0", "0", "3", "2", "1", "2", "1", "2", "3", "0", "0"];

fn tool(words: &[&str]) -> Output {
    let mut command = Command::new(env!("CARGO_BIN_EXE_kettlepast"));
    command.args(words).stdin(Stdio::null()).output().unwrap()
}

/// The tool with these bytes on standard input.
fn tool_reads(words: &[&str], input: &[u8]) -> Output {
    let mut command = Command::new(env!("CARGO_BIN_EXE_kettlepast"));
    command.args(words).stdin(Stdio::piped());
    let mut child = command.stdout(Stdio::piped()).spawn().unwrap();
    child.stdin.take().unwrap().write_all(input).unwrap();
    child.wait_with_output().unwrap()
}

fn status(output: &Output) -> i32 {
    output.status.code().unwrap()
}

fn out(output: &Output) -> String {
    String::from_utf8(output.stdout.clone()).unwrap()
}

/// A file of this test's own.
fn file(name: &str, bytes: &[u8]) -> PathBuf {
    let path = Path::new(env!("CARGO_TARGET_TMPDIR")).join(name);
    fs::write(&path, bytes).unwrap();
    path
}

fn word(path: &Path) -> &str {
    path.to_str().unwrap()
}

#[test]
fn wrong_arguments_get_2() {
    let wrong: [&[&str]; 26] = [
        &[],
        &["nothing"],
        &["serial"],
        &["serial", JOB, "more"],
        &["serial", JOB, "--orders", "3"],
        &["compare", JOB, "--order", "3"],
        &["compare", JOB, "--orders"],
        &["compare", JOB, "--orders", "many"],
        &["compare", JOB, "--orders", "3", "--orders", "4"],
        &["assemble", JOB],
        &["run", JOB, "0", "256"],
        &["draw", JOB, "x"],
        &["replay", JOB],
        &["replay", JOB, "no-such-file"],
        &["replay", JOB, JOB, "more"],
        &["simulate"],
        &["simulate", JOB, "2"],
        &["simulate", JOB, "--workers"],
        &["simulate", JOB, "--workers", "0"],
        &["simulate", JOB, "--workers", "17"],
        &["simulate", JOB, "--workers", "two"],
        &["simulate", JOB, "--workers", "3..2"],
        &["simulate", JOB, "--workers", "0..2"],
        &["simulate", JOB, "--workers", "2", "--workers", "3"],
        &["simulate", JOB, "--draw"],
        &["simulate", JOB, "--draw", "no-such-folder/picture.svg"],
    ];
    for words in wrong {
        let given = tool(words);
        assert_eq!(status(&given), 2, "{words:?}");
        assert!(given.stdout.is_empty() && !given.stderr.is_empty());
    }
}

#[test]
fn help_and_version_are_fine() {
    for words in [
        &["--help"][..],
        &["--version"],
        &["run", "--help"],
        &["compare", JOB, "--help"],
    ] {
        let given = tool(words);
        assert_eq!(status(&given), 0, "{words:?}");
        assert!(!given.stdout.is_empty());
    }
    for name in [
        "run",
        "serial",
        "compare",
        "replay",
        "simulate",
        "draw",
        "assemble",
        "disassemble",
        "test",
    ] {
        assert!(out(&tool(&["--help"])).contains(name));
        assert!(out(&tool(&[name, "--help"])).starts_with(&format!("kettlepast {name} ")));
    }
}

#[test]
fn files_that_cannot_be_read_get_2() {
    let none = tool(&["serial", "no-such-file"]);
    assert_eq!(status(&none), 2);
    let text = file("misspelt.txt", b"length 4\nprocedure top all\n  psh 0 1\n");
    let misspelt = tool(&["test", word(&text)]);
    assert_eq!(status(&misspelt), 2);
    let said = String::from_utf8(misspelt.stderr).unwrap();
    assert!(said.contains("line 3: unknown word `psh`"), "{said}");
}

#[test]
fn text_or_job_by_content() {
    let bytes = Path::new(env!("CARGO_TARGET_TMPDIR")).join("bytes.txt");
    assert_eq!(status(&tool(&["assemble", JOB, word(&bytes)])), 0);
    let text = fs::read_to_string(JOB).unwrap();
    let dos = file(
        "dos.job",
        format!("\u{feff}{}", text.replace('\n', "\r\n")).as_bytes(),
    );
    let due = out(&tool(&["serial", JOB]));
    assert!(due.ends_with("left 0 20\n"));
    for same in [&bytes, &dos] {
        assert_eq!(out(&tool(&["serial", word(same)])), due);
    }
    let again = file("again.txt", &tool(&["disassemble", word(&bytes)]).stdout);
    assert_eq!(out(&tool(&["serial", word(&again)])), due);
}

#[test]
fn refusals_get_1() {
    let whole = Path::new(env!("CARGO_TARGET_TMPDIR")).join("whole.job");
    assert_eq!(status(&tool(&["assemble", JOB, word(&whole)])), 0);
    let cut = file("cut.job", &fs::read(&whole).unwrap()[..50]);
    for command in [
        "test",
        "serial",
        "disassemble",
        "compare",
        "run",
        "draw",
        "simulate",
    ] {
        let given = tool(&[command, word(&cut)]);
        assert_eq!(status(&given), 1, "{command}");
        assert!(out(&given).starts_with("job refused 11"), "{command}");
    }
    assert_eq!(status(&tool(&["run", JOB, "9"])), 1);
    assert_eq!(status(&tool(&["serial", "../../jobs/too-deep.txt"])), 1);
}

#[test]
fn a_run_and_a_test() {
    let words: Vec<&str> = [&["run", JOB][..], &STEPS].concat();
    let given = tool(&words);
    assert_eq!(status(&given), 0);
    assert!(
        out(&given).contains("5 2 waits -\n")
            && out(&given).ends_with("12 0 finished -\nleft 0 20\n")
    );
    let at_once = STEPS.join(" ");
    assert_eq!(out(&tool(&["run", JOB, &at_once])), out(&given));
    assert_eq!(out(&tool(&["run", JOB])), "open 1\n");
    assert!(
        out(&tool(&["test", JOB])).starts_with("a job: 94 bytes, 4 procedures, 11 instructions")
    );
}

/// The answer to a trace of document 01's job, with status 0 where it agrees.
fn replayed(trace: &[u8]) -> String {
    let given = tool_reads(&["replay", JOB, "-"], trace);
    let said = out(&given);
    let due = i32::from(!said.starts_with("all agree"));
    assert_eq!(status(&given), due, "{said}");
    said
}

#[test]
fn a_replay_that_agrees_says_how_far() {
    let trace = file("trace", RUN.as_bytes());
    let given = tool(&["replay", JOB, word(&trace)]);
    assert_eq!(status(&given), 0);
    assert_eq!(out(&given), replayed(RUN.as_bytes()));
    let of = "that the run of these calls prints";
    assert_eq!(out(&given), format!("all agree: 13 lines of 13 {of}\n"));
    let begun = RUN.split_once("6 1").unwrap().0;
    let stops = format!("all agree: 5 lines of 6 {of}; the trace stops before: open 4\n");
    assert_eq!(replayed(begun.as_bytes()), stops);
    let nothing = format!("all agree: 0 lines of 1 {of}; the trace stops before: open 1\n");
    assert_eq!(replayed(b""), nothing);
}

#[test]
fn a_replay_that_differs_shows_both_lines() {
    let other = RUN.replace("took 10", "took 11");
    assert_eq!(
        replayed(other.as_bytes()),
        "line 7 differs\ntrace:    7 2 took 11\nexpected: 7 2 took 10\n"
    );
    assert_eq!(
        replayed(format!("{RUN}left 1 1\n").as_bytes()),
        "line 14 differs\ntrace:    left 1 1\n\
         expected: no such line, the run of these calls prints 13\n"
    );
}

#[test]
fn a_replay_that_is_refused_says_why() {
    for (trace, due) in [
        (
            &RUN.as_bytes()[..RUN.len() - 1],
            "line 13: no line feed ends it\ntrace:    left 0 20\n",
        ),
        (
            b"1 256 moved -\n",
            "line 1: a task is at most 255\ntrace:    1 256 moved -\n",
        ),
        (
            b"1 0 moved -\r\n",
            "line 1: `-` goes with this answer\ntrace:    1 0 moved -\\r\n",
        ),
        (
            b"open 1\n1 0 moved -\n",
            "line 2: a call stands behind `left` or `open`\ntrace:    1 0 moved -\n",
        ),
    ] {
        assert_eq!(replayed(trace), format!("trace refused 13: {due}"));
    }
    assert!(replayed(b"\xFF\x1B\n").ends_with("trace:    \\xff\\x1b\n"));
    let long = replayed(&[b'7'; 5_000]);
    assert!(
        long.ends_with(&format!("{} and 4880 bytes more\n", "7".repeat(120))),
        "{long}"
    );
    let many = b"1 0 moved -\n".repeat(65_536);
    assert!(replayed(&many)
        .starts_with("trace refused 13: line 65536: a trace has at most 65,535 lines\n"));
    let cut = file("cut-for-replay.job", &[4, 0, 4, 0]);
    let given = tool_reads(&["replay", word(&cut), "-"], b"no trace");
    assert_eq!(status(&given), 1);
    assert_eq!(
        out(&given),
        "job refused 10: shorter than head and contents\n"
    );
}

/// What the tool prints of a run, it finds again.
#[test]
fn a_printed_run_agrees() {
    let job = "../../jobs/download-bench.txt";
    for steps in ["0 0 1 1 2 200 0 3", "0 1 2 3 4 0 1 2 3 4 0 1 2 3 4"] {
        let printed = tool(&["run", job, steps]).stdout;
        let given = tool_reads(&["replay", job, "-"], &printed);
        assert_eq!(status(&given), 0);
    }
}

#[test]
fn compare_says_what_was_compared() {
    let all = tool(&["compare", JOB, "--orders", "7"]);
    assert_eq!(status(&all), 0);
    assert!(
        out(&all).ends_with("77 of 77 answers compared: all agree with the run without overlap\n")
    );
    let none = tool(&["compare", JOB, "--orders", "0"]);
    assert_eq!(status(&none), 1);
    assert!(out(&none).ends_with("nothing was compared\n") && !out(&none).contains("agree"));
}

/// 300 pushes into 256 segments of one value: every order stops with 9.
#[test]
fn compare_of_orders_that_stop() {
    let body = "add 300\nmore: go-if-zero done\npush 0 7\nadd -1\ngo more\ndone: return\n";
    let job = file(
        "crowd.txt",
        format!("length 1\nprocedure top all\n{body}").as_bytes(),
    );
    let given = tool(&["compare", word(&job), "--orders", "5"]);
    assert_eq!(status(&given), 1);
    let said = out(&given);
    assert!(
        said.contains("5 orders stopped early: refused 9, no segment was free\n"),
        "{said}"
    );
    assert!(
        said.ends_with("5070 of 6015 answers compared: these agree with the run without overlap\n"),
        "{said}"
    );
    assert!(!said.contains("all agree"));
}

const HEADING: &str = "workers     ticks      work      span   ceiling  speed-up  utilisation\n";

#[test]
fn a_simulation_of_document_01() {
    let all = out(&tool(&["simulate", JOB]));
    assert!(all.starts_with(HEADING), "{all}");
    assert_eq!(all.lines().count(), 17);
    let some = tool(&["simulate", JOB, "--workers", "1..2"]);
    assert_eq!(status(&some), 0);
    let rows = "      1        33        33        23        33      1.00      100.0 %\n      \
                2        23        33        23        28      1.43       71.7 %\n";
    assert_eq!(out(&some), format!("{HEADING}{rows}"));
    assert!(all.starts_with(&out(&some)));
    let one = out(&tool(&["simulate", JOB, "--workers", "16"]));
    let last = "     16        23        33        23        23      1.43        9.0 %\n";
    assert_eq!(one, format!("{HEADING}{last}"));
    assert!(all.ends_with(last));
}

/// 300 values through 256 segments of one value: a single worker pushes until none is
/// free, a second one takes them meanwhile. So there is no speed-up to tell.
#[test]
fn a_simulation_that_stops() {
    let text = "length 1
        procedure top all
        spawn pusher 300
        spawn taker 0
        return
        procedure pusher push 0
        more: go-if-zero done
        push 0 7
        add -1
        go more
        done: return
        procedure taker pop 0
        next: take-or-go 0 done
        go next
        done: return";
    let job = file("through.txt", text.as_bytes());
    let given = tool(&["simulate", word(&job), "--workers", "1..3"]);
    assert_eq!(status(&given), 1);
    let said = out(&given);
    let rows: Vec<&str> = said.lines().collect();
    assert_eq!(rows[1], "      1  stopped with 9: no segment was free");
    assert_eq!(
        rows[2],
        "      2      1815      3020      1815      2417         -       83.2 %"
    );
    let two = tool(&["simulate", word(&job), "--workers", "2"]);
    assert_eq!(status(&two), 0);
    let deep = tool(&["simulate", "../../jobs/too-deep.txt", "--workers", "4"]);
    assert_eq!(status(&deep), 1);
    assert!(out(&deep).ends_with("      4  stopped with 8: 128 tasks were unfinished\n"));
    let endless = file("endless.txt", b"length 1\nprocedure top all\nhere: go here");
    let spent = tool(&["simulate", word(&endless), "--workers", "1"]);
    assert_eq!(status(&spent), 1);
    let due = "      1  spent: 65,535 steps were made and the job has not ended\n";
    assert!(out(&spent).ends_with(due));
}

#[test]
fn a_simulation_is_drawn() {
    let picture = Path::new(env!("CARGO_TARGET_TMPDIR")).join("simulated.svg");
    let drawn = |workers| {
        let given = tool(&[
            "simulate",
            JOB,
            "--workers",
            workers,
            "--draw",
            word(&picture),
        ]);
        assert_eq!(status(&given), 0);
        let said = out(&given).lines().last().unwrap().to_string();
        (said, fs::read_to_string(&picture).unwrap())
    };
    let source = "schedule and chain are the model's, which gives the same answer as the library";
    let (said, two) = drawn("2");
    let name = word(&picture);
    assert_eq!(said, format!("{name}: drawn for 2 workers; {source}"));
    assert!(two.starts_with("<svg xmlns=\"http://www.w3.org/2000/svg\" viewBox=\"0 0 "));
    assert!(two.contains("document-01.txt: 2 workers, 23 ticks, work 33, span 23"));
    let title = "ticks 10 to 13, worker 1, task 1 (top.1 popper), operation 3, queue 0: took 10";
    assert!(two.contains(&format!("<title>{title}</title>")), "{two}");
    assert_eq!(two.matches("<title>").count(), 11);
    let (said, four) = drawn("1..4");
    assert!(said.contains("drawn for 4 workers, the most that were asked for;"));
    assert!(four.contains("workers 3 to 4 have nothing to do"));
    // The chain is the same, whatever the workers.
    let one = drawn("1").1;
    assert_eq!(
        [&one, &two, &four].map(|picture| chain(picture)),
        [DUE_CHAIN; 3]
    );
}

/// The answers along the chain of document 01's job: it goes by the third child, which
/// pushes 20.
const DUE_CHAIN: [&str; 7] = [
    "spawned", "spawned", "spawned", "pushed", "finished", "moved", "finished",
];

/// The words of the answers of the bars that are marked, in the order of the chain.
fn chain(picture: &str) -> [&str; 7] {
    [1, 2, 3, 4, 5, 6, 7].map(|number| {
        let end = format!("; number {number} of 7 in the chain</title>");
        let (before, _) = picture.split_once(&end).expect("a bar of the chain");
        let answer = before.rsplit(": ").next().expect("an answer");
        answer.split(' ').next().expect("a word")
    })
}

/// A schedule that is cut off, and one that is too long to be drawn whole.
#[test]
fn a_simulation_without_an_end_is_drawn() {
    let picture = Path::new(env!("CARGO_TARGET_TMPDIR")).join("stopped.svg");
    let drawn = |job: &str, workers| {
        let words = [
            "simulate",
            job,
            "--workers",
            workers,
            "--draw",
            word(&picture),
        ];
        assert_eq!(status(&tool(&words)), 1);
        fs::read_to_string(&picture).unwrap()
    };
    let endless = file(
        "for-ever.txt",
        b"length 1\nprocedure top all\nhere: go here",
    );
    let spent = drawn(word(&endless), "1");
    assert!(spent.contains("; the first 3000 ticks</text>"));
    assert!(!spent.contains("chain"));
    let crowd = "length 64
        procedure top all
        again: spawn slow 100
        go again
        procedure slow pop 0
        more: go-if-zero done
        add -1
        go more
        done: return";
    let crowd = file("slow.txt", crowd.as_bytes());
    let stopped = drawn(word(&crowd), "2");
    assert!(stopped.contains("under way at the stop"));
    assert!(!stopped.contains("chain"));
}

/// Of a chain that goes on behind the last tick drawn it is said how much is drawn.
#[test]
fn a_chain_that_is_too_long() {
    let picture = Path::new(env!("CARGO_TARGET_TMPDIR")).join("long.svg");
    let text = "length 1
        procedure top all
        add 900
        more: go-if-zero done
        sync
        add -1
        go more
        done: return";
    let job = file("long.txt", text.as_bytes());
    let given = tool(&["simulate", word(&job), "--draw", word(&picture)]);
    assert_eq!(status(&given), 0);
    let said = fs::read_to_string(&picture).unwrap();
    let due = "one longest chain: 3603 instructions, each of which needs the one before, \
               3604 ticks together; 3000 of them are drawn</text>";
    assert!(said.contains(due));
}

#[test]
fn a_picture_scales_and_tells() {
    let words: Vec<&str> = [&["draw", JOB][..], &STEPS].concat();
    let given = tool(&words);
    assert_eq!(status(&given), 0);
    let picture = out(&given);
    assert!(picture.starts_with("<svg xmlns=\"http://www.w3.org/2000/svg\" viewBox=\"0 0 "));
    assert!(picture.contains("<title>call 7, task 2 (top.1 popper), queue 0: took 10</title>"));
}

/// Of a step of operation 10, its queue, and an arrow from the push.
#[test]
fn a_picture_of_operation_10() {
    let given = tool(&["draw", "../../jobs/drain.txt", "0 1 0 2 2"]);
    assert_eq!(status(&given), 0);
    let picture = out(&given);
    assert!(picture.contains("<title>call 5, task 2 (top.1 checker), queue 0: took 3</title>"));
    assert_eq!(picture.matches("marker-end").count(), 1);
}

#[test]
fn a_closed_pipe_ends_it_quietly() {
    let mut command = Command::new(env!("CARGO_BIN_EXE_kettlepast"));
    command.args(["serial", "../../jobs/counted-loop.txt"]);
    let mut child = command
        .stdout(Stdio::piped())
        .stderr(Stdio::piped())
        .spawn()
        .unwrap();
    drop(child.stdout.take());
    let given = child.wait_with_output().unwrap();
    assert!(given.stderr.is_empty() && given.status.code().is_some());
}
