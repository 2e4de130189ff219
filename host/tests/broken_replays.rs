//! That the random traces can show an error: replays that err in one place, made
//! from the model's, each of which has to give another answer than the model to
//! some trace.

use host::job::Job;
use host::layout::WORDS;
use host::random::Random;
use host::random_traces::{of_a_run, of_many_lines, turned_down, Case};
use host::replay::Judged::{self, Agrees, Differs, Refused};
use host::replay::{printed, replay};
use host::runner::RUNNER;
use host::trace::{self, Fault, Line, MOST_LINES};

fn model(case: &Case) -> Judged {
    let (mut words, mut runner) = (vec![7; case.words], vec![7; case.runner]);
    replay(&case.job, &case.trace, &mut words, &mut runner)
}

/// The model's answer on another trace.
fn on(case: &Case, trace: Vec<u8>) -> Judged {
    let mut case = case.clone();
    case.trace = trace;
    model(&case)
}

/// The model's answer on lines that are changed first.
fn on_lines(case: &Case, change: impl Fn(usize, &str) -> String) -> Judged {
    let text = String::from_utf8_lossy(&case.trace).into_owned();
    let lines = text.split_inclusive('\n').enumerate();
    let changed: String = lines.map(|(at, line)| change(at, line)).collect();
    on(case, changed.into_bytes())
}

/// The model's answer on words that are changed first.
fn on_words(case: &Case, change: impl Fn(usize, &str) -> String) -> Judged {
    on_lines(case, |_, line| {
        let (line, end) = match line.strip_suffix('\n') {
            Some(line) => (line, "\n"),
            None => (line, ""),
        };
        let words = line.split(' ').enumerate();
        let changed: Vec<String> = words.map(|(at, word)| change(at, word)).collect();
        changed.join(" ") + end
    })
}

/// The lines before the first that is none, and what is wrong with that one.
fn well_formed(case: &Case) -> (Vec<u8>, Option<Fault>) {
    match trace::read(&case.trace) {
        Ok(_) => (case.trace.clone(), None),
        Err(malformed) => {
            let lines = case.trace.split_inclusive(|byte| *byte == b'\n');
            let before: Vec<&[u8]> = lines.take(malformed.line - 1).collect();
            (before.concat(), Some(malformed.fault))
        }
    }
}

/// How many lines the run prints for the calls of the trace.
fn lines_printed(case: &Case) -> u32 {
    let lines = trace::read(&case.trace).expect("a trace");
    printed(&case.job, &lines).lines().count() as u32
}

/// The lines before a fault of this kind, in place of the refusal.
fn cut_at(case: &Case, fault: Fault) -> Judged {
    match well_formed(case) {
        (before, Some(found)) if found == fault => on(case, before),
        _ => model(case),
    }
}

fn form_after_a_difference(case: &Case) -> Judged {
    match (model(case), on(case, well_formed(case).0)) {
        (Refused(13), Differs(line)) => Differs(line),
        (other, _) => other,
    }
}

fn form_of_the_last_line_alone(case: &Case) -> Judged {
    let (before, fault) = well_formed(case);
    let lines = |trace: &[u8]| trace.split_inclusive(|byte| *byte == b'\n').count();
    let last = lines(&before) + 1 == lines(&case.trace);
    match fault {
        Some(_) if !last => on(case, before),
        _ => model(case),
    }
}

fn form_before_the_job(case: &Case) -> Judged {
    match (model(case), trace::read(&case.trace)) {
        (Refused(10..=12), Err(_)) => Refused(13),
        (other, _) => other,
    }
}

fn form_before_the_lengths(case: &Case) -> Judged {
    match (model(case), trace::read(&case.trace)) {
        (Refused(1), Err(_)) => Refused(13),
        (other, _) => other,
    }
}

fn job_before_the_lengths(case: &Case) -> Judged {
    match (model(case), Job::read(&case.job)) {
        (Refused(1), Err(refusal)) => Refused(refusal.number()),
        (other, _) => other,
    }
}

fn runner_of_any_length(case: &Case) -> Judged {
    let mut case = case.clone();
    case.runner = RUNNER;
    model(&case)
}

fn core_of_any_length(case: &Case) -> Judged {
    let mut case = case.clone();
    case.words = WORDS;
    model(&case)
}

fn any_call_number(case: &Case) -> Judged {
    let Ok(lines) = trace::read(&case.trace) else {
        return model(case);
    };
    on_lines(case, |at, line| match lines[at] {
        Line::Call { task, answer, .. } => {
            let number = at as u32 + 1;
            Line::Call {
                number,
                task,
                answer,
            }
            .to_string()
        }
        _ => line.to_string(),
    })
}

fn longer_agrees(case: &Case) -> Judged {
    match model(case) {
        Differs(line) if line == lines_printed(case) + 1 => Agrees,
        other => other,
    }
}

fn shorter_differs(case: &Case) -> Judged {
    let lines = case.trace.split_inclusive(|byte| *byte == b'\n').count() as u32;
    match model(case) {
        Agrees if lines < lines_printed(case) => Differs(lines + 1),
        other => other,
    }
}

fn counted_from_0(case: &Case) -> Judged {
    match model(case) {
        Differs(line) => Differs(line - 1),
        other => other,
    }
}

fn leading_zeros(case: &Case) -> Judged {
    on_words(case, |_, word| match word.trim_start_matches('0') {
        "" if !word.is_empty() => "0".to_string(),
        rest if rest.starts_with(|sign: char| sign.is_ascii_digit()) => rest.to_string(),
        _ => word.to_string(),
    })
}

fn plus_signs(case: &Case) -> Judged {
    on_words(case, |_, word| {
        word.strip_prefix('+').unwrap_or(word).to_string()
    })
}

fn high_bits_lost(case: &Case) -> Judged {
    on_words(case, |_, word| match word.parse::<u64>() {
        Ok(number) if number > u64::from(u32::MAX) => (number as u32).to_string(),
        _ => word.to_string(),
    })
}

fn tasks_of_a_byte(case: &Case) -> Judged {
    on_words(case, |at, word| match word.parse::<u32>() {
        Ok(number) if at == 1 && number > 255 => (number % 256).to_string(),
        _ => word.to_string(),
    })
}

fn queues_of_two_bits(case: &Case) -> Judged {
    on_lines(case, |_, line| match line.strip_prefix("left 4 ") {
        Some(value) => format!("left 0 {value}"),
        None => line.to_string(),
    })
}

fn no_line_feed_at_the_end(case: &Case) -> Judged {
    on_lines(case, |_, line| {
        line.trim_end_matches('\n').to_string() + "\n"
    })
}

fn carriage_returns(case: &Case) -> Judged {
    on_lines(case, |_, line| line.replace("\r\n", "\n"))
}

fn blanks_at_the_end(case: &Case) -> Judged {
    on_lines(case, |_, line| line.replace(" \n", "\n"))
}

fn two_blanks(case: &Case) -> Judged {
    on_lines(case, |_, line| line.replace("  ", " "))
}

fn empty_lines(case: &Case) -> Judged {
    on_lines(case, |_, line| line.trim_start_matches('\n').to_string())
}

fn a_dash_for_0(case: &Case) -> Judged {
    on_lines(case, |_, line| {
        let numbered = ["spawned", "pushed", "took", "refused"];
        let changed =
            |line: String, word: &str| line.replace(&format!("{word} -\n"), &format!("{word} 0\n"));
        numbered.into_iter().fold(line.to_string(), changed)
    })
}

fn a_number_for_a_dash(case: &Case) -> Judged {
    on_lines(case, |_, line| {
        line.replace("waits 0\n", "waits -\n")
            .replace("moved 0\n", "moved -\n")
    })
}

fn calls_behind_the_end(case: &Case) -> Judged {
    cut_at(case, Fault::CallBehindTheEnd)
}

fn words_of_other_answers(case: &Case) -> Judged {
    cut_at(case, Fault::NoSuchAnswer)
}

fn a_line_too_many(case: &Case) -> Judged {
    let lines = case.trace.split_inclusive(|byte| *byte == b'\n');
    let first: Vec<&[u8]> = lines.take(MOST_LINES).collect();
    on(case, first.concat())
}

fn a_line_too_few(case: &Case) -> Judged {
    match trace::read(&case.trace) {
        Ok(lines) if lines.len() == MOST_LINES => Refused(13),
        _ => model(case),
    }
}

type Replay = fn(&Case) -> Judged;
type Cases = fn(&mut Random) -> Vec<Case>;

/// Whether the replay errs on one of the cases of these rounds.
fn noticed(replay: Replay, cases: Cases, rounds: u64) -> bool {
    let errs = |case: Case| replay(&case) != model(&case);
    (0..rounds).any(|round| cases(&mut Random::new(round)).into_iter().any(errs))
}

fn all_noticed(cases: Cases, rounds: u64, replays: &[(&str, Replay)]) {
    for (name, replay) in replays {
        assert!(noticed(*replay, cases, rounds), "no trace shows it: {name}");
    }
}

#[test]
fn errors_of_the_answer() {
    all_noticed(
        of_a_run,
        300,
        &[
            ("13 behind a difference", form_after_a_difference),
            ("13 for the last line alone", form_of_the_last_line_alone),
            ("any call number agrees", any_call_number),
            ("a line more agrees", longer_agrees),
            ("a line less differs", shorter_differs),
            ("lines counted from 0", counted_from_0),
            ("a call behind the end", calls_behind_the_end),
        ],
    );
}

#[test]
fn errors_of_the_form() {
    all_noticed(
        of_a_run,
        2_000,
        &[
            ("leading zeros", leading_zeros),
            ("plus signs", plus_signs),
            ("4294967296 and more", high_bits_lost),
            ("task 256 and more", tasks_of_a_byte),
            ("queue 4", queues_of_two_bits),
            ("no line feed at the end", no_line_feed_at_the_end),
            ("carriage returns", carriage_returns),
            ("blanks at the end", blanks_at_the_end),
            ("two blanks", two_blanks),
            ("empty lines", empty_lines),
            ("a dash for 0", a_dash_for_0),
            ("a number for a dash", a_number_for_a_dash),
            ("words of other answers", words_of_other_answers),
        ],
    );
}

#[test]
fn errors_of_the_order() {
    all_noticed(
        turned_down,
        300,
        &[
            ("13 before the job's refusals", form_before_the_job),
            ("13 before 1", form_before_the_lengths),
            ("the job's refusals before 1", job_before_the_lengths),
            ("a runner of any length", runner_of_any_length),
            ("a core of any length", core_of_any_length),
        ],
    );
}

#[test]
fn errors_of_the_number_of_lines() {
    let replays: [(&str, Replay); 2] = [
        ("65,536 lines", a_line_too_many),
        ("65,535 lines refused", a_line_too_few),
    ];
    all_noticed(of_many_lines, 1, &replays);
}

/// What these are made with does not err by itself.
#[test]
fn no_error_of_their_own() {
    let unchanged = |case: &Case| on_words(case, |_, word| word.to_string());
    assert!(!noticed(unchanged, of_a_run, 100));
    assert!(!noticed(unchanged, turned_down, 100));
}
