//! Traces that are nearly what a run prints, for the replay. Some of them have
//! another form, some differ, and some agree still.

use crate::random::Random;

/// Lines with their line feeds.
type Lines = Vec<Vec<u8>>;
type Damage = fn(&mut Random, &mut Lines);

const DAMAGES: [Damage; 20] = [
    change_byte,
    drop_byte,
    add_byte,
    drop_line,
    double_line,
    swap_lines,
    cut_line,
    stop_in_a_line,
    add_line,
    add_line_at_the_end,
    move_end_forward,
    change_blank,
    change_number,
    change_number,
    change_number,
    change_call_number,
    change_task,
    change_answer,
    change_answer,
    change_value,
];

/// Bytes that stand in traces, or look as if they could.
const BYTES: &[u8] = b"0123456789 \n\r\t-+,.aelmnopstLM\0\xA0\xFF";
const ANSWERS: [&str; 9] = [
    "spawned", "pushed", "took", "refused", "finished", "moved", "waits", "empty", "not",
];
const NO_ANSWERS: [&str; 8] = ["Moved", "move", "left", "open", "spent", "job", "", "took,"];
const NUMBERS: [&str; 16] = [
    "0",
    "1",
    "3",
    "4",
    "00",
    "127",
    "128",
    "255",
    "256",
    "65535",
    "65536",
    "4294967295",
    "4294967296",
    "42949672950",
    "18446744073709551616",
    "0x1",
];
const LINES: [&str; 14] = [
    "\n",
    " \n",
    "\r\n",
    "job refused 10\n",
    "job refused 12\n",
    "spent\n",
    "refused 9\n",
    "open 1\n",
    "open 0\n",
    "open\n",
    "left 0 1\n",
    "left 3 4294967295\n",
    "left 4 1\n",
    "1 0 moved -\n",
];

/// A trace, damaged at random in one place or a few.
pub fn damaged(r: &mut Random, trace: &[u8]) -> Vec<u8> {
    let mut lines: Lines = trace
        .split_inclusive(|byte| *byte == b'\n')
        .map(<[u8]>::to_vec)
        .collect();
    for _ in 0..r.pick(&[1, 1, 1, 1, 1, 2, 2, 4]) {
        r.pick(&DAMAGES)(r, &mut lines);
    }
    lines.concat()
}

/// A place in the list; none in an empty one.
fn place<T>(r: &mut Random, list: &[T]) -> Option<usize> {
    (!list.is_empty()).then(|| r.below(list.len() as u32) as usize)
}

fn some_line<'a>(r: &mut Random, lines: &'a mut Lines) -> Option<&'a mut Vec<u8>> {
    place(r, lines).map(|at| &mut lines[at])
}

/// A line and a place of a byte in it.
fn some_byte<'a>(r: &mut Random, lines: &'a mut Lines) -> Option<(&'a mut Vec<u8>, usize)> {
    let line = some_line(r, lines)?;
    place(r, line).map(|at| (line, at))
}

fn byte_near(r: &mut Random, byte: u8) -> u8 {
    match r.below(5) {
        0 => r.word() as u8,
        1 => byte.wrapping_add(1),
        2 => byte.wrapping_sub(1),
        _ => r.pick(BYTES),
    }
}

fn change_byte(r: &mut Random, lines: &mut Lines) {
    if let Some((line, at)) = some_byte(r, lines) {
        line[at] = byte_near(r, line[at]);
    }
}

fn drop_byte(r: &mut Random, lines: &mut Lines) {
    if let Some((line, at)) = some_byte(r, lines) {
        line.remove(at);
    }
}

fn add_byte(r: &mut Random, lines: &mut Lines) {
    if let Some((line, at)) = some_byte(r, lines) {
        line.insert(at, byte_near(r, line[at]));
    }
}

fn drop_line(r: &mut Random, lines: &mut Lines) {
    if let Some(at) = place(r, lines) {
        lines.remove(at);
    }
}

fn double_line(r: &mut Random, lines: &mut Lines) {
    if let Some(at) = place(r, lines) {
        lines.insert(at, lines[at].clone());
    }
}

/// Two lines exchanged, mostly neighbours.
fn swap_lines(r: &mut Random, lines: &mut Lines) {
    let Some(at) = place(r, lines) else {
        return;
    };
    let other = match r.chance(60) {
        true => (at + 1) % lines.len(),
        false => r.below(lines.len() as u32) as usize,
    };
    lines.swap(at, other);
}

/// A line loses its end, mostly with its line feed kept.
fn cut_line(r: &mut Random, lines: &mut Lines) {
    if let Some((line, at)) = some_byte(r, lines) {
        line.truncate(at);
        if r.chance(80) {
            line.push(b'\n');
        }
    }
}

/// The trace stops in a line, or just before its last line feed.
fn stop_in_a_line(r: &mut Random, lines: &mut Lines) {
    if r.chance(50) {
        if let Some(at) = place(r, lines) {
            lines.truncate(at + 1);
        }
    }
    let Some(last) = lines.last_mut() else {
        return;
    };
    if let Some(at) = place(r, last) {
        let keep = if r.chance(50) { at } else { last.len() - 1 };
        last.truncate(keep);
    }
}

fn add_line(r: &mut Random, lines: &mut Lines) {
    let at = r.below(lines.len() as u32 + 1) as usize;
    lines.insert(at, r.pick(&LINES).into());
}

/// A line more than are printed: mostly one of a good form.
fn add_line_at_the_end(r: &mut Random, lines: &mut Lines) {
    let (queue, value) = (r.below(5), r.below(30));
    let line = match r.below(5) {
        0 => format!("left {queue} {value}\n"),
        1 => format!("open {value}\n"),
        2 => format!("{} {value} moved -\n", lines.len() + 1),
        3 => r.pick(&LINES).to_string(),
        _ => match lines.last() {
            Some(last) => return lines.push(last.clone()),
            None => "open 1\n".to_string(),
        },
    };
    lines.push(line.into_bytes());
}

/// The last line, which mostly tells the end, stands before some call.
fn move_end_forward(r: &mut Random, lines: &mut Lines) {
    if let Some(last) = lines.pop() {
        let at = r.below(lines.len() as u32 + 1) as usize;
        lines.insert(at, last);
    }
}

/// A blank more, at an end or beside another, or another sign for it.
fn change_blank(r: &mut Random, lines: &mut Lines) {
    let Some(line) = some_line(r, lines) else {
        return;
    };
    let blanks: Vec<usize> = (0..line.len()).filter(|at| line[*at] == b' ').collect();
    let behind = line.len().saturating_sub(1);
    match (r.below(6), place(r, &blanks)) {
        (0, _) => line.insert(0, b' '),
        (1, _) => line.insert(behind, b' '),
        (2, _) => line.insert(behind, b'\r'),
        (3, Some(at)) => line[blanks[at]] = r.pick(b"\t\r\n_,"),
        (_, Some(at)) => line.insert(blanks[at], b' '),
        _ => {}
    }
}

/// Writes word number `at` of the line anew, if it has one.
fn rewrite(line: &mut Vec<u8>, at: usize, write: impl FnOnce(&str) -> String) {
    let text = String::from_utf8_lossy(line).into_owned();
    let (text, end) = match text.strip_suffix('\n') {
        Some(text) => (text, "\n"),
        None => (&text[..], ""),
    };
    let mut words: Vec<String> = text.split(' ').map(str::to_string).collect();
    if let Some(word) = words.get_mut(at) {
        *word = write(word);
        *line = (words.join(" ") + end).into_bytes();
    }
}

/// Another way to write a number, or a number near it, or one that is the same
/// where high bits are lost.
fn number_near(r: &mut Random, word: &str) -> String {
    let number: u128 = word.parse().unwrap_or(0);
    match r.below(12) {
        0 => format!("0{word}"),
        1 => format!("+{word}"),
        2 => format!("-{word}"),
        3 => format!("{word}0"),
        4 => (number + (1 << 32)).to_string(),
        5 => (number + (1 << 64)).to_string(),
        6 => (number + 256).to_string(),
        7 => number.saturating_sub(1).to_string(),
        8 => r.word().to_string(),
        9 => r.pick(&NUMBERS).to_string(),
        _ => (number + 1).to_string(),
    }
}

fn change_number(r: &mut Random, lines: &mut Lines) {
    if let Some(line) = some_line(r, lines) {
        let at = r.below(4) as usize;
        rewrite(line, at, |word| match word.parse::<u64>() {
            Ok(_) => number_near(r, word),
            Err(_) => word.to_string(),
        });
    }
}

/// The line of a call gets any number; only its form may matter.
fn change_call_number(r: &mut Random, lines: &mut Lines) {
    if let Some(line) = some_line(r, lines) {
        rewrite(line, 0, |_| r.below(20).to_string());
    }
}

fn change_task(r: &mut Random, lines: &mut Lines) {
    let most = r.pick(&[4, 130, 300]);
    if let Some(line) = some_line(r, lines) {
        rewrite(line, 1, |_| r.below(most).to_string());
    }
}

/// Another answer, mostly with what goes with it.
fn change_answer(r: &mut Random, lines: &mut Lines) {
    let Some(line) = some_line(r, lines) else {
        return;
    };
    if r.chance(20) {
        return rewrite(line, 2, |_| r.pick(&NO_ANSWERS).to_string());
    }
    let which = r.below(ANSWERS.len() as u32) as usize;
    rewrite(line, 2, |_| ANSWERS[which].to_string());
    if r.chance(70) {
        rewrite(line, 3, |_| match which {
            0..4 => r.below(12).to_string(),
            _ => "-".to_string(),
        });
    }
}

/// "-" in place of a number or a number in place of "-"; or another value.
fn change_value(r: &mut Random, lines: &mut Lines) {
    if let Some(line) = some_line(r, lines) {
        rewrite(line, 3, |word| match (word, r.below(4)) {
            ("-", 0) => String::new(),
            ("-", 1) => "--".to_string(),
            ("-", _) => r.below(3).to_string(),
            (_, 0) => "-".to_string(),
            (_, _) => number_near(r, word),
        });
    }
}
