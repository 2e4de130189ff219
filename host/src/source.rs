//! The text of a job, read line by line: its length, the names of its queues,
//! and its procedures with their labels and instructions as words.
//!
//! A line is one of these, or empty; `#` begins a comment.
//!
//! ```text
//! length L                      values that a segment holds, 1 to 64
//! queue NAME NUMBER             a name for a queue, 0 to 3
//! procedure NAME RIGHTS         the lines that follow are its body
//! LABEL:                        the next instruction; one may follow on the line
//! OPERATION [QUEUE or PROCEDURE] [NUMBER or LABEL]
//! ```
//!
//! RIGHTS is `all`, or any number of `push QUEUE` and `pop QUEUE`. A QUEUE is a
//! name or a number. The first procedure is the top task. Names begin with a
//! letter; labels belong to their procedure.

use crate::job::{MOST_INSTRUCTIONS, MOST_LENGTH, MOST_PROCEDURES};
use crate::operations::{named, QUEUES};
use std::collections::BTreeMap;
use std::fmt;

/// What is wrong with the text, and the line (from 1) where it shows.
#[derive(Clone, Debug, PartialEq, Eq)]
pub struct Fault {
    pub line: usize,
    pub what: String,
}

impl fmt::Display for Fault {
    fn fmt(&self, f: &mut fmt::Formatter) -> fmt::Result {
        write!(f, "line {}: {}", self.line, self.what)
    }
}

/// The words of a line.
pub struct Words<'a> {
    pub line: usize,
    pub words: Vec<&'a str>,
}

impl<'a> Words<'a> {
    pub fn fault(&self, what: impl Into<String>) -> Fault {
        Fault {
            line: self.line,
            what: what.into(),
        }
    }

    /// The words after the first, which must be as many as `form` has.
    pub fn after_first<const N: usize>(&self, form: &str) -> Result<[&'a str; N], Fault> {
        let rest = self.words[1..].try_into();
        rest.map_err(|_| self.fault(format!("the form is `{form}`")))
    }
}

/// A procedure as it is written.
pub struct Draft<'a> {
    pub name: &'a str,
    /// The words of its rights.
    pub rights: Words<'a>,
    /// The instruction that each label stands before.
    pub labels: BTreeMap<&'a str, usize>,
    /// The number of each operation, and the words of the instruction.
    pub body: Vec<(u8, Words<'a>)>,
}

/// The whole text.
#[derive(Default)]
pub struct Source<'a> {
    pub length: Option<u16>,
    pub queues: BTreeMap<&'a str, u8>,
    pub procedures: Vec<Draft<'a>>,
    /// The number of the last line.
    pub lines: usize,
}

impl<'a> Source<'a> {
    pub fn read(text: &'a str) -> Result<Source<'a>, Fault> {
        let mut source = Source {
            lines: 1,
            ..Source::default()
        };
        for (line, written) in (1..).zip(text.lines()) {
            let code = written.split('#').next().unwrap_or("");
            let words = code.split_whitespace().collect();
            source.take(Words { line, words })?;
            source.lines = line;
        }
        Ok(source)
    }

    /// Takes the words of one line.
    fn take(&mut self, mut words: Words<'a>) -> Result<(), Fault> {
        while let Some(label) = words.words.first().and_then(|word| word.strip_suffix(':')) {
            self.label(&words, label)?;
            words.words.remove(0);
        }
        match words.words.first().copied() {
            None => Ok(()),
            Some("length") => self.length(&words),
            Some("queue") => self.queue(&words),
            Some("procedure") => self.procedure(&words),
            Some(word) => match named(word) {
                Some(operation) => self.instruction(operation, words),
                None => Err(words.fault(format!("unknown word `{word}`"))),
            },
        }
    }

    fn length(&mut self, words: &Words<'a>) -> Result<(), Fault> {
        let [written] = words.after_first("length L")?;
        let length = written.parse().ok();
        let Some(length) = length.filter(|l| (1..=MOST_LENGTH).contains(l)) else {
            return Err(words.fault(format!("length `{written}` is not 1 to 64")));
        };
        match self.length.replace(length) {
            None => Ok(()),
            Some(_) => Err(words.fault("the length is given twice")),
        }
    }

    fn queue(&mut self, words: &Words<'a>) -> Result<(), Fault> {
        let [name, written] = words.after_first("queue NAME NUMBER")?;
        let Some(queue) = written.parse().ok().filter(|q| *q < QUEUES) else {
            return Err(words.fault(format!("queue number `{written}` is not 0 to 3")));
        };
        new_name(words, name)?;
        match self.queues.insert(name, queue) {
            None => Ok(()),
            Some(_) => Err(words.fault(format!("queue `{name}` is named twice"))),
        }
    }

    fn procedure(&mut self, words: &Words<'a>) -> Result<(), Fault> {
        let Some((name, rights)) = words.words[1..].split_first() else {
            return Err(words.fault("the form is `procedure NAME RIGHTS`"));
        };
        new_name(words, name)?;
        if self.procedures.iter().any(|p| p.name == *name) {
            return Err(words.fault(format!("procedure `{name}` stands twice")));
        }
        if self.procedures.len() == MOST_PROCEDURES {
            return Err(words.fault("a job has at most 64 procedures"));
        }
        self.procedures.push(Draft {
            name,
            rights: Words {
                line: words.line,
                words: rights.to_vec(),
            },
            labels: BTreeMap::new(),
            body: Vec::new(),
        });
        Ok(())
    }

    /// The procedure whose body the line belongs to.
    fn open(&mut self, words: &Words<'a>) -> Result<&mut Draft<'a>, Fault> {
        let missing = words.fault("no procedure stands before this line");
        self.procedures.last_mut().ok_or(missing)
    }

    fn label(&mut self, words: &Words<'a>, label: &'a str) -> Result<(), Fault> {
        new_name(words, label)?;
        let draft = self.open(words)?;
        let place = draft.body.len();
        match draft.labels.insert(label, place) {
            None => Ok(()),
            Some(_) => Err(words.fault(format!("label `{label}` stands twice"))),
        }
    }

    fn instruction(&mut self, operation: u8, words: Words<'a>) -> Result<(), Fault> {
        let draft = self.open(&words)?;
        if draft.body.len() == MOST_INSTRUCTIONS {
            return Err(words.fault("a body has at most 128 instructions"));
        }
        draft.body.push((operation, words));
        Ok(())
    }
}

/// Names begin with a letter and have letters, digits, `-` and `_`.
fn new_name(words: &Words, name: &str) -> Result<(), Fault> {
    let letters = |c: char| c.is_ascii_alphanumeric() || c == '-' || c == '_';
    if name.starts_with(|c: char| c.is_ascii_alphabetic()) && name.chars().all(letters) {
        Ok(())
    } else {
        Err(words.fault(format!("`{name}` is not a name")))
    }
}
