//! The words of a command line: a job, what stands behind it, and options.

use super::help::{Behind, Command};
use super::Fault;
use std::io::Read;

pub struct Words<'a> {
    command: &'a Command,
    pub file: &'a str,
    behind: Vec<&'a str>,
    /// Each with the word behind it.
    options: Vec<(&'a str, &'a str)>,
}

impl<'a> Words<'a> {
    pub fn new(command: &'a Command, words: &'a [String]) -> Result<Words<'a>, Fault> {
        let fault = |what: String| {
            let Command { name, form, .. } = command;
            Fault(format!("{name}: {what}\nkettlepast {form}"))
        };
        let (mut plain, mut options) = (Vec::new(), Vec::new());
        let mut rest = words.iter().map(String::as_str);
        while let Some(word) = rest.next() {
            if !word.starts_with("--") {
                plain.push(word);
                continue;
            }
            let number = command.options.contains(&word);
            if !number && !command.texts.contains(&word) {
                return Err(fault(format!("no option {word}")));
            }
            if options.iter().any(|(known, _)| *known == word) {
                return Err(fault(format!("{word} is given twice")));
            }
            let behind = rest.next();
            let good = behind.filter(|text| !number || text.parse::<u64>().is_ok());
            let needed = match word {
                _ if number => "a number",
                "--workers" => "a number or a range",
                _ => "the name of a file",
            };
            let text = good.ok_or_else(|| fault(format!("{word} needs {needed}")))?;
            options.push((word, text));
        }
        if plain.is_empty() {
            return Err(fault("the job is missing".to_string()));
        }
        let (file, behind) = (plain[0], plain.split_off(1));
        match command.behind {
            Behind::None if !behind.is_empty() => Err(fault(format!("{} is too much", behind[0]))),
            Behind::One(what) if behind.is_empty() => Err(fault(format!("{what} is missing"))),
            Behind::One(_) if behind.len() > 1 => Err(fault(format!("{} is too much", behind[1]))),
            _ => Ok(Words {
                command,
                file,
                behind,
                options,
            }),
        }
    }

    pub fn fault(&self, what: String) -> Fault {
        Fault(format!("{}: {what}", self.command.name))
    }

    /// The one word behind the job.
    pub fn one(&self) -> &str {
        self.behind[0]
    }

    /// The word behind an option, if that is given.
    pub fn text(&self, name: &str) -> Option<&'a str> {
        let given = self.options.iter().find(|(known, _)| *known == name);
        given.map(|(_, text)| *text)
    }

    /// The number of an option, or what it is without.
    pub fn option(&self, name: &str, without: u64) -> u64 {
        let number = self.text(name).and_then(|text| text.parse().ok());
        number.unwrap_or(without)
    }

    /// The numbers of tasks behind the job.
    pub fn tasks(&self) -> Result<Vec<u8>, Fault> {
        let mut text = self.behind.join(" ");
        if self.behind == ["-"] {
            text.clear();
            let read = std::io::stdin().read_to_string(&mut text);
            read.map_err(|e| self.fault(format!("standard input: {e}")))?;
        }
        let number = |word: &str| {
            let known = word.parse().ok();
            known.ok_or_else(|| self.fault(format!("{word} is no task number, which are 0 to 255")))
        };
        text.split_whitespace().map(number).collect()
    }
}
