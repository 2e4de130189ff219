//! A picture of a simulation: a row a worker, a bar an instruction, with the number
//! and the colour of its task, above a scale of ticks. A long schedule goes on below
//! in further bands. A bar says more where one points at it. The bars of one longest
//! chain of the job are outlined.
//!
//! Schedule and chain are the model's; who draws them compares its answer with the
//! library's.

use crate::picture::{escaped, row_name};
use host::chain::Places;
use host::operations::{Which, OPERATIONS};
use host::schedule::{Bar, Schedule};
use std::fmt::Write;

/// Pixels: the room for the bars across, the height of a row and of the scale above
/// the rows, the space around.
const ACROSS: usize = 1_140;
const DOWN: usize = 26;
const SCALE: usize = 22;
const MARGIN: usize = 16;
/// Room for the names of the rows, and for the heading.
const LEFT: usize = 84;
const HEAD: usize = 44;
/// The most pixels of a tick, and so many a letter.
const WIDEST: usize = 40;
const LETTER: usize = 7;
/// Ticks between two lines of the scale.
const STEP: u32 = 5;
/// Ticks that are drawn at most.
pub const MOST_TICKS: u32 = 3_000;

/// The bars that did not come to their effect.
const CUT: &str = "under way at the stop";
const CUT_COLOUR: &str = "#b8b8b8";

/// The outline of the bars of the chain.
const CHAIN: &str = "stroke=\"#ff3b1f\" stroke-width=\"3\"";

/// Colours of tasks, in the order in which they first move, and then again from the
/// first; white letters can be read on each.
const COLOURS: [&str; 10] = [
    "#34495e", "#1f77b4", "#7d3c98", "#2e8b57", "#b9770e", "#0e7c86", "#a93266", "#6b7a1e",
    "#8a5a44", "#5d5fa8",
];

/// What is drawn.
pub struct Drawn<'a> {
    pub schedule: &'a Schedule,
    /// The longest chain that is marked; none where the job does not end.
    pub chain: Places,
    pub workers: usize,
    /// The names of the procedures, where they are known.
    pub names: &'a [String],
    pub heading: String,
}

/// A band of ticks, and the pixels of a tick.
struct Page {
    out: String,
    tick: usize,
    band: u32,
    rows: usize,
    end: u32,
    /// The last tick drawn is the last of the job, and is marked so.
    ends: bool,
    /// Whether there is a line of the legend about the chain.
    chain: bool,
}

/// A bar as it is drawn.
struct Marked<'a> {
    bar: &'a Bar,
    /// The name and the colour of its task.
    name: String,
    colour: &'static str,
    /// Its number in the chain, from 0.
    link: Option<usize>,
}

/// The picture as SVG.
pub fn svg(drawn: &Drawn) -> String {
    let schedule = drawn.schedule;
    let ends = schedule.bars.iter().map(|bar| bar.end);
    let end = ends.max().unwrap_or(1);
    let cut = schedule.bars.iter().any(|bar| bar.reply.is_none());
    let mut page = Page::new(schedule, end.min(MOST_TICKS));
    page.ends = !cut && end <= MOST_TICKS;
    page.chain = !drawn.chain.is_empty();
    page.head(drawn, end);
    for first in page.bands() {
        page.scale(first);
        page.names(first);
    }
    let (marked, names) = marked(drawn);
    marked
        .iter()
        .for_each(|bar| page.bar(bar, drawn.chain.len()));
    page.legend(&names, cut);
    page.chain_legend(&marked, &drawn.chain);
    page.put("</svg>");
    page.out
}

/// The bars with what is said of them, and the names of the tasks in the order in which
/// they first move.
fn marked<'a>(drawn: &Drawn<'a>) -> (Vec<Marked<'a>>, Vec<String>) {
    let (mut seen, mut names) = (Vec::new(), Vec::new());
    let mut bars = Vec::new();
    for (bar, place) in drawn.schedule.bars.iter().zip(drawn.schedule.places()) {
        let path = &place.0;
        let found = seen.iter().position(|other| other == path);
        let at = found.unwrap_or_else(|| {
            names.push(row_name(&(path.clone(), bar.procedure), drawn.names));
            seen.push(path.clone());
            seen.len() - 1
        });
        bars.push(Marked {
            bar,
            name: names[at].clone(),
            colour: colour(at),
            link: drawn.chain.get(&place).copied(),
        });
    }
    (bars, names)
}

/// The colour of the task that is the at-th to move.
fn colour(at: usize) -> &'static str {
    COLOURS[at % COLOURS.len()]
}

impl Page {
    /// A tick is as wide as the longest number needs, and wider where there is room.
    fn new(schedule: &Schedule, end: u32) -> Page {
        let most = schedule.bars.iter().map(|bar| bar.task).max().unwrap_or(0);
        let needed = LETTER * most.to_string().len() + 6;
        let tick = (ACROSS / end as usize).clamp(needed, WIDEST.max(needed));
        let fits = (ACROSS / tick) as u32;
        let band = if end <= fits { end } else { fits - fits % STEP };
        Page {
            out: String::new(),
            tick,
            band,
            rows: schedule.workers().max(1),
            end,
            ends: false,
            chain: false,
        }
    }

    /// The first tick of each band.
    fn bands(&self) -> impl Iterator<Item = u32> {
        (0..self.end).step_by(self.band as usize)
    }

    fn put(&mut self, element: &str) {
        self.out.push_str(element);
        self.out.push('\n');
    }

    fn band_height(&self) -> usize {
        SCALE + DOWN * self.rows + MARGIN
    }

    fn width(&self) -> usize {
        let ticks = self.band.min(self.end) as usize;
        (LEFT + ticks * self.tick + 2 * MARGIN).max(LEGEND)
    }

    /// Where a tick stands in the band that it is counted in.
    fn x(&self, tick: u32, first: u32) -> usize {
        LEFT + (tick - first) as usize * self.tick
    }

    /// The upper end of a band, and of a row in it.
    fn top(&self, first: u32) -> usize {
        HEAD + (first / self.band) as usize * self.band_height()
    }

    /// Where the legend begins, below all bands.
    fn legend_top(&self) -> usize {
        self.top(0) + self.bands().count() * self.band_height()
    }

    fn row(&self, first: u32, worker: usize) -> usize {
        self.top(first) + SCALE + DOWN * worker
    }

    fn text(&mut self, x: usize, y: usize, anchor: &str, colour: &str, text: &str) {
        let text = escaped(text);
        self.put(&format!(
            "<text x=\"{x}\" y=\"{y}\" text-anchor=\"{anchor}\" fill=\"{colour}\">{text}</text>"
        ));
    }

    fn head(&mut self, drawn: &Drawn, whole: u32) {
        let width = self.width();
        let height = self.legend_top() + (1 + usize::from(self.chain)) * LINE;
        self.put(&format!(
            "<svg xmlns=\"http://www.w3.org/2000/svg\" viewBox=\"0 0 {width} {height}\" \
             width=\"{width}\" height=\"{height}\" font-family=\"sans-serif\" font-size=\"11\">\n\
             <rect width=\"100%\" height=\"100%\" fill=\"white\"/>"
        ));
        let mut heading = drawn.heading.clone();
        if whole > self.end {
            let _ = write!(heading, "; the first {} ticks", self.end);
        }
        self.text(MARGIN, 20, "start", "#222", &heading);
        let used = self.rows;
        let idle = match drawn.workers - used.min(drawn.workers) {
            0 => return,
            1 => format!("worker {} has nothing to do", drawn.workers),
            _ => format!(
                "workers {} to {} have nothing to do",
                used + 1,
                drawn.workers
            ),
        };
        self.text(MARGIN, 36, "start", "#777", &idle);
    }

    /// Lines across the rows with the ticks above them.
    fn scale(&mut self, first: u32) {
        let last = (first + self.band).min(self.end);
        let (top, bottom) = (self.row(first, 0), self.row(first, self.rows));
        let mut ticks: Vec<u32> = (first..=last).filter(|tick| tick % STEP == 0).collect();
        // The end has a line too; one that is too near is left out.
        if last % STEP != 0 {
            let near = (4 * LETTER / self.tick) as u32;
            ticks.retain(|tick| last - tick > near);
            ticks.push(last);
        }
        for tick in ticks {
            let (x, up) = (self.x(tick, first), top - 4);
            let marked = self.ends && tick == self.end;
            let colour = if marked { "#222" } else { "#ddd" };
            self.put(&format!(
                "<line x1=\"{x}\" y1=\"{up}\" x2=\"{x}\" y2=\"{bottom}\" stroke=\"{colour}\"/>"
            ));
            let colour = if marked { "#222" } else { "#777" };
            self.text(x, top - 8, "middle", colour, &tick.to_string());
        }
    }

    fn names(&mut self, first: u32) {
        for worker in 0..self.rows {
            let y = self.row(first, worker) + DOWN / 2 + 4;
            self.text(
                LEFT - 8,
                y,
                "end",
                "#222",
                &format!("worker {}", worker + 1),
            );
        }
    }

    /// The bar in each band that it reaches into; the chain has so many.
    fn bar(&mut self, marked: &Marked, links: usize) {
        let bar = marked.bar;
        let title = escaped(&title(marked, links));
        let (colour, line) = match bar.reply {
            Some(_) if marked.link.is_some() => (marked.colour, CHAIN),
            Some(_) => (marked.colour, "stroke=\"none\""),
            None => (CUT_COLOUR, "stroke=\"#c0392b\" stroke-dasharray=\"3,2\""),
        };
        for first in self.bands().collect::<Vec<u32>>() {
            let start = bar.start.max(first);
            let end = bar.end.min(first + self.band).min(self.end);
            if start >= end {
                continue;
            }
            let (x, y) = (self.x(start, first) + 1, self.row(first, bar.worker) + 2);
            let width = (end - start) as usize * self.tick - 2;
            let label = escaped(&label(bar, width));
            self.put(&format!(
                "<g><title>{title}</title><rect x=\"{x}\" y=\"{y}\" width=\"{width}\" height=\"{}\" \
                 rx=\"3\" fill=\"{colour}\" {line}/><text x=\"{}\" y=\"{}\" text-anchor=\"middle\" \
                 fill=\"white\">{label}</text></g>",
                DOWN - 4,
                x + width / 2,
                y + DOWN / 2 + 2,
            ));
        }
    }

    /// Whose the colours are, as many tasks as there is room for; and of bars that did
    /// not come to their effect, if some did.
    fn legend(&mut self, names: &[String], cut: bool) {
        let y = self.legend_top() + MARGIN / 2;
        let said = "in a bar: the number of its task";
        let room = self.width() - MARGIN - LETTER * (said.len() + CUT.len());
        let mut x = MARGIN;
        let cut = cut.then_some((CUT_COLOUR, CUT));
        let tasks = names.iter().enumerate();
        let tasks = tasks.map(|(at, name)| (colour(at), name.as_str()));
        for (colour, word) in cut.into_iter().chain(tasks) {
            if x + 34 + LETTER * word.len() > room {
                self.text(x, y, "start", "#222", "..");
                x += 2 * LETTER + 6;
                break;
            }
            self.put(&format!(
                "<rect x=\"{x}\" y=\"{}\" width=\"12\" height=\"12\" rx=\"3\" fill=\"{colour}\"/>",
                y - 10
            ));
            self.text(x + 17, y, "start", "#222", word);
            x += 34 + LETTER * word.len();
        }
        self.text(x, y, "start", "#222", said);
    }

    /// What the outline means, and how many bars of the chain are drawn where not all
    /// are.
    fn chain_legend(&mut self, bars: &[Marked], chain: &Places) {
        if !self.chain {
            return;
        }
        let end = self.end;
        let links = bars.iter().filter(|bar| bar.link.is_some());
        let drawn = links.clone().filter(|bar| bar.bar.start < end).count();
        let ticks: u32 = links.map(|bar| bar.bar.end - bar.bar.start).sum();
        let y = self.legend_top() + LINE + MARGIN / 2;
        self.put(&format!(
            "<rect x=\"{MARGIN}\" y=\"{}\" width=\"12\" height=\"12\" rx=\"3\" fill=\"white\" {CHAIN}/>",
            y - 10
        ));
        let mut said = format!(
            "one longest chain: {} instructions, each of which needs the one before, {ticks} ticks together",
            chain.len()
        );
        if drawn < chain.len() {
            let _ = write!(said, "; {drawn} of them are drawn");
        }
        self.text(MARGIN + 17, y, "start", "#222", &said);
    }
}

/// Pixels that the legend needs, and the height of a line of it.
const LEGEND: usize = 850;
const LINE: usize = 24;

/// The task's number, with the answer where it fits.
fn label(bar: &Bar, width: usize) -> String {
    let number = bar.task.to_string();
    let Some(reply) = bar.reply else {
        return number;
    };
    let value = reply
        .value()
        .map_or(String::new(), |value| format!(" {value}"));
    let words = [
        format!("{number}: {}{value}", reply.word()),
        format!("{number}: {}", reply.word()),
    ];
    let fits = |text: &&String| LETTER * text.len() <= width;
    words.iter().find(fits).cloned().unwrap_or(number)
}

/// What is said where one points at a bar; the chain has so many.
fn title(marked: &Marked, links: usize) -> String {
    let (bar, name) = (marked.bar, &marked.name);
    let i = bar.instruction;
    let queue = match OPERATIONS[usize::from(i.operation)].which {
        Which::Queue(_) => format!(", queue {}", i.which),
        _ => String::new(),
    };
    let answer = bar.reply.map_or(CUT.to_string(), |reply| reply.to_string());
    let link = marked.link.map_or(String::new(), |link| {
        format!("; number {} of {links} in the chain", link + 1)
    });
    format!(
        "ticks {} to {}, worker {}, task {} ({name}), operation {}{queue}: {}{link}",
        bar.start,
        bar.end,
        bar.worker + 1,
        bar.task,
        i.operation,
        answer.trim_end_matches(" -"),
    )
}
