//! A picture of a run: a row a task, a mark a step, waits in grey, an arrow
//! from each push to the step that took its value. The calls are numbered, a
//! mark has the number of its queue in it, and says more where one points at it.

use crate::on_off::name;
use crate::proved_run::ProvedRun;
use host::job::Job;
use host::operations::{Which, OPERATIONS};
use host::overlap::Path;
use host::overlap_text::line;
use host::plain::Reply;
use host::runner::Stepped;
use std::collections::VecDeque;

/// Pixels between two calls, between two rows, and around the picture.
const ACROSS: usize = 34;
const DOWN: usize = 30;
const MARGIN: usize = 40;
/// The names of the rows stand in front of every so many calls.
const REPEATED: usize = 24;
/// Pixels across that the legend takes.
const LEGEND: usize = 860;
/// Room for the names of tasks: so many pixels a letter.
const LETTER: usize = 7;

struct Mark {
    call: usize,
    task: u32,
    /// The row of the task; none where no unfinished task had the number.
    row: Option<usize>,
    /// The queue that its instruction uses.
    queue: Option<u8>,
    answer: Stepped,
}

/// An item of program order: a push by its call, a take, or a task's spot.
enum Item {
    Push { queue: u8, call: usize },
    Take { queue: u8 },
    Spot(Path),
}

#[derive(Default)]
struct Drawing {
    /// Each task with the procedure that it runs.
    rows: Vec<(Path, usize)>,
    marks: Vec<Mark>,
    /// From the call of a push to the call that took its value.
    arrows: Vec<(usize, usize)>,
    order: Vec<Item>,
}

impl Drawing {
    fn row(&mut self, path: &Path, procedure: usize) -> usize {
        let found = self.rows.iter().position(|(row, _)| row == path);
        found.unwrap_or_else(|| {
            self.rows.push((path.clone(), procedure));
            self.rows.len() - 1
        })
    }

    fn spot(&self, path: &Path) -> usize {
        let is = |item: &Item| matches!(item, Item::Spot(own) if own == path);
        self.order.iter().position(is).expect("the task has a spot")
    }

    /// The call of the push whose value is taken at this place.
    fn taken(&self, at: usize, wanted: u8) -> Option<usize> {
        let mut pending = VecDeque::new();
        for item in &self.order[..at] {
            match item {
                Item::Push { queue, call } if *queue == wanted => pending.push_back(*call),
                Item::Take { queue } if *queue == wanted => {
                    pending.pop_front();
                }
                _ => {}
            }
        }
        pending.pop_front()
    }

    /// A step that moved, in its place in program order.
    fn note(&mut self, path: &Path, child: Option<Path>, queue: u8, call: usize, reply: Reply) {
        let at = self.spot(path);
        match reply {
            Reply::Pushed(_) => self.order.insert(at, Item::Push { queue, call }),
            Reply::Took(_) => {
                let from = self.taken(at, queue).expect("a value is pending");
                self.arrows.push((from, call));
                self.order.insert(at, Item::Take { queue });
            }
            Reply::Spawned(_) => {
                let child = child.expect("a new task has a path");
                self.order.insert(at, Item::Spot(child));
            }
            Reply::Finished => {
                self.order.remove(at);
            }
            _ => {}
        }
    }

    /// Makes the step of a task and notes it.
    fn step(&mut self, run: &mut ProvedRun, job: &Job, call: usize, task: u32) {
        let path = run.log.path(task).cloned();
        let at = path.as_ref().map(|_| run.place(task));
        let instruction = at.map(|(procedure, at)| &job.procedures()[procedure].body[at]);
        let queue = instruction.and_then(|i| match OPERATIONS[usize::from(i.operation)].which {
            Which::Queue(_) => Some(i.which),
            _ => None,
        });
        let answer = run.step(task);
        let row = path
            .as_ref()
            .zip(at)
            .map(|(path, (procedure, _))| self.row(path, procedure));
        self.marks.push(Mark {
            call,
            task,
            row,
            queue,
            answer,
        });
        if let (Stepped::Moved(reply), Some(path)) = (answer, path) {
            let child = match reply {
                Reply::Spawned(number) => run.log.path(number).cloned(),
                _ => None,
            };
            if let (Some(child), Some(i)) = (&child, instruction) {
                self.row(child, usize::from(i.which));
            }
            self.note(&path, child, queue.unwrap_or(0), call, reply);
        }
    }
}

/// The drawing, or the number with which the job is refused.
fn drawing(bytes: &[u8], tasks: &[u32]) -> Result<Drawing, u32> {
    let mut run = ProvedRun::open(bytes)?;
    let job = Job::read(bytes).map_err(|refusal| refusal.number())?;
    let mut drawing = Drawing::default();
    drawing.row(&Path::default(), 0);
    drawing.order.push(Item::Spot(Path::default()));
    for (call, task) in tasks.iter().enumerate() {
        drawing.step(&mut run, &job, call, *task);
    }
    Ok(drawing)
}

/// Colour and letter of a mark; a wait is grey.
fn look(answer: Stepped) -> (&'static str, String) {
    let Stepped::Moved(reply) = answer else {
        return match answer {
            Stepped::Refused(number) => ("#c0392b", number.to_string()),
            _ => ("#b8b8b8", String::new()),
        };
    };
    match reply {
        Reply::Spawned(_) => ("#7d3c98", "+".to_string()),
        Reply::Pushed(value) => ("#1f77b4", value.to_string()),
        Reply::Took(value) => ("#2e8b57", value.to_string()),
        Reply::Finished => ("#222222", String::new()),
        Reply::Empty => ("#d98e04", "empty".to_string()),
        Reply::Not => ("#d98e04", "not".to_string()),
        Reply::Moved => ("#8aa0b4", String::new()),
    }
}

/// The text of the picture, and how far its marks stand from the left.
struct Page {
    out: String,
    left: usize,
    width: usize,
}

fn y(row: usize) -> usize {
    MARGIN + DOWN * row
}

/// Text as it may stand in the picture.
pub(crate) fn escaped(text: &str) -> String {
    text.replace('&', "&amp;").replace('<', "&lt;")
}

impl Page {
    /// The names stand again in front of each part of the calls.
    fn x(&self, call: usize) -> usize {
        self.left * (call / REPEATED + 1) + ACROSS * (call + 1)
    }

    fn put(&mut self, element: String) {
        self.out.push_str(&element);
        self.out.push('\n');
    }

    /// Text with a white rim, so that an arrow behind it leaves it legible.
    fn text(&mut self, x: usize, y: usize, anchor: &str, colour: &str, text: &str) {
        let text = escaped(text);
        self.put(format!(
            "<text x=\"{x}\" y=\"{y}\" text-anchor=\"{anchor}\" fill=\"{colour}\" \
             stroke=\"white\" stroke-width=\"3\" paint-order=\"stroke\">{text}</text>"
        ));
    }

    fn dot(&mut self, x: usize, y: usize, colour: &str, inside: &str, title: &str) {
        let title = escaped(title);
        self.put(format!(
            "<g><title>{title}</title><circle cx=\"{x}\" cy=\"{y}\" r=\"6\" fill=\"{colour}\"/>\
             <text x=\"{x}\" y=\"{}\" text-anchor=\"middle\" font-size=\"8\" fill=\"white\">{inside}</text></g>",
            y + 3
        ));
    }

    fn head(&mut self, height: usize) {
        let width = self.width;
        self.put(format!(
            "<svg xmlns=\"http://www.w3.org/2000/svg\" viewBox=\"0 0 {width} {height}\" \
             width=\"{width}\" height=\"{height}\" font-family=\"sans-serif\" font-size=\"11\">\n\
             <defs><marker id=\"tip\" markerWidth=\"7\" markerHeight=\"7\" refX=\"6\" \
             refY=\"3\" orient=\"auto\"><path d=\"M0,0 L6,3 L0,6 z\" fill=\"#555\"/></marker>\
             </defs>\n<rect width=\"100%\" height=\"100%\" fill=\"white\"/>"
        ));
    }

    fn rows(&mut self, names: &[String], calls: usize) {
        let (left, right) = (self.left, self.width - MARGIN);
        for (row, name) in names.iter().enumerate() {
            let at = y(row);
            self.put(format!(
                "<line x1=\"{left}\" y1=\"{at}\" x2=\"{right}\" y2=\"{at}\" stroke=\"#e4e4e4\"/>"
            ));
            for first in (0..calls.max(1)).step_by(REPEATED) {
                let end = self.x(first) - ACROSS;
                self.text(end - 6, at + 4, "end", "#222", name);
            }
        }
    }

    /// An arrow that ends at the rim of the mark that it leads to.
    fn arrow(&mut self, from: (usize, usize), to: (usize, usize)) {
        let (x1, y1, x2, y2) = (from.0 as f64, from.1 as f64, to.0 as f64, to.1 as f64);
        let length = (x2 - x1).hypot(y2 - y1).max(1.0);
        let (dx, dy) = (9.0 * (x2 - x1) / length, 9.0 * (y2 - y1) / length);
        let (x2, y2) = (x2 - dx, y2 - dy);
        self.put(format!(
            "<line x1=\"{x1}\" y1=\"{y1}\" x2=\"{x2:.1}\" y2=\"{y2:.1}\" stroke=\"#555\" \
             marker-end=\"url(#tip)\"/>"
        ));
    }

    fn mark(&mut self, mark: &Mark, y: usize, name: &str) {
        let x = self.x(mark.call);
        let (colour, text) = look(mark.answer);
        let queue = mark.queue.map_or(String::new(), |queue| queue.to_string());
        self.dot(x, y, colour, &queue, &title(mark, name));
        self.text(x, y - 9, "middle", colour, &text);
        self.text(x, 14, "middle", "#999", &(mark.call + 1).to_string());
    }

    fn legend(&mut self, y: usize) {
        let mut x = self.left;
        for (colour, word) in KINDS {
            self.dot(x, y, colour, "", word);
            self.text(x + 9, y + 4, "start", "#222", word);
            x += 30 + LETTER * word.len();
        }
        self.text(x, y + 4, "start", "#222", "in a mark: its queue");
    }
}

/// What is said where one points at a mark.
fn title(mark: &Mark, name: &str) -> String {
    let queue = mark
        .queue
        .map_or(String::new(), |queue| format!(", queue {queue}"));
    let said = line(mark.call + 1, mark.task as u8, mark.answer);
    let answer = said.splitn(3, ' ').last().unwrap_or("").trim_end();
    format!(
        "call {}, task {} ({name}){queue}: {answer}",
        mark.call + 1,
        mark.task
    )
}

const KINDS: [(&str, &str); 8] = [
    ("#7d3c98", "spawned"),
    ("#1f77b4", "pushed"),
    ("#2e8b57", "took"),
    ("#d98e04", "empty, not"),
    ("#8aa0b4", "moved"),
    ("#222222", "finished"),
    ("#b8b8b8", "waits"),
    ("#c0392b", "refused"),
];

/// The name of a row: the task's place in the tree of spawns and its procedure.
pub(crate) fn row_name((path, procedure): &(Path, usize), procedures: &[String]) -> String {
    match procedures.get(*procedure) {
        Some(known) if !path.is_empty() || known != "top" => format!("{} {known}", name(path)),
        _ => name(path),
    }
}

/// The picture of a run as SVG, or the number with which the job is refused.
pub fn svg(bytes: &[u8], procedures: &[String], tasks: &[u32]) -> Result<String, u32> {
    let drawing = drawing(bytes, tasks)?;
    let named = drawing.rows.iter().map(|row| row_name(row, procedures));
    let mut names: Vec<String> = named.collect();
    let nobody = names.len();
    if drawing.marks.iter().any(|mark| mark.row.is_none()) {
        names.push("no task".to_string());
    }
    let longest = names.iter().map(String::len).max().unwrap_or(0);
    let left = MARGIN + LETTER * longest;
    let mut page = Page {
        out: String::new(),
        left,
        width: 0,
    };
    page.width = (page.x(tasks.len().max(1) - 1) + ACROSS + MARGIN).max(left + LEGEND);
    page.head(y(names.len()) + MARGIN);
    page.rows(&names, tasks.len());
    let row = |mark: &Mark| mark.row.unwrap_or(nobody);
    let place = |mark: &Mark, page: &Page| (page.x(mark.call), y(row(mark)));
    for (from, to) in &drawing.arrows {
        let ends = [from, to].map(|call| place(&drawing.marks[*call], &page));
        page.arrow(ends[0], ends[1]);
    }
    for mark in &drawing.marks {
        page.mark(mark, y(row(mark)), &names[row(mark)]);
    }
    page.legend(y(names.len()) + 10);
    page.put("</svg>".to_string());
    Ok(page.out)
}
