//! The commands: their forms, their options, and what they are for.

/// How many words stand behind the job.
pub enum Behind {
    None,
    /// One, which is this.
    One(&'static str),
    Any,
}

pub struct Command {
    pub name: &'static str,
    pub form: &'static str,
    pub behind: Behind,
    /// Options, each with a number behind it; and those with a word.
    pub options: &'static [&'static str],
    pub texts: &'static [&'static str],
    pub what: &'static str,
    pub more: &'static str,
}

impl Command {
    pub fn help(&self) -> String {
        let Command {
            form, what, more, ..
        } = self;
        format!("kettlepast {form}\n\n{what}\n\n{more}{JOB}{STATUS}")
    }
}

pub const OVERVIEW: &str = "\
kettlepast COMMAND JOB ..

    run JOB TASK..          run a job with overlap: each number makes a step of that task
    serial JOB              run it without overlap
    compare JOB             run it with overlap in many orders against the run without
    replay JOB TRACE        make a recorded run's steps again, and say which line of it differs
    simulate JOB            say how long the job takes with 1 to 16 workers, and how long at most
    draw JOB TASK..         draw a run with overlap (SVG)
    assemble TEXT OUT       write the job file of a text
    disassemble JOB         print a text that gives the same job
    test JOB                say whether it is a job

kettlepast COMMAND --help says more; kettlepast --version prints the version.
";

const JOB: &str = "JOB is a job file or a job as text; which of the two, its content tells.\n";

const STATUS: &str = "\
Exit status: 0 fine; 1 a difference, a refusal, or a run that was stopped; 2 the arguments or a file.\n";

const TASKS: &str = "\
TASK is the number of a task, 0 to 255, or several with blanks between them; a single - takes
them from standard input.\n";

pub const COMMANDS: [Command; 9] = [
    Command {
        name: "run",
        form: "run JOB TASK..",
        behind: Behind::Any,
        options: &[],
        texts: &[],
        what: "Opens the job and makes the steps, a line for each: its number, the task, the answer and its value.\n\
               Then come the values left, or how many tasks are unfinished.",
        more: TASKS,
    },
    Command {
        name: "serial",
        form: "serial JOB",
        behind: Behind::None,
        options: &[],
        texts: &[],
        what: "Runs the job without overlap: a line for each step, then the values left, or why the run stopped.",
        more: "",
    },
    Command {
        name: "compare",
        form: "compare JOB [--orders N] [--seed S]",
        behind: Behind::None,
        options: &["--orders", "--seed"],
        texts: &[],
        what: "Runs the job with overlap in N random orders (100) and compares every task's answers, and the values\n\
               left, with the run without overlap. It says how many answers were compared of how many.",
        more: "",
    },
    Command {
        name: "replay",
        form: "replay JOB TRACE",
        behind: Behind::One("the trace"),
        options: &[],
        texts: &[],
        what: "Makes the steps of a recorded run again. TRACE is the file of the lines that a run of the job printed, as\n\
               run prints them, at most 65,535 of them; a single - takes them from standard input. It says that all\n\
               agree, and how many of the lines that the run prints were there; or the first line that differs, with\n\
               the line that the run prints; or why the job or the trace is refused, with the line of the trace.",
        more: "",
    },
    Command {
        name: "simulate",
        form: "simulate JOB [--workers N | --workers A..B] [--draw FILE]",
        behind: Behind::None,
        options: &[],
        texts: &["--workers", "--draw"],
        what: "Simulates the job with N workers, with each number from A to B, or with each from 1 to 16. A worker takes\n\
               an instruction when it could move and holds it for its ticks; for operations 0 to 10 these are 2, 3, 3,\n\
               3, 2, 1, 1, 1, 5, 1 and 3. A row says the ticks used; the work, which is all ticks together; the span,\n\
               which is the ticks of the longest chain of instructions each of which needs the one before; the\n\
               ceiling, which the ticks never exceed: work plus workers - 1 times span, divided by workers, rounded\n\
               down; the speed-up, ticks of one worker divided by ticks, or - where one worker does not come to the\n\
               end; the utilisation, work divided by workers times ticks.\n\
               An instruction needs its task's previous one, the spawn of its task, the push of the value that it\n\
               finds, and the finish of each older sibling, child or pusher that it has to wait for.\n\
               A simulation that meets an instruction with no record or no segment free for it is stopped with 8 or\n\
               9; one that makes 65,535 steps without an end is spent.\n\
               --draw writes the picture (SVG) of the largest number, its first 3,000 ticks: a row for each worker, a bar\n\
               for each instruction with the number and the colour of its task. Where the job comes to its end the\n\
               bars of one longest chain are outlined; it is the same for every number of workers.",
        more: "",
    },
    Command {
        name: "draw",
        form: "draw JOB TASK..",
        behind: Behind::Any,
        options: &[],
        texts: &[],
        what: "Prints a picture (SVG) of the run in which these steps are made: a row for each task, a mark for each\n\
               step, an arrow from each push to the step that took its value.",
        more: TASKS,
    },
    Command {
        name: "assemble",
        form: "assemble TEXT OUT",
        behind: Behind::One("the file to write"),
        options: &[],
        texts: &[],
        what: "Writes the job that a text describes to the file OUT.",
        more: "",
    },
    Command {
        name: "disassemble",
        form: "disassemble JOB",
        behind: Behind::None,
        options: &[],
        texts: &[],
        what: "Prints a text that assembles to the same job.",
        more: "",
    },
    Command {
        name: "test",
        form: "test JOB",
        behind: Behind::None,
        options: &[],
        texts: &[],
        what: "Says whether the bytes are a job, or the number of the refusal and why.",
        more: "",
    },
];
