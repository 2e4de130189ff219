//! The assembler: the form of the text, and every fault with its line. The
//! disassembler: its text, and the way back to the same bytes.

use host::asm::assemble;
use host::dis::disassemble;
use host::job::{Instruction, Job};

fn job(text: &str) -> Job {
    let bytes = assemble(text).unwrap_or_else(|fault| panic!("{fault}"));
    Job::read(&bytes).expect("accepted")
}

/// What is said of a text that is at fault.
fn fault(text: &str) -> String {
    let fault = assemble(text).expect_err("a fault");
    fault.to_string()
}

/// The fault of a body whose line 3 is given, in a job that is otherwise good.
fn fault_of_line(line: &str) -> String {
    let text =
        format!("length 4\nprocedure top all\n{line}\nreturn\nprocedure poor push 2\nreturn");
    fault(&text)
}

const EVERY_FORM: &str = "
# a comment
length 64                       # and another
queue blocks 0
queue alarm 3
procedure top all
start:  push blocks 4294967295
        push-register alarm -1
also:
start2: pop 2
        go-if-empty blocks end
        go start
        go-if-zero also
        add 7
        spawn poor 0
        sync
        take-or-go alarm also
end:    return
procedure poor push blocks pop alarm push 1
end: go end
";

#[test]
fn every_form() {
    let job = job(EVERY_FORM);
    assert_eq!(job.length(), 64);
    assert_eq!(job.procedures()[1].rights, 0b1000_0101);
    let body: Vec<(u8, u8, u32)> = job.procedures()[0]
        .body
        .iter()
        .map(|i: &Instruction| (i.operation, i.which, i.operand))
        .collect();
    let expected = [
        (1, 0, u32::MAX),
        (2, 3, u32::MAX),
        (3, 2, 0),
        (4, 0, 10),
        (5, 0, 0),
        (6, 0, 2),
        (7, 0, 7),
        (8, 1, 0),
        (9, 0, 0),
        (10, 3, 2),
        (0, 0, 0),
    ];
    assert_eq!(body, expected);
    let poor = job.procedures()[1].body[0];
    assert_eq!((poor.operation, poor.which, poor.operand), (5, 0, 0));
}

#[test]
fn disassembled() {
    let expected = "length 64

procedure p0 all
i0:
    push 0 4294967295
    push-register 3 -1
i2:
    pop 2
    go-if-empty 0 i10
    go i0
    go-if-zero i2
    add 7
    spawn p1 0
    sync
    take-or-go 3 i2
i10:
    return

procedure p1 push 0 push 1 pop 3
i0:
    go i0
";
    let job = job(EVERY_FORM);
    assert_eq!(disassemble(&job), expected);
    assert_eq!(assemble(expected), Ok(job.bytes()));
}

#[test]
fn faults_of_words() {
    let cases = [
        ("psh 0 1", "unknown word `psh`"),
        ("push 0", "the form is `push QUEUE NUMBER`"),
        ("push 0 1 2", "the form is `push QUEUE NUMBER`"),
        ("pop", "the form is `pop QUEUE`"),
        ("return 0", "the form is `return`"),
        ("go", "the form is `go LABEL`"),
        ("spawn poor", "the form is `spawn PROCEDURE NUMBER`"),
        ("go-if-empty 1", "the form is `go-if-empty QUEUE LABEL`"),
        ("take-or-go 1", "the form is `take-or-go QUEUE LABEL`"),
        ("push 4 1", "unknown queue `4`"),
        ("push blocks 1", "unknown queue `blocks`"),
        ("pop -1", "unknown queue `-1`"),
        ("go there", "unknown label `there`"),
        ("go 0", "unknown label `0`"),
        ("spawn nobody 0", "unknown procedure `nobody`"),
        ("spawn 1 0", "unknown procedure `1`"),
        ("1st: sync", "`1st` is not a name"),
        (": sync", "`` is not a name"),
        ("a b: sync", "unknown word `a`"),
    ];
    for (line, what) in cases {
        assert_eq!(fault_of_line(line), format!("line 3: {what}"));
    }
}

#[test]
fn faults_of_numbers() {
    for number in [
        "4294967296",
        "-2147483649",
        "ten",
        "1.5",
        "99999999999999999999",
    ] {
        let range = "is not a number from -2147483648 to 4294967295";
        for line in ["push 0", "push-register 0", "add", "spawn poor"] {
            let said = fault_of_line(&format!("{line} {number}"));
            assert_eq!(said, format!("line 3: `{number}` {range}"));
        }
    }
}

/// Whole texts, and what is said of each.
#[rustfmt::skip]
const WHOLE: [(&str, &str); 16] = [
    ("", "line 1: no line `length L`"),
    ("procedure top all\nreturn\n", "line 2: no line `length L`"),
    ("length 0", "line 1: length `0` is not 1 to 64"),
    ("length 65", "line 1: length `65` is not 1 to 64"),
    ("length", "line 1: the form is `length L`"),
    ("length 1\nlength 1", "line 2: the length is given twice"),
    ("length 1\n", "line 1: the number of procedures is not 1 to 64"),
    ("queue a 4", "line 1: queue number `4` is not 0 to 3"),
    ("queue a", "line 1: the form is `queue NAME NUMBER`"),
    ("queue 7 0", "line 1: `7` is not a name"),
    ("queue a 0\nqueue a 1", "line 2: queue `a` is named twice"),
    ("return", "line 1: no procedure stands before this line"),
    ("here: return", "line 1: no procedure stands before this line"),
    ("procedure", "line 1: the form is `procedure NAME RIGHTS`"),
    ("procedure 5 all", "line 1: `5` is not a name"),
    ("procedure a\nreturn\nprocedure a", "line 3: procedure `a` stands twice"),
];

#[test]
fn faults_of_the_whole() {
    for (text, said) in WHOLE {
        assert_eq!(fault(text), said);
    }
}

#[test]
fn faults_of_bodies() {
    let whole = |rest: &str| fault(&format!("length 4\nprocedure top all\n{rest}"));
    assert_eq!(
        whole("procedure next\nreturn"),
        "line 2: the number of instructions is not 1 to 128"
    );
    assert_eq!(
        whole(&"sync\n".repeat(129)),
        "line 131: a body has at most 128 instructions"
    );
    assert_eq!(
        whole("sync"),
        "line 3: the last instruction of a body is a return or a go"
    );
    assert_eq!(
        whole("go end\nend:"),
        "line 3: no instruction follows label `end`"
    );
    assert_eq!(
        whole("a: sync\na: return"),
        "line 4: label `a` stands twice"
    );
    let many: String = (0..64)
        .map(|k| format!("procedure p{k}\nreturn\n"))
        .collect();
    assert_eq!(
        whole(&format!("return\n{many}")),
        "line 130: a job has at most 64 procedures"
    );
}

#[test]
fn faults_of_rights() {
    let not_all = "length 4\nprocedure top push 0\nreturn";
    assert_eq!(
        fault(not_all),
        "line 2: the rights of procedure 0 are not 255"
    );
    let poor = |rights: &str, line: &str| {
        fault(&format!(
            "length 4\nprocedure top all\nreturn\nprocedure poor {rights}\n{line}\nreturn"
        ))
    };
    let lacking = "line 5: the procedure lacks that right on the queue";
    assert_eq!(poor("push 2", "pop 2"), lacking);
    assert_eq!(poor("push 2", "end: take-or-go 2 end"), lacking);
    assert_eq!(poor("pop 2", "push 2 1"), lacking);
    assert_eq!(poor("pop 2", "push-register 2 1"), lacking);
    assert_eq!(
        poor("push 2", "spawn top 0"),
        "line 5: the spawned procedure has a right its spawner lacks"
    );
    let form = "line 4: rights are `all`, or `push QUEUE` and `pop QUEUE`, not";
    assert_eq!(poor("push", ""), format!("{form} `push`"));
    assert_eq!(poor("take 1", ""), format!("{form} `take 1`"));
    assert_eq!(poor("push 1 all", ""), format!("{form} `all`"));
    assert_eq!(poor("push 4", ""), "line 4: unknown queue `4`");
}
